"""Seals of images."""
