"""Checks of tracks and of the steps on them."""
