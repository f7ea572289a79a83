"""Telegrams in the variables of SUBSET-026, 7.5.1, and the packets that a track sends."""
