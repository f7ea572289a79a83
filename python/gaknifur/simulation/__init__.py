"""Scenarios, and trains in a closed loop with an onboard unit."""
