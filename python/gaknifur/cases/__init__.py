"""Test cases: reading, running and judging them, their coverage, other units' answers, and the pytest plugin."""
