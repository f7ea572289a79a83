"""Many runs: campaigns, random lives, and searches for a scenario that breaks a property."""
