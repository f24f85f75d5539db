"""Runs a script under many schedules, of seeds or all of them, and tells its outcomes."""
