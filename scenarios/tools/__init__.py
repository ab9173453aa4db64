"""Scenarios: streams as text, what a program must write for them, and runs of the built program on them."""
