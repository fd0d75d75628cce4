"""The second program's own tests: `python3 second/tests` runs them all, from any directory."""
