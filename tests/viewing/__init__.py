"""What `tests/viewer` looks at tools/journal.html with."""
