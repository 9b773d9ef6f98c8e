"""The must-fail edits: whether each is refused for the fact that it names."""
