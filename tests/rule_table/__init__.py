"""The table of rules, docs/RULES.md: whether it has a row for all that the tree of fields can refuse."""
