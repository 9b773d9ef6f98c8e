"""The documents of the repository, and whether they keep their form."""
