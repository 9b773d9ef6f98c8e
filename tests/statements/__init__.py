"""The statements of the public functions: whether each says its whole result, and whom it serves."""
