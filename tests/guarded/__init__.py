"""Errors that are raised at each call of one board, a page and typed lines, while a second board plays on."""
