"""What callers pass (graphs, formulas, keys and options) and how it is read into numbers."""
