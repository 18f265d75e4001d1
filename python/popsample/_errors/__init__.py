"""Exceptions that don't come of an answer; `popsample.errors` has all."""
