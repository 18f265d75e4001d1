"""Judges what popsample printed, from the definitions alone: docs/FORMATS.md and docs/DEFINITIONS.md."""
