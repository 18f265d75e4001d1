"""The functions of the package: for one sample, for series, and for logs and certificates."""
