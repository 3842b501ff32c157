"""A plain replay, by the definitions and without a check of the plans."""
