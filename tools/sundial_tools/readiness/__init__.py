"""sundial-readiness: what each loss of a fabric does, and whether it can be planned again after it."""
