"""The tool sundial-why: what a printed line means, in words."""
