"""The tool sundial-cut."""
