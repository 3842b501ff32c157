"""The tool sundial-lines."""
