"""The tool sundial-watch."""
