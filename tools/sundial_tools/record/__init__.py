"""The tool sundial-record."""
