"""The tool sundial-exchanges."""
