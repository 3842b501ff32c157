"""The tool sundial-report."""
