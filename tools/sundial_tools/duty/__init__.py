"""The tool sundial-duty."""
