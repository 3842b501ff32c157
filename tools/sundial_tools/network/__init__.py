"""The tool sundial-topology."""
