"""The parts of bench/all: what is timed, beside what, and how."""
