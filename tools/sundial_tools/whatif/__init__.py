"""sundial-whatif: a schedule for one's own network and plans, from words, and what happened in it."""
