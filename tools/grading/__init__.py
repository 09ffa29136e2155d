"""What tools/grade knows: tasks, how a deck is run for one, and what is written of it."""
