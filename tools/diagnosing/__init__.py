"""What tools/why knows: why a deck is refused, with repairs that were tried, and what is odd in one that runs."""
