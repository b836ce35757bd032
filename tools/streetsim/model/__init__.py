"""A run and the map of its names, and the tables that it leaves, as they are written and read."""
