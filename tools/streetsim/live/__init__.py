"""A page that runs the simulation: watched, changed, and saved as lines."""
