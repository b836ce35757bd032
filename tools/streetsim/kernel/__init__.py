"""The one loop over the seconds of a run: the program with its record, controllers that act, observers that look."""
