"""What searches take where no word tells it."""
LONGEST_TRIP = 7200  # seconds that a run of a search for routes may last after the last departure
CHANGES = ("offsets", "splits", "cycle")
CYCLES = "60-120"  # seconds
DRAWN = 500  # seconds of the pictures
LEAST_GREEN = 5  # seconds of a green that may be stretched
