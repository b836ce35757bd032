"""The greatest numbers that the program streetsim takes, and its units."""
CELL_METRES = 7.5
GAP_METRES = 2.5  # the part of a vehicle's cells that is the gap ahead of it: SUMO's default, so a car is 5 m long
CELL_KMH = 27  # one cell a step of one second
NODES = 4_096  # of a network
LINKS = 4_096  # of a network
TURNS = 32_768  # of a network
CELLS = 1_000_000  # of a link
LIMIT = 5  # cells a step
KMH = range(5, 131)  # limits of streets that the tools take
SIZE = 4  # cells of a vehicle
RESIDENCE = 60  # steps in a node's buffer, at least
BUFFER = 64  # vehicles that a buffer holds
PLAN = 1_024  # links of a vehicle's plan
VEHICLES = 1_000_000  # that enter in a run
CLOCK = 1_000_000_000  # steps
STEPS = 10_000  # of one advance
PHASES = 16  # of a signal's plan
PHASE_STEPS = 600  # of one phase
METERS = 1_024  # detectors
PERIOD = 100_000  # steps of a detector's row
ROWS = 32  # that a detector keeps
LINE = 1_048_576  # bytes


def cells_of_length(metres: float) -> int:
    """How many cells of 7.5 m a lane of this length in metres has, rounded; one at least."""
    return max(1, round(metres / CELL_METRES))
