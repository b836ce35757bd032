"""streetsim-run as the tests run it: with each run it sees that the segments of each vehicle add up to its trip."""
import runpy
import sys
from pathlib import Path

TOOLS = Path(__file__).resolve().parents[1]


def wrong_sums(segments, trips, clock):
    """The numbers of vehicles whose segments do not add up to the seconds from the wished departure to the arrival, or
    to the end of the run, a clock."""
    import numpy

    ends, departs = segments.ends(), segments.departs
    seconds = numpy.zeros(len(departs), numpy.int64)
    numpy.add.at(seconds, ends.owner, ends.clock.astype(numpy.int64) - ends.since)
    until = numpy.where(trips.arrival > 0, trips.arrival, numpy.maximum(clock, departs))
    return numpy.flatnonzero(seconds != until - departs).tolist()


def main():
    """Runs a tool: its path and words are those of the command line."""
    sys.argv, sys.path[0] = sys.argv[1:], str(TOOLS)
    from streetsim.observe.run_making import RunTables

    write = RunTables.write

    def checked_write(made, folder, rows, clock):
        """Writes the tables of a run whose segments add up."""
        wrong = wrong_sums(made.segments, made.trips, clock)
        assert not wrong, f"segments of vehicles {wrong[:5]} do not add up to their trips"
        write(made, folder, rows, clock)

    RunTables.write = checked_write
    runpy.run_path(sys.argv[0], run_name="__main__")


if __name__ == "__main__":
    main()
