"""Tools for planners around streetsim: they speak its lines of JSON and trust nothing else."""

VERSION = "1.0.0"  # as pyproject.toml, the list of changes and the program have it
