"""Searches, and studies: runs by many seeds and plans, on this machine's cores or on others (run_); route plans by
feedback between a router and runs (route_); signal plans, written, reckoned and searched (signal_); variants of a run
and what they differ by (study_)."""
