"""Controllers of a run: what acts between its seconds. Those that are due at one clock act in this order:

merging before works, buses, lights that detectors drive, the end of a run without a last second, rescues, the lines of
the run's file, changes of lights by time of day, giving way at lights. Buses call lights, so these come behind them;
whether the run is over is decided by what the second left, before a rescue enters vehicles anew; the file's own lines
come last but for these, as they have the last word on lights and closures, and a change by time of day shows what its
line has put in force. Who gives way decides by the plans that all others have put in force.

What they stand on: works_ and merging_, road works, which are stretches of lanes that are closed for a time; actuated_
and nema_, lights that detectors drive, as SUMO's types actuated and NEMA; bus_, buses that stop, and lights that wait
for them; yielding_, turns that give way at lights.
"""
