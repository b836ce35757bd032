"""Observers of a run: what makes its tables from the seconds of its record, and the folder with its setting.

junction_: movements, approaches and junctions, with control delay, level of service, queues, v/c. An approach is the
edge that leads to a junction, with those before that it alone continues; a movement goes from an approach to the next
edge; a lane key is the (link, lane) of a run. sumo_: SUMO's output files (tripinfo, summary, edgeData, fcd, queue, e1,
e2); what writes a file raises a Fault where it cannot be written. giving_way_: rounds of a run, by which vehicles find
gaps where there is no light.
"""
