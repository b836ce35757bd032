"""A run of the program under SUMO's names. `streetsim.scenario`, `streetsim.traci` and `streetsim.env` are its faces.

session: the run itself, on the kernel, for scenarios and for TraCI; script_settings: what a script asks of it; client:
its program and kernel, for lines of a script's own; fleet: its vehicles; view: where each vehicle is; connections: how
links lead on; signals_in_force: what its lights show; calls: those that scenarios and TraCI both have; detours: routes
round shut edges, of scenarios.

For TraCI: opening, options, street_facts: SUMO's words and files; tally, inside, vehicle_points: how long and how far,
and where in the plane; columns: values of many vehicles or lanes at once; lights, types: programs of lights, and types
of vehicles; shortest_paths, rerouting: other routes; deeds, saving: states; statistics: SUMO's last lines; writing:
output files."""
