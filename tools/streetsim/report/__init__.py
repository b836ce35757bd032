"""What runs left behind, read back and shown: tables of several seeds, and SUMO's own outputs beside (run_,
edge_values, beside_sumo); pictures by matplotlib, and the page that plays a run (picture_, player); pages of
streetsim-report, and what is sealed in them (page_, plan_); files for geographic information systems (gis_). What reads
a table of a run raises a Fault where that cannot be read, as Folder says."""
