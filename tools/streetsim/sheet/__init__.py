"""Sheets of offices: a junction, or a street of junctions, as a spreadsheet describes it; what is wrong in it by cell;
SUMO's plain files, plans and flows of it, and a picture of what was understood."""
