"""What is read of SUMO's files; ways through a network (way_, router, trips); and the import that makes a run of it
(import_)."""
