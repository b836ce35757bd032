"""What everything stands on: files, the client, words of commands, progress, processes, seeds."""
