"""The commands: each module reads the words of one, has the packages below do the work, and prints what came of it. Its
main gives the status of the command. It raises a Fault where what is asked for cannot be done: words are wrong or do
not fit to each other, a file cannot be read or written or is not what it should be, something is not installed, or a
run fails. Words that its parser does not know end the process, with status 2. argparse.Namespace stays here: packages
below get settings of their own."""
