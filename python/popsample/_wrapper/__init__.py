"""The command-line wrapper of the program."""
