"""The subcommands, those that share something in a file: each function takes the options and gives the exit status."""
