"""The scripts and their programs from the command line, tried in a folder laid out as the repository is."""
