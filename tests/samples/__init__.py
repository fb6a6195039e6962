"""Samples for the program `samples`: lines, a loader with its checks, whole files. Each module gives the entries of the script with what the program prints of them."""
