"""The tests of each call, a folder each: what is right (oracle), what it is called with (cases), and the wrong ones that these must detect (mutants)."""
