"""Reads the public calls of the crates with their contracts, and writes them as one page and as the lists of the READMEs."""
