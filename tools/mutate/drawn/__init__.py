"""Drawn runs of a session: a caller and a server, both drawn by a seed, of which nothing is known but the RFCs and the lines."""
