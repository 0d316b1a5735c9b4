"""Slow, plain forms of the store, its files, its lists of events and its locks. They share no code with the crates, and import nothing but each other."""
