"""A model of document 01, written from its text alone.

Nothing here is taken from the library: the two meet only in their results.
Each module names the section of document 01 that it states.
"""
