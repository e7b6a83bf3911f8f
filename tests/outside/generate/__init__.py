"""Seeded random material: plans, texts, sets and certificates, good and damaged.

Every function takes its `random.Random` first; nothing depends on anything
else that varies, so a seed gives the same material on every machine.
"""
