"""Comparisons of rv with other tools, and random or damaged files: `tests/compare.py` runs them."""
