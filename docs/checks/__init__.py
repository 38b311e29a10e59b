"""The checks that docs/check.py runs, one purpose a file."""
