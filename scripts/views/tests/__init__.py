"""Tests of the reader and of the four forms: `python3 -m unittest discover -s scripts -t scripts`."""
