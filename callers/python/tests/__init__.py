"""Tests of the package, run from the folder above: python3 -B -W error -m unittest discover -s tests -t ."""
