"""Tests of the Python package, against the model's streams and journals and against the worked vectors.

From the root: PYTHONPATH=python /usr/bin/python3 -m unittest discover -t python -s python/tests"""
