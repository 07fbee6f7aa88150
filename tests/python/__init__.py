"""Tests of the Python module over the library for C."""
