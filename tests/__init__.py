"""Tests of the program, of the libraries and of the pages, which run.py runs by parts. What they import from Python's package is that of
the repository."""
import os, sys

from scripts import top

__all__ = ["top"]
sys.path.insert(0, os.path.join(top, "python"))
