"""Builds, the release and the bench. Each module that has something to do does it in main(), where it is run by its path."""
import os

top = os.path.dirname(os.path.dirname(os.path.realpath(__file__)))
