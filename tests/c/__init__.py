"""Tests of the library for C."""
