"""Tests of the module for Go."""
