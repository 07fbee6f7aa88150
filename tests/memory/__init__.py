"""Runs with requests for memory refused."""
