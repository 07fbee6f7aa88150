"""Tests of the package for Rust."""
