"""Tests of buckets on a NATS server."""
