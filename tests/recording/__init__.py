"""Tests of `tools/record`."""
