"""Tests of `tools/schedule` and `tools/dump`."""
