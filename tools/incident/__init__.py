"""The parts of `tools/schedule` and `tools/dump`."""
