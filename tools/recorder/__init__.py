"""The parts of `tools/record`."""
