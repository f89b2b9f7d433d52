"""Tests of `kds serve` by clients of all kinds."""
