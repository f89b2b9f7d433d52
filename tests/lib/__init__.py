"""What tests, checks, benchmarks and tools share. Their folders have a `lib.py` that finds these modules."""
