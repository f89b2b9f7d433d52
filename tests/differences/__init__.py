"""Tests of `tools/differences`. `stand.py` and `planted.py` are servers before `kds`, made by `behind.py`.
tests/alone.py runs clients where nothing can leave the machine, and `watch` sees where they connect to."""
