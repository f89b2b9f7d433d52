"""The parts of `tools/differences`.

- The cases: `case.py` says what a case is, and `catalogue.py` lists the topics, a file each. `steps.py` has the calls
  that many cases make, and `replies.py` finds members that a reply lacks.
- A run: `options.py` reads the words, `endpoint.py` makes calls, `faults.py` reads replies, `streams.py` makes and
  deletes streams, `runner.py` runs the cases, `verdict.py` judges what came, `page.py` holds docs/differences.md to
  the cases.
- The checks of all this are in tests/differences."""
