"""The package of what programs share: its modules stand in tests/lib."""
import pathlib

__path__ = [str(pathlib.Path(__file__).resolve().parent.parent / 'tests' / 'lib')]
