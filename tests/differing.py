"""The parts of tools/differences: the modules of this package stand in tools/differing."""
import pathlib

__path__ = [str(pathlib.Path(__file__).resolve().parent.parent / 'tools' / 'differing')]
