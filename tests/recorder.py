"""The parts of tools/record: the modules of this package stand in tools/recorder."""
import pathlib

__path__ = [str(pathlib.Path(__file__).resolve().parent.parent / 'tools' / 'recorder')]
