"""All cases: each topic's file makes its scene. The order here is that of a run."""
import importlib

from differing.case import SCENES

TOPICS = (
    'protocol features operations fields routing puts reads refusals limits retention '
    'splitting merging scaling listing large endings'
).split()


def scenes():
    for topic in TOPICS:
        importlib.import_module(f'differing.{topic}')
    return SCENES
