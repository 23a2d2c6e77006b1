"""Runs a program with each of its requests for memory counted, and one of them refused, or one and all later ones, by
the library made from tests/support/refuse_memory.c."""
import os

import harness
from harness import ROOM


def library():
    """The library that refuses memory, or None if it can't be built."""
    return harness.library("refuse_memory", "refuses memory")


def told_by(runs, settings):
    """A run with the library, started by `runs` with an environment, and the figures that the library reports."""
    tally = os.path.join(ROOM, "tally")
    if os.path.exists(tally):
        os.remove(tally)
    environment = {"LD_PRELOAD": library(), "REFUSE_MEMORY_TELL": tally}
    environment.update({f"REFUSE_MEMORY_{name.upper()}": str(value) for name, value in settings.items()})
    ended = runs(environment)
    if not os.path.exists(tally):
        return ended, [0, 0, 0, 0]
    with open(tally) as told:
        return ended, list(map(int, told.read().split()))


def tallied(runs, **settings):
    """Such a run, the number of its requests, and the greatest and the sum of them, in bytes."""
    ended, figures = told_by(runs, settings)
    return ended, *figures[:3]


def counted(runs, **settings):
    """Such a run, the number of its requests and the greatest of them, in bytes."""
    ended, figures = told_by(runs, settings)
    return ended, *figures[:2]


def most_held(runs, **settings):
    """Such a run, and the maximum number of bytes held at a time."""
    ended, figures = told_by(runs, settings)
    return ended, figures[3]
