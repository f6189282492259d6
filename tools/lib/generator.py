"""Scripts by seed and index."""

from lib import circle, limits
from lib.dice import Dice

SORTS = {"circle": circle.script, "limits": limits.script}


def sort_of(index):
    """The two sorts in turn."""
    return list(SORTS)[index % len(SORTS)]


def script(seed, index, sort=None):
    """One script, the same for the same arguments."""
    return SORTS[sort or sort_of(index)](Dice(seed, index))
