#!/usr/bin/env python3
"""What the program `ready` must print, worked out from the rules.

    python3 tests/ready.py --script    the script it is run on
    python3 tests/ready.py             its lines, in the ready form

The script tells the story of one count: how many ticks from pending upward have
every seat's frame. Where it changes or might be thought to, it stands beside the
record. crates/ready/stdin and stdout hold what this prints; a test says so.
"""

import sys

import outside
import rules
from outside import ADVANCE, LEAVE, PUMP, REPORT
from outside import commit_record, message_record, open_record, submit_record
from rules import Bye, Digest, Inputs, Params

TRIO = Params(count=3, local=1, width=2, delay=1, period=2, seed=7, content=8, rules=9, session=5)


def press(seat, tick):
    """What a seat plays: its letter and the tick's."""
    return bytes((ord("a") + seat, ord("A") + tick % 26))


def local(tick):
    return submit_record(press(TRIO.local, tick))


def inputs(seat, first, count=1):
    run = b"".join(press(seat, first + index) for index in range(count))
    return message_record(seat, Inputs(seat, TRIO.session, first, count, TRIO.width, run))


def commit(tick):
    """A digest is due at each even tick, and is the tick."""
    return commit_record(tick, tick % TRIO.period == 0, tick)


def digest(seat, tick, state):
    return message_record(seat, Digest(seat, TRIO.session, tick, state, 0))


def hello(seat):
    return message_record(seat, outside.good_hello(TRIO, seat))


def unknown():
    return outside.record(99, b"?")


def before_any_open():
    yield ADVANCE  # none
    yield unknown()
    yield open_record(TRIO._replace(count=1))  # refused, so still none
    yield PUMP


def a_gap():
    """Ticks 0 to 3, the Inputs of seat 2 out of order."""
    yield open_record(TRIO)  # 0
    yield hello(0)
    yield hello(2)
    yield local(0)
    yield local(1)
    yield ADVANCE  # stalled
    yield inputs(0, 0, 4)  # 0: nothing of seat 2
    yield inputs(2, 1)  # 0: one tick too far
    yield inputs(2, 0)  # 2
    yield local(2)
    yield local(3)
    yield inputs(2, 3)  # 2: a gap at tick 2, and tick 3 is full behind it
    yield PUMP
    yield inputs(2, 2)  # 4


def a_stall():
    """Four ticks are played, then there is nothing."""
    yield ADVANCE  # a step is out: 4 still
    yield ADVANCE
    yield commit(1)  # 51
    yield commit_record(0, 0, 0)  # 52
    yield commit(0)  # 3
    for tick in (1, 2, 3):
        yield ADVANCE
        yield commit(tick)  # one fewer each
    yield ADVANCE  # stalled at 0
    yield ADVANCE
    yield inputs(0, 4)
    yield ADVANCE  # stalled still, for others


def a_full_window():
    """Ticks 4 to 67, which is as far as it goes."""
    for first in range(4, 68, 8):
        yield inputs(0, first, 8)  # tick 4 for the second time
    for first in range(4, 60, 8):
        yield inputs(2, first, 8)
    yield inputs(2, 60, 6)
    yield inputs(2, 67)  # all of the window but tick 66
    for tick in range(4, 68):
        yield local(tick)  # one more each, up to the gap: 62
    yield local(68)  # 42
    yield inputs(2, 68)  # 27, a frame beyond the window, and 62 still
    yield inputs(2, 66)  # 64
    yield inputs(2, 68)  # 27, and 64 still
    yield inputs(0, 66, 8)  # 27: two frames repeated, six beyond the window
    yield inputs(2, 4, 8)  # a message repeated whole
    wrong = Inputs(2, TRIO.session, 5, 1, TRIO.width, b"??")
    yield message_record(2, wrong)  # 28
    yield message_record(2, wrong._replace(width=1, run=b"?"))  # 29
    yield submit_record(b"?")  # 41


def playing_on():
    """The ring has turned: tick 68 takes tick 4's cell."""
    yield ADVANCE  # 64, with a step out
    yield inputs(0, 68)  # 27: the window moves at the commit
    yield commit(4)  # 63
    yield inputs(0, 68)
    yield inputs(2, 68)
    yield local(68)  # 64
    for tick in range(5, 10):
        yield ADVANCE
        yield commit(tick)  # 63 to 59
    yield inputs(2, 70)  # a gap at tick 69
    yield open_record(TRIO._replace(width=0))  # refused, so all stays
    yield unknown()
    yield PUMP


def an_outcome():
    """Seat 0 agrees on tick 8, seat 2 parts there, and a step is out."""
    yield digest(0, 8, 8)
    yield ADVANCE
    yield digest(2, 8, 9)  # desynced, and the count stays
    yield REPORT
    yield ADVANCE  # waiting
    yield commit(10)  # one fewer
    yield ADVANCE  # ended: nothing will step, but the frames are there
    yield inputs(2, 69)  # nothing comes in any more
    yield local(69)
    yield PUMP
    yield LEAVE


def another_circle():
    """Nobody has said Hello, so that nothing plays; then somebody leaves."""
    yield open_record(TRIO)  # 0 again
    yield local(0)
    yield inputs(2, 0, 2)
    yield inputs(0, 0)  # 1
    yield ADVANCE  # waiting
    yield message_record(2, Bye(2, TRIO.session, 1))  # 1
    yield ADVANCE  # one who left is still stepped with
    yield commit(0)  # 0
    yield ADVANCE
    yield ADVANCE[:-1]  # cut by the end


def records():
    yield from before_any_open()
    yield from a_gap()
    yield from a_stall()
    yield from a_full_window()
    yield from playing_on()
    yield from an_outcome()
    yield from another_circle()


def lines():
    return rules.text(b"".join(records()), rules.READY).splitlines()


def main(words):
    if words == ["--script"]:
        sys.stdout.buffer.write(b"".join(records()))
    elif not words:
        sys.stdout.write("".join(line + "\n" for line in lines()))
    else:
        sys.exit(__doc__)


if __name__ == "__main__":
    main(sys.argv[1:])
