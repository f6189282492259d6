#!/usr/bin/env python3
"""What the program `handmade` must print, worked out from the rules.

    python3 tests/handmade.py --script    the script it is run on
    python3 tests/handmade.py             its lines

The sessions are those of crates/handmade/src/main.rt, in its order: none of them
can be reached by calls. The script holds every kind of record, and is run on
each session from its first record on, from its second on, and so on, in the
trace form. Then it is asked what is ready, of each of these sessions and of more
whose windows are full or nearly so: of the record as built, and along the script.
crates/handmade/stdin and stdout hold what this prints; a test says so.
"""

import sys

import outside
import rules
from rules import U64_MAX, Fingerprint, Outcome, Params, Step

TRIO = Params(3, 1, 2, 1, 2, 7, 8, 9, 5)


def session(params=TRIO, **changes):
    made = rules.Session(params)
    for name, value in changes.items():
        assert hasattr(made, name), name
        setattr(made, name, value)
    return made


def prints_astray():
    made = session(
        owed=Fingerprint(True, 40, 41, 42), playing=True, hello_marks=7, pending=9, next_local=9, step=Step(True, 9, True))
    made.own[3] = Fingerprint(True, 100, 11, 12)
    made.own[9] = Fingerprint(True, 9, 13, 14)
    made.remote[0][9] = Fingerprint(True, 25, 15, 0)
    made.remote[2][9] = Fingerprint(True, 9, 16, 17)
    return made


def parted_astray():
    made = prints_astray()
    made.outcome, made.pending = Outcome(rules.DESYNCED, 0, 9), 0
    return made


def ring_of_strangers():
    made = session(playing=True, pending=6, next_local=70)
    made.ring_ticks[5], made.ring_seats[5] = 69, 255
    made.ring_ticks[6], made.ring_seats[6] = 6, 255
    made.ring[rules.place_of(6, 1)] = 171
    return made


def sessions():
    yield session(pending=U64_MAX, next_local=U64_MAX, playing=True, last_stalled=U64_MAX)
    yield session(hello_marks=250, playing_marks=248, pending=3, next_local=2)
    yield session(playing=True, hello_marks=7, next_local=9, pending=4, outcome=Outcome(rules.PEER_LEFT, 200, U64_MAX))
    yield session(playing=True, pending=5, next_local=6, step=Step(True, 77, True))
    yield prints_astray()
    yield parted_astray()
    yield session(pump_kind=rules.KIND_INPUTS, pump_place=255, owed=Fingerprint(True, U64_MAX, 1, 2), playing=True, next_local=3)
    yield session(pump_kind=rules.KIND_BYE, pump_place=1, pending=4)
    yield ring_of_strangers()
    yield session(counters=dict.fromkeys(rules.COUNTERS, U64_MAX), playing=True, last_stalled=0)
    yield session(params=TRIO._replace(count=9))


def all_ready(ticks={}, seats={}, **changes):
    """Every seat's frame for each of the ticks 0 to 63, but for the cells that
    `ticks` and `seats` give another tick or another set."""
    made = session(**changes)
    made.ring_ticks = [ticks.get(cell, cell) for cell in range(rules.WINDOW)]
    made.ring_seats = [seats.get(cell, 7) for cell in range(rules.WINDOW)]
    return made


def windows():
    """Sessions whose windows are full, or full but for a gap."""
    yield all_ready()
    # The ring has turned by five cells.
    yield all_ready(pending=5, next_local=69, ticks={cell: 64 + cell for cell in range(5)})
    # Seat 2 is missing, far ahead and at once, and where strangers' bits are set.
    yield all_ready(seats={40: 3})
    yield all_ready(seats={0: 251})
    yield all_ready(seats={**dict.fromkeys(range(11), 255), 11: 251})
    # A cell that is one turn ahead.
    yield all_ready(ticks={3: 67})
    # Behind the last tick stand the cells that a sum modulo 2^64 would ask for.
    last = {61: U64_MAX - 2, 62: U64_MAX - 1, 63: U64_MAX}
    yield all_ready(pending=U64_MAX - 2, next_local=U64_MAX, ticks=last)
    yield all_ready(pending=U64_MAX, next_local=U64_MAX, ticks={63: U64_MAX})
    # Over, with a step out for some other tick.
    yield all_ready(
        playing=True, step=Step(True, 77, True), outcome=Outcome(rules.DESYNCED, 0, 0))
    yield all_ready(params=TRIO._replace(count=9))


def records():
    hello = rules.Hello(2, 5, rules.agreement(TRIO), 8, 9, 7, 3, 2, 1, 2)
    yield outside.submit_record(b"ab")
    yield outside.submit_record(b"abc")
    yield outside.message_record(2, hello)
    yield outside.message_record(2, hello._replace(agreement=1))
    yield outside.message_record(0, rules.Inputs(0, 5, 5, 2, 2, b"wxyz"))
    yield outside.message_record(2, rules.Inputs(2, 5, U64_MAX - 1, 1, 2, b"pq"))
    yield outside.message_record(2, rules.Inputs(2, 5, 6, 1, 2, b"pq"))
    yield outside.message_record(0, rules.Digest(0, 5, 9, 13, 99))
    yield outside.message_record(2, rules.Digest(2, 5, 9, 18, 17))
    yield outside.message_record(0, rules.Digest(0, 5, U64_MAX, 1, 2))
    yield outside.message_record(0, rules.Other(0, 5, 3))
    yield outside.record(rules.ADVANCE)
    yield outside.commit_record(77, 1, 20)
    yield outside.commit_record(9, 1, 19)
    yield outside.commit_record(U64_MAX, 0, 0)
    yield outside.record(rules.PUMP)
    yield outside.record(rules.PUMP)
    yield outside.record(rules.PUMP)
    yield outside.record(rules.REPORT)
    yield outside.message_record(2, rules.Bye(2, 5, 3))
    yield outside.record(rules.LEAVE)
    yield outside.record(rules.PUMP)
    yield outside.record(rules.ADVANCE)


def runner(made):
    """A runner with that session; one whose parameters fail is none to it."""
    circle = rules.Circle()
    circle.session = None if rules.is_bad(made) else made.copy()
    return circle


def lines():
    script = list(records())
    for made in sessions():
        for first in range(len(script)):
            circle = runner(made)
            for kind, payload in rules.records(b"".join(script[first:])):
                yield circle.line(kind, payload)
                yield from circle.trace()
    for answer, _ in numbers(session(params=TRIO._replace(count=9))):
        yield str(answer.number)
    for made in (*sessions(), *windows()):
        yield rules.ready_line(rules.ready(made))
        circle = runner(made)
        for kind, payload in rules.records(b"".join(script)):
            yield circle.line(kind, payload)
            yield circle.ready()


def numbers(made):
    """What each call answers, for a session that the runner takes for none."""
    yield rules.submit(made, b"ab")
    yield rules.deliver(made, 0, rules.Bye(0, 5, 0))
    yield rules.advance(made)
    yield rules.commit(made, 0, None)
    yield rules.leave(made)
    yield rules.pump(made)
    yield rules.report(made, bytearray(rules.TEXT_MAX))
    yield rules.ready(made), made


def main(words):
    if words == ["--script"]:
        sys.stdout.buffer.write(b"".join(records()))
    elif not words:
        sys.stdout.write("".join(line + "\n" for line in lines()))
    else:
        sys.exit(__doc__)


if __name__ == "__main__":
    main(sys.argv[1:])
