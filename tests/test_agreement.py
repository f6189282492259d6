"""Demand 3 and the rules it needs: for each of four changed rules a short run
that breaks the claim, and the same run over the rules as they are, which
breaks nothing. docs/AGREEMENT.md tells the four runs."""

import contextlib
import unittest
from unittest import mock

import rules

PAIR = rules.Params(2, 0, 1, 0, 1, 0, 0, 0, 9)


class World:
    """A circle of two, as crates/agreement/specs/World.antt has it: the
    sessions, the messages made so far, newest first, and what was shown."""

    def __init__(self):
        self.at = [rules.open_session(PAIR._replace(local=seat))[1] for seat in (0, 1)]
        self.mail, self.pressed, self.stepped, self.committed = [], {}, [], {}
        self.calls = 0

    def submits(self, seat, frame):
        self.calls += 1
        answer, self.at[seat] = rules.submit(self.at[seat], frame)
        if answer.number == rules.DONE:
            self.pressed[seat, answer.values[0]] = frame

    def pumps(self, seat):
        self.calls += 1
        answer, self.at[seat] = rules.pump(self.at[seat])
        if answer.number == rules.DONE:
            self.mail.insert(0, (seat, answer.values[1]))

    def delivers(self, seat, place):
        self.calls += 1
        source, message = self.mail[place]
        _, self.at[seat] = rules.deliver(self.at[seat], source, message)

    def advances(self, seat):
        self.calls += 1
        answer, self.at[seat] = rules.advance(self.at[seat])
        if answer.word == "step":
            tick, _, rows = answer.values
            self.stepped.append((seat, tick, rows, self.at[seat].input_digest))

    def commits(self, seat, tick, digest):
        self.calls += 1
        answer, self.at[seat] = rules.commit(self.at[seat], tick, digest)
        if answer.number == rules.DONE and digest is not None:
            self.committed[seat, tick] = digest

    def broken(self):
        """What of demand 3 does not hold, in its words."""
        found = []
        for _, tick, rows, _ in self.stepped:
            for seat in (0, 1):
                if self.pressed.get((seat, tick)) != rows[seat][:1]:
                    found.append("bytes that its host did not submit")
        for _, tick, rows, digest in self.stepped:
            for _, other, others, other_digest in self.stepped:
                if tick == other and (rows != others or digest != other_digest):
                    found.append("two steps for one tick differ")
        for seat, session in enumerate(self.at):
            if session.outcome.why == rules.DESYNCED:
                digests = {self.committed.get((other, session.outcome.tick)) for other in (0, 1)}
                if len(digests - {None}) < 2:
                    found.append("desynced with no two commits that differ")
            elif not rules.has_outcome(session):
                for own in session.own:
                    if own.present and rules.denied(session, own.tick, own.state):
                        found.append("holds its own and another's differing digest")
        return sorted(set(found))


def greet(world, seats=(0, 1)):
    """Each of the seats hears the other's Hello."""
    for seat in seats:
        world.pumps(1 - seat)
        world.delivers(seat, 0)


def reach(world, seat):
    """The newest frames of the other seat come in."""
    made = len(world.mail)
    while len(world.mail) == made or not isinstance(world.mail[0][1], rules.Inputs):
        made = len(world.mail)
        world.pumps(1 - seat)
    world.delivers(seat, 0)


def step_without_every_seat(world):
    greet(world, (0,))
    world.submits(0, b"A")
    world.advances(0)


def cell_not_emptied(world):
    """Seat 0 presses for the ticks 0 to 63 and seat 1 for one more. Tick 64 goes
    in the cell of tick 0, where seat 0's first press stands."""
    greet(world)
    world.submits(0, b"\0")
    world.submits(1, b"\0")
    for seat in (0, 1):
        reach(world, seat)
    for seat in (0, 1):
        world.advances(seat)
        world.commits(seat, 0, 5)
    for tick in range(1, 64):
        world.submits(0, bytes([tick]))
    for tick in range(1, 65):
        world.submits(1, bytes([tick]))
        if tick % 8 == 0:
            reach(world, 0)
    for tick in range(1, 65):
        world.advances(0)
        world.commits(0, tick, 5)


def commit_not_judged(world):
    greet(world)
    world.submits(0, b"A")
    world.submits(1, b"B")
    for seat in (0, 1):
        world.pumps(1 - seat)
        world.delivers(seat, 0)
    world.advances(0)
    world.advances(1)
    world.commits(1, 0, 6)
    world.pumps(1)
    world.delivers(0, 0)
    world.commits(0, 0, 5)


def frame_under_another_tick(world):
    greet(world)
    world.submits(0, b"A")
    world.submits(1, b"B")
    world.pumps(1)
    world.delivers(0, 0)
    world.advances(0)


@contextlib.contextmanager
def any_seat_is_every_seat():
    with mock.patch.object(rules, "holds_each", lambda seats, wanted: bool(seats & wanted)):
        yield


@contextlib.contextmanager
def cells_keep_their_seats():
    def write_frame(session, tick, seat, frame):
        cell = tick % rules.WINDOW
        session.ring_ticks[cell] = tick
        session.ring_seats[cell] = rules.with_seat(session.ring_seats[cell], seat)
        start = rules.place_of(tick, seat)
        session.ring[start:start + len(frame)] = frame

    with mock.patch.object(rules, "write_frame", write_frame):
        yield


@contextlib.contextmanager
def commits_are_not_judged():
    commit = rules.commit

    def unjudged(session, tick, digest):
        with mock.patch.object(rules, "judge", lambda after, tick: None):
            return commit(session, tick, digest)

    with mock.patch.object(rules, "commit", unjudged):
        yield


@contextlib.contextmanager
def each_tick_gets_the_next_frame():
    take_inputs = rules.take_inputs

    def shifted(session, message):
        return take_inputs(session, message._replace(run=message.run[message.width:]))

    with mock.patch.object(rules, "take_inputs", shifted):
        yield


CASES = [
    (step_without_every_seat, any_seat_is_every_seat, "bytes that its host did not submit"),
    (cell_not_emptied, cells_keep_their_seats, "bytes that its host did not submit"),
    (commit_not_judged, commits_are_not_judged, "holds its own and another's differing digest"),
    (frame_under_another_tick, each_tick_gets_the_next_frame, "bytes that its host did not submit"),
]


class Sensitivity(unittest.TestCase):
    def test_each_rule_is_needed(self):
        for play, changed, claim in CASES:
            with self.subTest(play.__name__):
                with changed():
                    world = World()
                    play(world)
                    self.assertIn(claim, world.broken())

    def test_the_same_runs_keep_the_claim(self):
        for play, _, _ in CASES:
            with self.subTest(play.__name__):
                world = World()
                play(world)
                self.assertEqual(world.broken(), [])


if __name__ == "__main__":
    unittest.main()
