"""Holds rules.py itself to document 01, and outside.py to what it promises.

    python3 -m unittest discover -s tests
"""

import contextlib
import copy
import io
import pathlib
import random
import shlex
import struct
import sys
import tempfile
import unittest
from unittest import mock

import outside
import rules
from outside import ADVANCE, LEAVE, PUMP, REPORT
from outside import commit_record, message_record, open_record, record, submit_record
from rules import U64_MAX, Bye, Digest, Fingerprint, Hello, Inputs, Other, Outcome, Params, Step

KEY = 9
TWO = Params(2, 0, 1, 0, 1, 0, 0, 0, KEY)
THREE = Params(3, 1, 2, 1, 2, 5, 6, 7, KEY)
EIGHT = Params(8, 3, 16, 0, 1, 0, 0, 0, KEY)


# --- Growing sessions by calls -----------------------------------------------


class Grown:
    """A session with the calls as methods, which keep the next state and give
    the answer's number."""

    def __init__(self, params):
        self.answer, self.session = rules.open_session(params)
        self.params = params

    def call(self, function, *arguments):
        self.answer, self.session = function(self.session, *arguments)
        return self.answer.number

    def submit(self, frame):
        return self.call(rules.submit, frame)

    def deliver(self, message, source=None):
        return self.call(rules.deliver, message.sender if source is None else source, message)

    def hello(self, sender):
        return self.deliver(outside.good_hello(self.params, sender))

    def inputs(self, sender, first, *frames):
        run = b"".join(frames)
        width = self.params.width
        return self.deliver(Inputs(sender, KEY, first, len(frames), width, run))

    def digest(self, sender, tick, state, inputs=0):
        return self.deliver(Digest(sender, KEY, tick, state, inputs))

    def bye(self, sender, tick):
        return self.deliver(Bye(sender, KEY, tick))

    def advance(self):
        self.call(rules.advance)
        return self.answer.word or self.answer.number

    def commit(self, tick, digest=None):
        return self.call(rules.commit, tick, digest)

    def leave(self):
        return self.call(rules.leave)

    def ready(self):
        """A question only, so neither session nor answer is kept."""
        return ticks_ready(self.session)

    def pump(self):
        """Seat and message, or 71."""
        number = self.call(rules.pump)
        return self.answer.values if number == 0 else number

    def pass_(self):
        """The messages before the next 71, as seat and kind letter."""
        sent = []
        while (one := self.pump()) != 71:
            sent.append(f"{one[0]}{type(one[1]).__name__[0]}")
        return sent

    def round(self, digest=5):
        """Submits as far as wanted, hears every remote, steps and commits."""
        while rules.wants_local(self.session):
            self.submit(b"L" * self.params.width)
        tick = self.session.pending
        for seat in rules.remotes(self.session):
            self.inputs(seat, tick, bytes([seat]) * self.params.width)
        self.call(rules.advance)
        assert self.answer.word == "step", self.answer
        return self.commit(tick, digest if self.session.step.due else None)

    def count(self, name):
        return self.session.counters[name]

    def counted(self):
        """The counters that are not 0."""
        return {name: n for name, n in self.session.counters.items() if n}


def ticks_ready(session):
    answer = rules.ready(session)
    assert answer.number == 0, answer
    (ticks,) = answer.values
    return ticks


def playing(params):
    grown = Grown(params)
    for seat in rules.remotes(grown.session):
        grown.hello(seat)
    for _ in range(params.delay + 1):
        grown.submit(b"L" * params.width)
    assert rules.is_playing(grown.session)
    return grown


# --- Sets, hash, parameters --------------------------------------------------


class Sets(unittest.TestCase):
    def test_of_count(self):
        expected = [0, 1, 3, 7, 15, 31, 63, 127, 255, 255]
        self.assertEqual([rules.of_count(count) for count in range(10)], expected)
        self.assertEqual(rules.of_count(255), 255)

    def test_seats_above_seven_are_in_no_set(self):
        for seat in (8, 9, 255):
            self.assertFalse(rules.contains(255, seat))
            self.assertEqual(rules.with_seat(5, seat), 5)
            self.assertEqual(rules.without_seat(5, seat), 5)

    def test_seat_k_is_bit_k(self):
        for seat in range(8):
            self.assertEqual(rules.with_seat(0, seat), 1 << seat)
            self.assertEqual(rules.without_seat(255, seat), 255 - (1 << seat))
            self.assertTrue(rules.contains(1 << seat, seat))
            self.assertFalse(rules.contains(255 - (1 << seat), seat))


# As document 01 writes it, so that the parts in rules.py are held to the whole.
PUBLISHED_PRIME = 1_099_511_628_211


def hash_values():
    """Edges, of which 2^24 is the first that a shift by 40 pushes out of 64 bits, and others."""
    around = [2**power + offset for power in (24, 40, 63) for offset in (-1, 0, 1)]
    rng = random.Random(6)
    return [0, 1, *around, U64_MAX - 1, U64_MAX, *(rng.getrandbits(64) for _ in range(300))]


def wrongly_multiplied():
    """The byte 0 leaves a value as it is, so that absorbing it only multiplies."""
    return [value for value in hash_values() if rules.absorb(value, b"\0") != value * PUBLISHED_PRIME % 2**64]


class Hash(unittest.TestCase):
    def test_p10_and_published_vectors(self):
        vectors = {
            b"": 0xCBF29CE484222325,
            b"a": 0xAF63DC4C8601EC8C,
            b"foobar": 0x85944171F73967E8,
        }
        for data, value in vectors.items():
            self.assertEqual(rules.absorb(rules.HASH_START, data), value)

    def test_multiplies_by_the_published_prime(self):
        self.assertEqual(wrongly_multiplied(), [])

    def test_a_wrong_shift_or_rest_is_noticed(self):
        # An odd value has an inverse modulo 2^64, so another factor always gives it another product.
        odd = {value for value in hash_values() if value % 2}
        self.assertLess({1, U64_MAX}, odd)
        wrong = [("PRIME_SHIFT", 39), ("PRIME_SHIFT", 41), ("PRIME_REST", 434), ("PRIME_REST", 436)]
        for name, number in wrong:
            with mock.patch.object(rules, name, number):
                self.assertEqual(odd - set(wrongly_multiplied()), set(), (name, number))

    def test_numbers_go_in_little_endian(self):
        start = rules.HASH_START
        self.assertEqual(rules.absorb_u32(start, 0x01020304), rules.absorb(start, b"\4\3\2\1"))
        self.assertEqual(rules.absorb_u64(start, 1), rules.absorb(start, b"\1" + bytes(7)))


class Parameters(unittest.TestCase):
    def refusal(self, **changes):
        return rules.open_session(TWO._replace(**changes))[0].number

    def test_p1_p7_p8(self):
        self.assertEqual([self.refusal(count=n) for n in (1, 9)], [11, 11])
        self.assertEqual([self.refusal(count=n) for n in (2, 8)], [0, 0])
        self.assertEqual([self.refusal(delay=n) for n in (63, 64)], [0, 14])
        self.assertEqual(self.refusal(count=9, period=0), 11)

    def test_both_sides_of_the_others(self):
        self.assertEqual([self.refusal(local=n) for n in (1, 2, 255)], [0, 12, 12])
        self.assertEqual([self.refusal(width=n) for n in (0, 1, 16, 17)], [13, 0, 0, 13])
        self.assertEqual([self.refusal(period=n) for n in (0, 1, 255)], [15, 0, 0])
        self.assertEqual([self.refusal(session=n) for n in (0, 1, U64_MAX)], [16, 0, 0])

    def test_lowest_number_wins(self):
        faults = [("count", 1), ("local", 9), ("width", 0), ("delay", 64), ("period", 0)]
        faults += [("session", 0)]
        for at in range(len(faults)):
            self.assertEqual(self.refusal(**dict(faults[at:])), 11 + at)

    def test_agreement(self):
        data = struct.pack("<I3Q4I", 3, 6, 7, 5, 3, 2, 1, 2)
        self.assertEqual(rules.agreement(THREE), rules.absorb(rules.HASH_START, data))
        # Neither the local seat nor the session is part of it.
        other = THREE._replace(local=0, session=1)
        self.assertEqual(rules.agreement(other), rules.agreement(THREE))


# --- The runner --------------------------------------------------------------

CASE_R = b"".join(
    (
        bytes.fromhex("2500 0100 02 00 01 00 01") + bytes(24) + bytes.fromhex("09") + bytes(7),
        bytes.fromhex("0100 0200 41"),
        bytes.fromhex("1500 0400 01 01 0900000000000000 0000000000000000 01 01 42"),
        bytes.fromhex("0000 0800"),
        bytes.fromhex("1200 0600 01 01 0900000000000000 0000000000000000"),
        bytes.fromhex("0000 0800") * 2,
        bytes.fromhex("1100 0900 0000000000000000 00 0000000000000000"),
        bytes.fromhex("1100 0900 0000000000000000 01 0500000000000000"),
        bytes.fromhex("0000 0800"),
        bytes.fromhex("0000 0b00") * 3,
        bytes.fromhex("0000 0c00"),
    )
)

CASE_R_LINES = """\
open 0
submit 0 0
deliver 0
waiting
deliver 1
step 0 1 41 42
waiting
commit 52
commit 0
ended 2 1 0
send 1 3 0 0
send 71
send 1 6 0 0
report 61
"""


class Runner(unittest.TestCase):
    def lines(self, *script, form=rules.PLAIN):
        return rules.text(b"".join(script), form).splitlines()

    def test_case_r(self):
        self.assertEqual(rules.text(CASE_R), CASE_R_LINES)

    def test_builders_make_case_r(self):
        inputs = message_record(1, Inputs(1, 9, 0, 1, 1, b"B"))
        bye = message_record(1, Bye(1, 9, 0))
        script = open_record(TWO) + submit_record(b"A") + inputs + ADVANCE + bye + ADVANCE * 2
        script += commit_record(0, 0, 0) + commit_record(0, 1, 5) + ADVANCE + PUMP * 3 + REPORT
        self.assertEqual(script, CASE_R)

    def test_right_lengths(self):
        """Kind by kind from document 01's payload fields."""
        fixed = {1: 37, 3: 46, 5: 34, 6: 18, 7: 11, 8: 0, 9: 17, 10: 0, 11: 0, 12: 0}
        for kind, right in fixed.items():
            for length in {0, 1, max(right - 1, 0), right, right + 1, 65535}:
                (line,) = self.lines(record(kind, bytes(length)))
                good = "open 11" if kind == 1 else "none"
                self.assertEqual(line, good if length == right else "bad", (kind, length))
        for length, line in ((19, "bad"), (20, "none"), (148, "none"), (149, "bad")):
            self.assertEqual(self.lines(record(4, bytes(length))), [line])
        for length in (0, 1, 65535):
            self.assertEqual(self.lines(record(2, bytes(length))), ["none"])

    def test_unknown_kinds(self):
        for kind in (0, 13, 256, 257, 0x0800, 65535):
            self.assertEqual(self.lines(record(kind, b"x"), ADVANCE), ["bad", "none"])

    def test_cut_at_every_byte(self):
        for full in (record(8, b"wrong"), record(99, b"unknown"), open_record(TWO)):
            for length in range(1, len(full)):
                self.assertEqual(self.lines(ADVANCE, full[:length]), ["none", "cut"])
        self.assertEqual(self.lines(b""), [])

    def test_before_and_after_opens(self):
        refused = open_record(TWO._replace(width=0))
        script = [refused, PUMP, open_record(TWO), submit_record(b"A"), refused]
        script += [submit_record(b"B"), open_record(TWO), submit_record(b"C")]
        expected = ["open 13", "none", "open 0", "submit 0 0", "open 13"]
        expected += ["submit 0 1", "open 0", "submit 0 0"]
        self.assertEqual(self.lines(*script), expected)

    def test_submit_and_leave_lines(self):
        script = [open_record(TWO), submit_record(b""), LEAVE, LEAVE, submit_record(b"A"), ADVANCE]
        expected = ["open 0", "submit 41", "ended 3 - 0", "ended 3 - 0", "submit 1", "ended 3 - 0"]
        self.assertEqual(self.lines(*script), expected)

    def test_deliver_lines(self):
        messages = [Other(1, 9, 4), Other(1, 9, 5), Other(0, 9, 1), Digest(1, 8, 0, 0, 0)]
        messages += [outside.good_hello(TWO, 1)._replace(agreement=0), Inputs(1, 9, 64, 1, 1, b"B")]
        script = [open_record(TWO), *(message_record(1, message) for message in messages)]
        expected = ["open 0"] + [f"deliver {number}" for number in (31, 21, 23, 22, 26, 27)]
        self.assertEqual(self.lines(*script), expected)

    def test_stalled_and_desynced_lines(self):
        hello = message_record(1, outside.good_hello(TWO, 1))
        inputs = message_record(1, Inputs(1, 9, 0, 1, 1, b"B"))
        script = [open_record(TWO), hello, submit_record(b"A"), ADVANCE, ADVANCE, inputs, ADVANCE]
        script += [commit_record(0, 255, 5), message_record(1, Digest(1, 9, 0, 6, 0)), ADVANCE]
        expected = ["open 0", "deliver 0", "submit 0 0", "stalled 0 2 1", "stalled 0 2 2"]
        expected += ["deliver 0", "step 0 1 41 42", "commit 0", "deliver 1", "ended 1 - 0"]
        self.assertEqual(self.lines(*script), expected)

    def test_trace(self):
        """Counters, pending, next local, playing, wants, input digest, outcome."""
        hello = message_record(1, outside.good_hello(TWO, 1))
        inputs = message_record(1, Inputs(1, 9, 0, 2, 1, b"BC"))
        script = [PUMP, open_record(TWO), submit_record(b"A"), hello, inputs, ADVANCE]
        script += [commit_record(0, 1, 5), PUMP, PUMP, PUMP, PUMP, b"\0\0"]
        script += [message_record(1, Bye(8, 9, 3)), message_record(1, Bye(1, 9, 3)), LEAVE]
        start = rules.HASH_START
        step = rules.absorb(start, bytes(8) + b"AB")
        agreed = rules.absorb(start, struct.pack("<I3Q4I", 3, 0, 0, 0, 2, 1, 0, 1))
        expected = [
            "none",
            "open 0",
            f"= 0 0 0 0 0 0 0 0 0 1 {start} 0 - 0",
            "submit 0 0",
            f"= 0 0 0 0 0 0 0 1 0 0 {start} 0 - 0",
            "deliver 0",
            f"= 0 0 0 0 0 0 0 1 1 0 {start} 0 - 0",
            "deliver 0",
            f"= 0 0 0 0 0 0 0 1 1 0 {start} 0 - 0",
            "step 0 1 41 42",
            f"= 0 0 0 0 0 0 0 1 1 0 {step} 0 - 0",
            "commit 0",
            f"= 0 0 0 0 0 0 1 1 1 1 {step} 0 - 0",
            "send 1 3 0 0",
            f"> 0 9 {agreed} 0 0 0 2 1 0 1",
            f"= 0 0 0 0 0 0 1 1 1 1 {step} 0 - 0",
            "send 1 4 0 1",
            "> 0 9 0 1 1 41",
            f"= 0 0 0 0 0 0 1 1 1 1 {step} 0 - 0",
            "send 1 5 0 0",
            f"> 0 9 0 5 {step}",
            f"= 0 0 0 0 0 0 1 1 1 1 {step} 0 - 0",
            "send 71",
            f"= 0 0 0 0 0 0 1 1 1 1 {step} 0 - 0",
            "cut",
            f"= 0 0 0 0 0 0 1 1 1 1 {step} 0 - 0",
        ]
        self.assertEqual(self.lines(*script[:12], form=rules.TRACE), expected)
        del script[11]
        tail = [
            "deliver 21",
            f"= 1 0 0 0 0 0 1 1 1 1 {step} 0 - 0",
            "deliver 1",
            f"= 1 0 0 0 0 0 1 1 0 0 {step} 2 1 3",
            "ended 2 1 3",
            f"= 1 0 0 0 0 0 1 1 0 0 {step} 2 1 3",
        ]
        self.assertEqual(self.lines(*script, form=rules.TRACE)[-6:], tail)

    def carried(self, *script):
        """The lines after those of a circle of three that plays, with a step out at tick 0."""
        before = outside.situations()["stepped"]
        lines = self.lines(before, *script, form=rules.CARRIED)
        return lines[len(list(rules.records(before))) :]

    def test_carried_open(self):
        refused = [
            (TWO._replace(count=9, local=12), "open 11 9 2 8"),
            (TWO._replace(local=200), "open 12 200 2"),
            (TWO._replace(width=17), "open 13 17 16"),
            (TWO._replace(delay=65), "open 14 65 64"),
            (TWO._replace(period=0), "open 15"),
            (TWO._replace(session=0), "open 16"),
        ]
        records, expected = zip(*refused)
        self.assertEqual(self.carried(*map(open_record, records)), list(expected))

    def test_carried_calls(self):
        playing = outside.PARAMS
        hello = outside.good_hello(playing, 2)
        inputs = Inputs(2, 9, 0, 1, 2, b"xy")
        digest = Digest(2, 9, 3, 4, 5)
        steps = [
            (submit_record(b"a"), "submit 41 1 2"),
            (message_record(2, hello._replace(session=8)), "deliver 22 8"),
            (message_record(0, hello), "deliver 23 2 0"),
            (message_record(1, hello._replace(sender=1)), "deliver 24"),
            (message_record(3, hello._replace(sender=3)), "deliver 25 3"),
            (message_record(2, hello._replace(agreement=1)), f"deliver 26 1 {hello.agreement}"),
            (message_record(2, inputs._replace(first=64)), "deliver 27 64 0"),
            (message_record(2, inputs._replace(run=b"xz")), "deliver 28 2 0"),
            (message_record(2, inputs._replace(width=1, run=b"x")), "deliver 29 1 2"),
            (message_record(2, digest), "deliver 0"),
            (message_record(2, digest._replace(state=6)), "deliver 30 2 3"),
            (message_record(2, Other(2, 9, 3)), "deliver 31 3"),
            (commit_record(7, 1, 77), "commit 51 7 0"),
            (commit_record(0, 0, 0), "commit 52 0 1"),
            (ADVANCE, "advance 0 waiting"),
            (commit_record(0, 1, 77), "commit 0"),
            (ADVANCE, "advance 0 stalled 1 5 1"),
            (commit_record(4, 0, 0), "commit 51 4 1"),
            (PUMP, f"pump 0 0 3 1 9 {hello.agreement} 6 7 5 3 2 1 2"),
            (PUMP, f"pump 0 2 3 1 9 {hello.agreement} 6 7 5 3 2 1 2"),
            (PUMP, "pump 0 0 4 1 9 0 2 2"),
            (REPORT, "report 61 0 61 0 61 0"),
            *((submit_record(b"cc"), f"submit 0 {tick}") for tick in range(2, 65)),
            (submit_record(b"cc"), "submit 42 65 1"),
            (message_record(2, Bye(2, 9, 8)), "deliver 1 2 2 8"),
            (submit_record(b"cc"), "submit 1 2 2 8"),
            (ADVANCE, "advance 1 2 2 8"),
            (LEAVE, "leave 1 2 2 8"),
        ]
        records, expected = zip(*steps)
        self.assertEqual(self.carried(*records), list(expected))

    def test_carried_reasons(self):
        hello, inputs = outside.good_hello(outside.PARAMS, 2), Inputs(2, 9, 0, 1, 2, b"xy")
        malformed = [
            (hello._replace(sender=9), "1 9 8"),
            (hello._replace(session=0), "2"),
            (hello._replace(count=1), "3 1 2 8"),
            (hello._replace(width=0), "4 0 16"),
            (inputs._replace(width=17), "4 17 16"),
            (hello._replace(delay=70), "5 70 64"),
            (hello._replace(period=0), "6"),
            (inputs._replace(count=9), "7 9 8"),
            (inputs._replace(count=3), "8 6 2"),
            (inputs._replace(first=U64_MAX), f"9 {U64_MAX} 1"),
            (Other(2, 9, 5), "10 5"),
        ]
        records = [message_record(2, message) for message, _ in malformed]
        self.assertEqual(self.carried(*records), [f"deliver 21 {reason}" for _, reason in malformed])

    def test_carried_report(self):
        """A buffer that is a byte too short is left as it was."""
        parted = [commit_record(0, 1, 77), message_record(2, Digest(2, 9, 0, 78, 1))]
        (text,) = self.lines(outside.situations()["stepped"], *parted, REPORT)[-1:]
        written = f"0 {len(text)} {len(text)}"
        expected = ["commit 0", "deliver 1 1 - 0", f"report {written} 62 0 {written}"]
        self.assertEqual(self.carried(*parted, REPORT), expected)

    def ready(self, *script):
        """Each record's line with the ready line that follows it."""
        lines = self.lines(*script, form=rules.READY)
        return list(zip(lines[::2], lines[1::2], strict=True))

    def test_ready(self):
        refused, opened = open_record(TWO._replace(width=0)), open_record(TWO)
        hello = message_record(1, outside.good_hello(TWO, 1))
        inputs = Inputs(1, 9, 0, 2, 1, b"BC")
        steps = [
            (PUMP, "none", "none"),
            (record(99), "bad", "none"),
            (refused, "open 13", "none"),
            (submit_record(b"A"), "none", "none"),
            (opened, "open 0", "0"),
            (submit_record(b"A"), "submit 0 0", "0"),
            (message_record(1, inputs), "deliver 0", "1"),
            (ADVANCE, "waiting", "1"),
            (submit_record(b"AA"), "submit 41", "1"),
            (submit_record(b"A"), "submit 0 1", "2"),
            (refused, "open 13", "2"),
            (record(99), "bad", "2"),
            (hello, "deliver 0", "2"),
            (ADVANCE, "step 0 1 41 42", "2"),
            (commit_record(0, 0, 0), "commit 52", "2"),
            (commit_record(0, 1, 5), "commit 0", "1"),
            (message_record(1, inputs._replace(first=1, count=1, run=b"x")), "deliver 28", "1"),
            (PUMP, "send 1 3 0 0", "1"),
            (LEAVE, "ended 3 - 0", "1"),
            (ADVANCE, "step 1 1 41 43", "1"),
            (commit_record(1, 1, 5), "commit 0", "0"),
            (REPORT, "report 61", "0"),
            (opened + submit_record(b"A") + message_record(1, inputs), "open 0", "0"),
        ]
        found = self.ready(*(one for one, _, _ in steps))
        expected = [(line, f"ready {told}") for _, line, told in steps]
        self.assertEqual(found[: len(steps)], expected)
        self.assertEqual(found[len(steps) :], [("submit 0 0", "ready 0"), ("deliver 0", "ready 1")])

    def test_ready_of_a_cut(self):
        self.assertEqual(self.ready(b"\1"), [("cut", "ready none")])
        refused = open_record(TWO._replace(width=0))
        self.assertEqual(self.ready(refused, b"\1")[-1], ("cut", "ready none"))
        script = [open_record(TWO), message_record(1, Inputs(1, 9, 0, 1, 1, b"B"))]
        self.assertEqual(self.ready(*script, ADVANCE[:-1])[-1], ("cut", "ready 0"))
        script += [submit_record(b"A")]
        self.assertEqual(self.ready(*script, ADVANCE[:-1])[-1], ("cut", "ready 1"))

    def test_ready_lines_stand_between_the_plain_ones(self):
        for script in (b"", CASE_R, outside.situations()["desynced"] + REPORT + b"\1"):
            found = self.ready(script)
            self.assertEqual([line for line, _ in found], self.lines(script))
            self.assertEqual([told for _, told in found if told[:6] != "ready "], [])

    def test_any_bytes_at_all(self):
        rng = random.Random(1)
        for _ in range(300):
            size = rng.randrange(60)
            script = bytes(rng.choice((0, 0, 0, 1, 2, 8, 9, 255)) for _ in range(size))
            for form in (rules.TRACE, rules.CARRIED, rules.READY):
                rules.text(script, form)


# --- Deliveries --------------------------------------------------------------


class Headers(unittest.TestCase):
    def reason(self, message, source=1):
        grown = playing(TWO)
        number = grown.deliver(message, source)
        self.assertEqual(number, 21, message)
        self.assertEqual(grown.counted(), {"datagrams_refused": 1})
        self.assertEqual(grown.session.playing_marks, 0)
        return grown.answer.values[0]

    def good(self):
        hello = outside.good_hello(TWO, 1)
        inputs = Inputs(1, KEY, 0, 1, 1, b"B")
        return hello, inputs, Digest(1, KEY, 0, 0, 0), Bye(1, KEY, 0), Other(1, KEY, 1)

    def test_reasons_at_their_limits(self):
        for message in self.good():
            self.assertEqual(self.reason(message._replace(sender=8), 8), 1)
            self.assertEqual(self.reason(message._replace(session=0)), 2)
        hello, inputs, _, _, other = self.good()
        for values, reason, name in (
            ((0, 1, 9, 255), 3, "count"),
            ((0, 17, 255), 4, "width"),
            ((64, 255), 5, "delay"),
            ((0,), 6, "period"),
        ):
            for value in values:
                self.assertEqual(self.reason(hello._replace(**{name: value})), reason)
        for width in (0, 17):
            self.assertEqual(self.reason(inputs._replace(width=width)), 4)
        for count, run in ((0, b""), (9, b"123456789")):
            self.assertEqual(self.reason(inputs._replace(count=count, run=run)), 7)
        for run in (b"", b"BB"):
            self.assertEqual(self.reason(inputs._replace(run=run)), 8)
        self.assertEqual(self.reason(inputs._replace(first=U64_MAX)), 9)
        last_eight = inputs._replace(first=U64_MAX - 7, count=8, run=b"12345678")
        self.assertEqual(self.reason(last_eight), 9)
        for kind in (0, 5, 255):
            self.assertEqual(self.reason(other._replace(kind=kind)), 10)

    def test_well_formed_at_their_limits(self):
        hello, inputs, _, _, other = self.good()
        fields = ("count", (2, 8)), ("width", (1, 16)), ("delay", (0, 63)), ("period", (1, 255))
        for name, values in fields:
            for value in values:
                # Only the agreement number decides, whatever the other fields say.
                self.assertEqual(playing(TWO).deliver(hello._replace(**{name: value})), 0)
        far = inputs._replace(first=U64_MAX - 1)
        self.assertEqual(playing(TWO).deliver(far), 27)
        far = inputs._replace(first=U64_MAX - 8, count=8, run=b"12345678")
        self.assertEqual(playing(TWO).deliver(far), 27)
        for kind in (1, 2, 3, 4):
            self.assertEqual(playing(TWO).deliver(other._replace(kind=kind)), 31)

    def test_lowest_reason_wins(self):
        hello = Hello(8, 0, 0, 0, 0, 0, 1, 0, 64, 0)
        mended = ("sender", 1), ("session", KEY), ("count", 2), ("width", 1), ("delay", 0)
        for reason, (name, value) in enumerate(mended, 1):
            self.assertEqual(self.reason(hello), reason)
            hello = hello._replace(**{name: value})
        self.assertEqual(self.reason(hello), 6)
        inputs = Inputs(8, 0, U64_MAX, 0, 0, b"B")
        mended = (1, "sender", 1), (2, "session", KEY), (4, "width", 2), (7, "count", 1)
        for reason, name, value in mended + ((8, "run", b"BB"),):
            self.assertEqual(self.reason(inputs), reason)
            inputs = inputs._replace(**{name: value})
        self.assertEqual(self.reason(inputs), 9)

    def test_header_order(self):
        """22 to 25, each beside all the later faults."""
        bye = Bye(0, 8, 0)
        for number, source, message in (
            (22, 5, bye),
            (23, 5, bye._replace(session=KEY)),
            (24, 0, bye._replace(session=KEY)),
            (25, 2, Bye(2, KEY, 0)),
            (25, 7, Bye(7, KEY, 0)),
            (23, 255, Bye(1, KEY, 0)),
            (23, 1, Bye(2, KEY, 0)),
            (24, 0, Other(0, KEY, 1)),
        ):
            grown = playing(TWO)
            self.assertEqual(grown.deliver(message, source), number)
            self.assertEqual(grown.counted(), {"datagrams_refused": 1})

    def test_playing_marks(self):
        """Set by Inputs and Digest once past 25, refused or not; by nothing else."""
        inputs = Inputs(1, KEY, 0, 1, 1, b"B")
        for number, message in (
            (0, inputs),
            (27, inputs._replace(first=64)),
            (29, inputs._replace(width=2, run=b"BB")),
            (0, Digest(1, KEY, 0, 0, 0)),
        ):
            grown = playing(TWO)
            self.assertEqual(grown.deliver(message), number)
            self.assertEqual(grown.session.playing_marks, 2)
        for number, message in (
            (0, outside.good_hello(TWO, 1)),
            (31, Other(1, KEY, 1)),
            (22, inputs._replace(session=8)),
            (24, inputs._replace(sender=0)),
        ):
            grown = playing(TWO)
            self.assertEqual(grown.deliver(message), number)
            self.assertEqual(grown.session.playing_marks, 0)

    def test_disagreement_gives_no_mark(self):
        grown = Grown(TWO)
        hello = outside.good_hello(TWO, 1)
        self.assertEqual(grown.deliver(hello._replace(agreement=hello.agreement ^ 1)), 26)
        self.assertEqual(grown.session.hello_marks, 1)
        self.assertEqual(grown.counted(), {"datagrams_refused": 1})

    def test_outcome_first_even_for_malformed(self):
        grown = playing(TWO)
        self.assertEqual(grown.bye(1, 4), 1)
        before = grown.session
        self.assertEqual(grown.deliver(Bye(255, 0, 0)), 1)
        self.assertEqual(grown.answer.values, Outcome(2, 1, 4))
        self.assertEqual(grown.submit(b"far too wide"), 1)
        self.assertIs(grown.session, before)


# --- The window --------------------------------------------------------------


class Window(unittest.TestCase):
    def test_p2_p3(self):
        self.assertEqual(playing(TWO).inputs(1, 63, b"B"), 0)
        grown = playing(TWO)
        self.assertEqual(grown.inputs(1, 64, b"B"), 27)
        self.assertEqual(grown.counted(), {"datagrams_refused": 1, "frames_out_of_window": 1})

    def test_p4(self):
        grown = playing(TWO)
        self.assertEqual([grown.inputs(1, 0, b"B") for _ in range(2)], [0, 0])
        self.assertEqual(grown.counted(), {"frames_repeated": 1})

    def test_p5(self):
        grown = playing(TWO)
        grown.inputs(1, 0, b"B")
        self.assertEqual(grown.inputs(1, 0, b"x", b"C"), 0)
        self.assertEqual(grown.counted(), {"datagrams_refused": 1, "frames_contradicted": 1})

    def test_p6(self):
        grown = playing(TWO)
        for _ in range(3):
            grown.round()
        self.assertEqual(grown.session.pending, 3)
        self.assertEqual(grown.inputs(1, 2, b"x"), 0)
        self.assertEqual(grown.counted(), {})

    def test_slip_later_frame_wins(self):
        grown = playing(TWO)
        grown.inputs(1, 0, b"B")
        self.assertEqual(grown.inputs(1, 0, b"x"), 28)
        self.assertEqual(grown.answer.values, (1, 0))
        grown.advance()
        self.assertEqual(grown.answer.values[2][1][:1], b"B")

    def test_slip_counting_each_bad_frame(self):
        grown = playing(TWO)
        grown.inputs(1, 0, *[b"B"] * 8)
        self.assertEqual(grown.inputs(1, 0, *[b"x"] * 8), 28)
        self.assertEqual(grown.counted(), {"datagrams_refused": 1, "frames_contradicted": 1})
        self.assertEqual(grown.inputs(1, 64, *[b"x"] * 8), 27)
        self.assertEqual(grown.count("frames_out_of_window"), 1)

    def test_only_the_last_note_counts(self):
        grown = playing(TWO)
        grown.inputs(1, 62, b"B")
        grown.inputs(1, 63, b"B")
        # Contradicted at 62, repeated at 63, out of the window at 64 and 65.
        self.assertEqual(grown.inputs(1, 62, b"x", b"B", b"C", b"C"), 27)
        self.assertEqual(grown.answer.values, (65, 0))
        expected = {"datagrams_refused": 1, "frames_out_of_window": 1, "frames_repeated": 1}
        self.assertEqual(grown.counted(), expected)

    def test_a_write_between_two_notes(self):
        grown = playing(TWO)
        grown.inputs(1, 62, b"B")
        # Contradicted at 62, written at 63, out of the window at 64.
        self.assertEqual(grown.inputs(1, 62, b"x", b"B", b"C"), 0)
        self.assertEqual(grown.counted(), {"datagrams_refused": 1, "frames_out_of_window": 1})
        self.assertTrue(rules.is_held(grown.session, 63, 1))

    def test_a_write_before_the_note(self):
        grown = playing(TWO)
        self.assertEqual(grown.inputs(1, 63, b"B", b"B"), 0)
        self.assertEqual(grown.counted(), {"datagrams_refused": 1, "frames_out_of_window": 1})
        self.assertTrue(rules.is_held(grown.session, 63, 1))

    def test_slip_sixty_four_later(self):
        """The cell of tick 0 is tick 64's too, and neither stands for the other."""
        for frame in (b"\1", b"x"):
            grown = playing(TWO)
            grown.round()
            self.assertEqual(grown.inputs(1, 64, frame), 0)
            self.assertEqual(grown.counted(), {})
            self.assertEqual(grown.session.ring_ticks[0], 64)
            self.assertEqual(grown.session.ring_seats[0], 2)
            self.assertFalse(rules.is_held(grown.session, 64, 0))
            self.assertFalse(rules.is_held(grown.session, 0, 1))

    def test_wrong_width_before_any_frame(self):
        grown = playing(TWO)
        self.assertEqual(grown.deliver(Inputs(1, KEY, 0, 1, 2, b"BB")), 29)
        self.assertEqual(grown.deliver(Inputs(1, KEY, 64, 1, 2, b"BB")), 29)
        self.assertEqual(grown.counted(), {"datagrams_refused": 2})
        self.assertFalse(rules.is_held(grown.session, 0, 1))

    def test_submit(self):
        grown = Grown(TWO)
        self.assertEqual([grown.submit(frame) for frame in (b"", b"AA")], [41, 41])
        for tick in range(64):
            self.assertEqual(grown.submit(b"A"), 0)
            self.assertEqual(grown.answer.values, (tick,))
        self.assertEqual(grown.submit(b"AA"), 41)
        self.assertEqual(grown.submit(b"A"), 42)

    def test_submit_writes_over_held_bytes(self):
        session = Grown(TWO).session
        rules.write_frame(session, 0, 0, b"x")
        _, after = rules.submit(session, b"A")
        self.assertEqual(rules.frame_at(after, 0, 0), b"A")

    def test_wants_local(self):
        grown = playing(THREE)
        self.assertFalse(rules.wants_local(grown.session))
        grown.round()
        self.assertTrue(rules.wants_local(grown.session))
        grown.leave()
        self.assertFalse(rules.wants_local(grown.session))
        grown = Grown(TWO._replace(delay=63))
        for _ in range(64):
            self.assertTrue(rules.wants_local(grown.session))
            grown.submit(b"A")
        self.assertFalse(rules.wants_local(grown.session))

    def test_start_of_play(self):
        grown = Grown(THREE)
        grown.hello(0)
        grown.submit(b"AA")
        grown.submit(b"AA")
        self.assertFalse(rules.is_playing(grown.session))
        grown.hello(2)
        self.assertTrue(rules.is_playing(grown.session))
        grown = Grown(THREE)
        grown.hello(0)
        grown.hello(2)
        grown.submit(b"AA")
        self.assertFalse(rules.is_playing(grown.session))  # next local 1, delay 1
        grown.submit(b"AA")
        self.assertTrue(rules.is_playing(grown.session))


# --- What is ready -----------------------------------------------------------


def filled(params, pending=0, ticks=64):
    """A session with every seat's frame for so many ticks from pending on, and
    else as new."""
    session = rules.Session(params)
    session.pending = pending
    for tick in range(pending, pending + ticks):
        session.ring_ticks[tick % 64] = tick
        session.ring_seats[tick % 64] = rules.of_count(params.count)
    return session


def stopped_count(session):
    """The count by its other writing: seat by seat and bit by bit, up to the
    first gap."""
    for ahead in range(64):
        tick = session.pending + ahead
        if tick > U64_MAX or session.ring_ticks[tick & 63] != tick:
            return ahead
        for seat in range(session.params.count):
            if not session.ring_seats[tick & 63] & 1 << seat:
                return ahead
    return 64


class Ready(unittest.TestCase):
    # At the last of them the window ends just with tick 2^64-1.
    PENDINGS = (0, 5, 63, 64, 1000, 2**32 - 3, 2**63 - 20, U64_MAX - 64, U64_MAX - 63)

    def test_every_count(self):
        for params in (TWO, THREE, EIGHT):
            for pending in self.PENDINGS:
                for ticks in range(65):
                    session = filled(params, pending, ticks)
                    self.assertEqual(ticks_ready(session), ticks, (params, pending))

    def test_nothing_held(self):
        for params in (TWO, THREE, EIGHT):
            self.assertEqual(Grown(params).ready(), 0)
            self.assertEqual(playing(params).ready(), 0)
        # A new cell stands at 2^64-1, but with nobody's frame.
        self.assertEqual(ticks_ready(filled(TWO, U64_MAX, 0)), 0)

    def test_first_tick(self):
        grown = Grown(THREE)
        grown.submit(b"LL")
        grown.inputs(0, 0, b"xy")
        self.assertEqual(grown.ready(), 0)
        grown.inputs(2, 0, b"zw")
        self.assertEqual(grown.ready(), 1)

    def test_each_seat_is_needed(self):
        for params in (TWO, THREE, EIGHT):
            for seat in range(params.count):
                for place in (0, 1, 33, 62, 63):
                    session = filled(params)
                    session.ring_seats[place] = rules.without_seat(session.ring_seats[place], seat)
                    self.assertEqual(ticks_ready(session), place, (params, seat))

    def test_a_gap_anywhere(self):
        """Full ticks behind it do not count, and a second gap there does not matter."""
        for pending in self.PENDINGS:
            for place in range(64):
                session = filled(THREE, pending)
                session.ring_seats[(pending + place) % 64] = 0b011
                self.assertEqual(ticks_ready(session), place)
                session.ring_seats[(pending + place + 1) % 64] = 0
                self.assertEqual(ticks_ready(session), min(place, (place + 1) % 64))

    def test_a_gap_appears_and_is_filled(self):
        grown = playing(THREE)
        for _ in range(4):
            grown.submit(b"LL")
        grown.inputs(0, 0, *[b"xy"] * 6)
        grown.inputs(2, 3, b"zw", b"zw", b"zw")
        self.assertEqual(grown.ready(), 0)
        grown.inputs(2, 0, b"zw", b"zw")
        self.assertEqual(grown.ready(), 2)
        grown.inputs(2, 2, b"zw")
        self.assertEqual(grown.ready(), 6)

    def full(self):
        """By calls, as far as the window lets one in."""
        grown = playing(TWO)
        while grown.submit(b"L") == 0:
            pass
        self.assertEqual(grown.answer.number, 42)
        for first in range(0, 56, 8):
            grown.inputs(1, first, *[b"B"] * 8)
        grown.inputs(1, 56, *[b"B"] * 7)
        return grown

    def test_no_more_than_the_window(self):
        grown = self.full()
        self.assertEqual(grown.ready(), 63)
        self.assertEqual(grown.inputs(1, 63, b"B", b"B"), 0)
        self.assertEqual(grown.ready(), 64)
        self.assertEqual([grown.inputs(1, 64, b"B"), grown.submit(b"L")], [27, 42])
        self.assertEqual(grown.ready(), 64)

    def test_refused_and_repeated_frames_leave_it(self):
        grown = playing(TWO)
        grown.inputs(1, 0, b"B")
        self.assertEqual([grown.inputs(1, 0, b"B"), grown.inputs(1, 0, b"x")], [0, 28])
        self.assertEqual(grown.ready(), 1)

    def test_steps_and_commits(self):
        """A step that is out is counted still; its commit takes it away."""
        grown = self.full()
        for tick in range(63):
            self.assertEqual(grown.ready(), 63 - tick)
            self.assertEqual([grown.advance(), grown.advance()], ["step", "waiting"])
            self.assertEqual(grown.ready(), 63 - tick)
            self.assertEqual([grown.commit(tick + 1, 5), grown.commit(tick)], [51, 52])
            self.assertEqual(grown.ready(), 63 - tick)
            self.assertEqual(grown.commit(tick, 5), 0)
        self.assertEqual(grown.ready(), 0)
        self.assertEqual(grown.advance(), "stalled")
        self.assertEqual(grown.ready(), 0)

    def test_the_ring_turns(self):
        grown = self.full()
        grown.inputs(1, 63, b"B")
        for tick in range(200):
            grown.advance()
            self.assertEqual(grown.commit(tick, 5), 0)
            self.assertEqual(grown.ready(), 63)
            grown.inputs(1, tick + 64, b"B")
            self.assertEqual(grown.ready(), 63)
            grown.submit(b"L")
            self.assertEqual(grown.ready(), 64)

    def test_up_to_the_last_tick(self):
        """A sum that stops at 2^64-1 would count that tick again and again."""
        self.assertEqual(ticks_ready(filled(TWO, U64_MAX, 1)), 1)
        for ticks in range(1, 65):
            session = filled(TWO, 2**64 - ticks, ticks)
            self.assertEqual(session.ring_ticks[63], U64_MAX)
            self.assertEqual(ticks_ready(session), ticks)

    def test_above_the_last_tick_is_a_gap(self):
        """Also where the cells hold just what a sum modulo 2^64 would ask for."""
        for ticks in range(1, 64):
            session = filled(THREE, 2**64 - ticks, ticks)
            for cell in range(64 - ticks):
                session.ring_ticks[cell], session.ring_seats[cell] = cell, 7
            self.assertEqual(ticks_ready(session), ticks)
        session = filled(THREE, 2**64 - 3, 3)
        session.ring_ticks[:61], session.ring_seats[:61] = range(61), [7] * 61
        self.assertEqual(session.ring_ticks[61:], [2**64 - 3, 2**64 - 2, 2**64 - 1])
        self.assertEqual((ticks_ready(session), set(session.ring_seats)), (3, {7}))

    def test_cells_at_other_ticks(self):
        for pending in (64, 69, 1000):
            for place in (0, 1, 40, 63):
                cell = (pending + place) % 64
                for other in (-128, -64, -1, 1, 64, 128, 2**32, 2**63):
                    session = filled(THREE, pending)
                    session.ring_ticks[cell] = max(pending + place + other, 0)
                    self.assertEqual(ticks_ready(session), place, (pending, other))
                session.ring_ticks[cell] = U64_MAX
                self.assertEqual(ticks_ready(session), place)
        for other in (-64, 64):
            session = filled(THREE, 64)
            session.ring_ticks = [tick + other for tick in session.ring_ticks]
            self.assertEqual(ticks_ready(session), 0)

    def test_strangers_bits(self):
        session = filled(THREE)
        session.ring_seats = [0b11111111] * 64
        self.assertEqual(ticks_ready(session), 64)
        for seat in range(3):
            session.ring_seats[20] = 255 - (1 << seat)
            self.assertEqual(ticks_ready(session), 20)
        for seat in range(3, 8):
            session.ring_seats[20] = 255 - (1 << seat)
            self.assertEqual(ticks_ready(session), 64)

    def test_only_the_frames_matter(self):
        """Not playing, not a Hello, not an outcome, not what was submitted or stepped."""
        changes = {
            "outcome": [Outcome(why, seat, 3) for why in (1, 2, 3) for seat in (0, 200)],
            "playing": [True],
            "hello_marks": [0, 7, 255],
            "playing_marks": [7, 255],
            "next_local": [1, 9, 64, U64_MAX],
            "step": [Step(True, tick, due) for tick in (0, 77) for due in (False, True)],
            "last_stalled": [0],
            "owed": [Fingerprint(True, 0, 1, 2)],
            "pump_kind": [rules.KIND_BYE],
            "input_digest": [0],
            "ring": [bytearray(b"\xff" * rules.RING_BYTES)],
        }
        for ticks in (0, 1, 20, 64):
            for name, values in changes.items():
                for value in values:
                    session = filled(THREE, ticks=ticks)
                    self.assertNotEqual(getattr(session, name), value, name)
                    setattr(session, name, value)
                    self.assertEqual(ticks_ready(session), ticks, (name, value))

    def test_outcomes_leave_it(self):
        grown = self.full()
        grown.advance()
        grown.commit(0, 5)
        before = grown.session
        ends = (rules.deliver, 1, Digest(1, KEY, 0, 6, 0)), (rules.deliver, 1, Bye(1, KEY, 9))
        for why, (function, *arguments) in enumerate((*ends, (rules.leave,)), 1):
            answer, after = function(before, *arguments)
            self.assertEqual((answer.number, after.outcome.why), (1, why))
            self.assertEqual(ticks_ready(after), 62)

    def test_bad_parameters(self):
        bad = {"count": (0, 1, 9, 255), "local": (3, 255), "width": (0, 17), "delay": (64, 255)}
        for name, values in (bad | {"period": (0,), "session": (0,)}).items():
            for value in values:
                session = filled(THREE)
                session.params = THREE._replace(**{name: value})
                session.outcome = Outcome(1, 0, 0)
                self.assertEqual(rules.ready(session), rules.Answer(20), (name, value))

    def test_good_parameters_at_their_limits(self):
        good = {"count": (2, 3), "local": (0, 2), "width": (1, 16), "delay": (0, 63)}
        for name, values in (good | {"period": (1, 255), "session": (1, U64_MAX)}).items():
            for value in values:
                session = filled(THREE)
                session.params = THREE._replace(**{name: value})
                self.assertEqual(rules.ready(session), rules.Answer(0, "", (64,)), (name, value))

    def test_it_changes_nothing(self):
        grown = self.full()
        grown.advance()
        for session in (grown.session, filled(THREE), filled(EIGHT, 70, 9), rules.Session(TWO)):
            kept = copy.deepcopy(session)
            answers = {rules.ready(session) for _ in range(3)}
            self.assertEqual((session, len(answers)), (kept, 1))

    def test_random_windows(self):
        """Against the other writing, and a step comes exactly where a tick is ready."""
        seen = set()
        for seed in range(700):
            session = any_window(random.Random(seed))
            kept = session.copy()
            ticks = ticks_ready(session)
            self.assertEqual(ticks, stopped_count(session), seed)
            self.assertEqual(session, kept)
            seen.add(ticks)
            session.playing, session.step, session.outcome = True, Step(), Outcome()
            stepped = rules.advance(session)[0].word == "step"
            self.assertEqual(stepped, ticks > 0, seed)
        self.assertEqual(seen, set(range(65)))

    def test_any_record(self):
        for seed in range(300):
            session = any_session(random.Random(seed))
            answer = rules.ready(session)
            if rules.is_bad(session):
                self.assertEqual(answer, rules.Answer(20))
            else:
                self.assertEqual(answer.values, (stopped_count(session),))


# --- Step and commit ---------------------------------------------------------


class Steps(unittest.TestCase):
    def test_step_rows_and_hash(self):
        grown = playing(THREE)
        grown.inputs(0, 0, b"xy")
        grown.inputs(2, 0, b"zw")
        self.assertEqual(grown.advance(), "step")
        tick, due, rows = grown.answer.values
        self.assertEqual((tick, due), (0, True))
        frames = [b"xy", b"LL", b"zw"]
        expected = [frame + bytes(14) for frame in frames] + [bytes(16)] * 5
        self.assertEqual(list(rows), expected)
        hashed = rules.absorb(rules.HASH_START, bytes(8) + b"xyLLzw")
        self.assertEqual(grown.session.input_digest, hashed)
        self.assertEqual(grown.advance(), "waiting")
        grown.commit(0, 1)
        grown.inputs(0, 1, b"ab")
        grown.inputs(2, 1, b"cd")
        grown.advance()
        self.assertEqual(grown.answer.values[:2], (1, False))
        hashed = rules.absorb(hashed, b"\1" + bytes(7) + b"abLLcd")
        self.assertEqual(grown.session.input_digest, hashed)

    def test_rows_are_zero_beyond_width_and_roster(self):
        session = playing(TWO).session
        session.ring = bytearray(b"\xff" * rules.RING_BYTES)
        session.ring_ticks[0], session.ring_seats[0] = 0, 255
        answer, _ = rules.advance(session)
        self.assertEqual(list(answer.values[2]), [b"\xff" + bytes(15)] * 2 + [bytes(16)] * 6)

    def test_due(self):
        for period, due in ((1, [0, 1, 2, 3]), (2, [0, 2]), (3, [0, 3]), (255, [0])):
            grown = playing(TWO._replace(period=period))
            seen = []
            for tick in range(4):
                grown.submit(b"L")
                grown.inputs(1, tick, b"B")
                grown.advance()
                seen += [tick] if grown.session.step.due else []
                wrong, right = (None, 1) if tick in seen else (1, None)
                self.assertEqual(grown.commit(tick, wrong), 52)
                self.assertEqual(grown.commit(tick, right), 0)
            self.assertEqual(seen, due)

    def test_out_of_order(self):
        grown = playing(TWO)
        self.assertEqual(grown.commit(0, 1), 51)
        self.assertEqual(grown.answer.values, (0, 0))
        grown.inputs(1, 0, b"B")
        grown.advance()
        before = grown.session
        self.assertEqual(grown.commit(1), 51)  # before 52
        self.assertEqual(grown.answer.values, (1, 0))
        self.assertIs(grown.session, before)

    def test_stall_count(self):
        grown = playing(TWO)
        for count in (1, 2, 3):
            self.assertEqual(grown.advance(), "stalled")
            self.assertEqual(grown.answer.values, (0, 2, count))
        grown.round()
        self.assertEqual(grown.count("stall_pumps"), 3)
        self.assertEqual(grown.session.last_stalled, U64_MAX)
        grown.advance()
        self.assertEqual(grown.answer.values, (1, 3, 1))

    def test_waiting_before_play(self):
        grown = Grown(TWO)
        grown.submit(b"A")
        grown.inputs(1, 0, b"B")
        self.assertEqual(grown.advance(), "waiting")

    def test_slip_stopping_steps_after_peer_left(self):
        grown = playing(TWO)
        grown.submit(b"L")
        grown.inputs(1, 0, b"B", b"C")
        self.assertEqual(grown.bye(1, 1), 1)
        for tick in (0, 1):
            self.assertEqual(grown.advance(), "step")
            self.assertEqual(grown.commit(tick, 5), 0)
        self.assertEqual(grown.advance(), "ended")
        self.assertEqual(grown.answer.values, Outcome(2, 1, 1))
        self.assertEqual(grown.count("stall_pumps"), 0)

    def test_steps_after_leaving(self):
        grown = playing(TWO)
        grown.inputs(1, 0, b"B")
        grown.leave()
        self.assertEqual([grown.advance(), grown.advance()], ["step", "waiting"])

    def test_no_step_after_desync_but_the_outstanding_one(self):
        grown = playing(TWO)
        grown.round(5)
        grown.submit(b"L")
        grown.submit(b"L")
        grown.inputs(1, 1, b"B", b"C")
        grown.advance()
        self.assertEqual(grown.digest(1, 0, 6), 1)
        self.assertEqual(grown.advance(), "waiting")
        self.assertEqual(grown.commit(1, 5), 0)
        self.assertEqual(grown.advance(), "ended")
        self.assertEqual(grown.answer.values, Outcome(1, 0, 0))

    def test_p9_and_leaving(self):
        grown = playing(TWO)
        self.assertEqual(grown.leave(), 1)
        self.assertEqual(grown.answer.values, Outcome(3, 0, 0))
        for rounds in (1, 2, 3):
            grown = playing(TWO)
            for _ in range(rounds):
                grown.round()
            grown.leave()
            self.assertEqual(grown.answer.values, Outcome(3, 0, rounds - 1))

    def test_leave_after_an_outcome(self):
        grown = playing(TWO)
        grown.bye(1, U64_MAX)
        before = grown.session
        self.assertEqual(grown.leave(), 1)
        self.assertEqual(grown.answer.values, Outcome(2, 1, U64_MAX))
        self.assertIs(grown.session, before)


class Judging(unittest.TestCase):
    def test_upon_delivery(self):
        grown = playing(TWO)
        grown.round(5)
        self.assertEqual(grown.digest(1, 0, 5), 0)
        grown.round(5)
        self.assertEqual(grown.digest(1, 1, 6), 1)
        self.assertEqual(grown.answer.values, Outcome(1, 0, 1))

    def test_upon_commit(self):
        grown = playing(TWO)
        self.assertEqual(grown.digest(1, 0, 6), 0)
        self.assertEqual(grown.round(5), 0)
        self.assertEqual(grown.session.outcome, Outcome(1, 0, 0))

    def test_slip_judging_input_digests(self):
        grown = playing(TWO)
        grown.digest(1, 0, 5, 1234)
        grown.round(5)
        grown.round(5)
        self.assertEqual(grown.digest(1, 1, 5, 1234), 0)
        self.assertFalse(rules.has_outcome(grown.session))

    def test_only_that_very_tick(self):
        grown = playing(TWO)
        grown.round(5)
        self.assertEqual(grown.digest(1, 16, 6), 0)  # same cell as tick 0

    def test_contradiction_and_repeat(self):
        grown = playing(TWO)
        grown.digest(1, 3, 5, 7)
        self.assertEqual(grown.digest(1, 3, 5, 7), 0)
        self.assertEqual(grown.digest(1, 3, 6, 7), 30)
        self.assertEqual(grown.digest(1, 3, 5, 8), 30)
        self.assertEqual(grown.counted(), {"datagrams_refused": 2, "digests_contradicted": 2})
        held = Fingerprint(True, 3, 5, 7)
        self.assertEqual(grown.session.remote[1][3], held)

    def test_over_older_and_newer(self):
        grown = playing(TWO)
        for tick in (16, 0, 32, U64_MAX - 15):
            self.assertEqual(grown.digest(1, tick, 5), 0)
            self.assertEqual(grown.session.remote[1][0].tick, tick)

    def test_equal_repeat_is_unjudged(self):
        session = playing(TWO).session
        session.own[0] = Fingerprint(True, 0, 5, 0)
        session.remote[1][0] = Fingerprint(True, 0, 6, 0)
        answer, after = rules.deliver(session, 1, Digest(1, KEY, 0, 6, 0))
        self.assertEqual((answer.number, rules.has_outcome(after)), (0, False))

    def test_first_outcome_stays(self):
        grown = playing(TWO)
        grown.digest(1, 0, 6)
        grown.inputs(1, 0, b"B")
        grown.advance()
        grown.bye(1, 44)
        self.assertEqual(grown.commit(0, 5), 0)
        self.assertEqual(grown.session.outcome, Outcome(2, 1, 44))


# --- Pump --------------------------------------------------------------------


class Pump(unittest.TestCase):
    REMOTES = [0, 1, 2, 4, 5, 6, 7]

    def kinds(self, letters):
        return [f"{seat}{letter}" for letter in letters for seat in self.REMOTES]

    def test_twenty_one_messages(self):
        grown = playing(EIGHT)
        grown.round()
        # Everyone is marked, but this pass began as Hello at the start.
        self.assertEqual(grown.pass_(), self.kinds("HID"))
        self.assertEqual(grown.pass_(), self.kinds("ID"))
        self.assertEqual(grown.pass_(), self.kinds("ID"))

    def test_joining(self):
        grown = Grown(EIGHT)
        for _ in range(3):
            self.assertEqual(grown.pass_(), self.kinds("H"))

    def test_joining_with_every_mark(self):
        grown = Grown(TWO)
        grown.inputs(1, 0, b"B")
        self.assertEqual(grown.session.playing_marks, 2)
        self.assertEqual([grown.pass_() for _ in range(3)], [["1H"]] * 3)

    def test_hello_until_every_mark(self):
        grown = playing(EIGHT)
        for seat in self.REMOTES:
            grown.pass_()
            self.assertEqual(grown.pass_(), self.kinds("HI"))
            grown.inputs(seat, 0, bytes(16))
        self.assertEqual(grown.pass_(), self.kinds("HI"))
        self.assertEqual(grown.pass_(), self.kinds("I"))

    def test_play_begins_within_a_pass(self):
        grown = Grown(TWO)
        seat, message = grown.pump()
        self.assertEqual((seat, message), (1, outside.good_hello(TWO, 0)))
        grown.hello(1)
        grown.submit(b"A")
        self.assertEqual(grown.pass_(), ["1I"])

    def test_owed_digest_is_the_last_committed(self):
        grown = playing(THREE)
        grown.round(5)
        first = grown.session.owed
        grown.round()  # tick 1 has none
        self.assertEqual(grown.session.owed, first)
        self.assertEqual(grown.pass_(), ["0H", "2H", "0I", "2I", "0D", "2D"])
        for _ in range(3):
            seat, message = grown.pump()
        self.assertEqual((seat, message), (0, Digest(1, KEY, 0, 5, first.input)))
        grown.round(6)
        seat, message = grown.pump()
        self.assertEqual((seat, message), (2, Digest(1, KEY, 2, 6, grown.session.owed.input)))
        self.assertEqual(grown.pump(), 71)

    def test_outcome_within_inputs(self):
        grown = playing(THREE)
        grown.round()
        grown.pass_()
        self.assertEqual(grown.session.pump_kind, rules.KIND_INPUTS)
        grown.pump()
        grown.bye(0, 5)
        self.assertEqual(grown.pass_(), ["2I", "0D", "2D"])
        self.assertEqual(grown.pass_(), ["0B", "2B"])
        self.assertEqual(grown.pass_(), ["0B", "2B"])

    def test_outcome_before_a_chosen_pass(self):
        grown = playing(THREE)
        grown.round()
        grown.pass_()
        grown.bye(0, 5)
        self.assertEqual(grown.pass_(), ["0I", "2I", "0D", "2D"])
        self.assertEqual(grown.pass_(), ["0B", "2B"])

    def test_outcome_within_hello(self):
        grown = playing(THREE)
        grown.round()
        grown.pump()
        grown.bye(0, 5)
        self.assertEqual(grown.pass_(), ["2H"])
        self.assertEqual(grown.pass_(), ["0B", "2B"])

    def test_leave_restarts_at_bye(self):
        grown = playing(THREE)
        grown.round()
        grown.pump()
        grown.leave()
        self.assertEqual(grown.pass_(), ["0B", "2B"])
        grown.pump()
        grown.leave()  # stands already, so nothing restarts
        self.assertEqual(grown.pass_(), ["2B"])

    def test_bye_follows_pending(self):
        grown = playing(TWO)
        grown.submit(b"L")
        grown.inputs(1, 0, b"B", b"C")
        grown.leave()
        ticks = []
        for tick in (0, 1):
            ticks.append(grown.pump()[1].tick)
            grown.pump()
            grown.advance()
            grown.commit(tick, 5)
        ticks.append(grown.pump()[1].tick)
        self.assertEqual(ticks, [0, 0, 1])
        self.assertEqual(grown.session.outcome, Outcome(3, 0, 0))

    def first_inputs(self, grown):
        while True:
            one = grown.pump()
            if one == 71 or isinstance(one[1], Inputs):
                return one

    def test_slip_fixed_eight_frames(self):
        grown = playing(TWO._replace(delay=2))
        expected = Inputs(0, KEY, 0, 3, 1, b"LLL")
        self.assertEqual(self.first_inputs(grown), (1, expected))
        for _ in range(5):
            grown.submit(b"M")
        grown.pump()
        expected = Inputs(0, KEY, 0, 8, 1, b"LLLMMMMM")
        self.assertEqual(self.first_inputs(grown), (1, expected))
        grown.submit(b"N")
        grown.pump()
        expected = Inputs(0, KEY, 1, 8, 1, b"LLMMMMMN")
        self.assertEqual(self.first_inputs(grown), (1, expected))

    def test_shortened_and_skipped(self):
        grown = playing(TWO)
        for _ in range(10):
            grown.round()
        self.assertEqual((grown.session.pending, grown.session.next_local), (10, 10))
        _, message = self.first_inputs(grown)
        self.assertEqual((message.first, message.count), (2, 8))
        # Ticks 66 to 68 take the cells of 2 to 4, which the pump then lacks.
        self.assertEqual(grown.inputs(1, 66, b"x", b"x", b"x"), 0)
        grown.pass_()
        _, message = self.first_inputs(grown)
        self.assertEqual((message.first, message.count), (5, 5))
        # A gap further up hides what is still held below it.
        self.assertEqual(grown.inputs(1, 71, b"x"), 0)
        grown.pass_()
        _, message = self.first_inputs(grown)
        self.assertEqual((message.first, message.count), (8, 2))
        self.assertEqual(grown.inputs(1, 73, b"x"), 0)
        grown.pass_()
        self.assertEqual(grown.pass_(), ["1D"])

    def test_skipped_with_nothing_owed(self):
        session = playing(TWO).session
        session.ring_seats[0] = 0
        session.pump_kind = rules.KIND_INPUTS
        answer, after = rules.pump(session)
        self.assertEqual(answer.number, 71)
        self.assertEqual((after.pump_kind, after.pump_place), (rules.KIND_HELLO, 0))


# --- Report ------------------------------------------------------------------


def fnv_of_params(params):
    numbers = (3, params.content, params.rules, params.seed)
    numbers += (params.count, params.width, params.delay, params.period)
    return rules.absorb(rules.HASH_START, struct.pack("<I3Q4I", *numbers))


class Report(unittest.TestCase):
    def report(self, session):
        lent = bytearray(b"#" * 2048)
        answer, after = rules.report(session, lent)
        self.assertIs(after, session)
        self.assertEqual(answer.number, 0)
        (length,) = answer.values
        self.assertEqual(lent[length:], b"#" * (2048 - length))
        return lent[:length].decode()

    def test_small(self):
        grown = playing(TWO)
        grown.round(5)
        grown.digest(1, 0, 0xABC, 1)
        inputs = rules.absorb(rules.HASH_START, bytes(8) + b"L\1")
        expected = (
            '{"schema_version":1,"tick":0,"local":0,"peer_count":2,'
            '"inputs_agree":false,"witnessed":true,'
            '"local_state_digest":"0x0000000000000005",'
            f'"local_input_digest":"{inputs:#018x}",'
            '"last_agreed_tick":null,"dissenters":[1],"peers":['
            '{"seat":0,"state_digest":null,"input_digest":null},'
            '{"seat":1,"state_digest":"0x0000000000000abc","input_digest":"0x0000000000000001"}],'
            f'"agreement_digest":"{fnv_of_params(TWO):#018x}",'
            '"content":"0x0000000000000000","rules":"0x0000000000000000","seed":0,'
            '"stats":{"datagrams_refused":0,"frames_repeated":0,"frames_contradicted":0,'
            '"frames_out_of_window":0,"digests_contradicted":0,"stall_pumps":0}}'
        )
        self.assertEqual(self.report(grown.session), expected)

    def test_three_seats_by_hand(self):
        params = Params(4, 2, 1, 0, 1, U64_MAX, 0x10, 0xFEDCBA9876543210, KEY)
        session = rules.Session(params)
        session.outcome = Outcome(1, 0, 20)
        session.counters = dict(zip(rules.COUNTERS, (1, 2, 3, 4, 5, U64_MAX)))
        session.own[4] = Fingerprint(True, 20, 0xA, 0xB)
        session.own[3] = Fingerprint(True, 19, 0x1, 0x1)  # seat 1 denies it
        session.own[2] = Fingerprint(True, 18, 0x2, 0x2)  # silence agrees
        session.own[1] = Fingerprint(True, 17, 0x3, 0x3)
        session.own[5] = Fingerprint(True, 21, 0x4, 0x4)  # not below the tick
        session.remote[0][4] = Fingerprint(True, 20, 0xA, 0xB)
        session.remote[1][4] = Fingerprint(True, 4, 0xC, 0xC)  # another tick
        session.remote[3][4] = Fingerprint(True, 20, 0xD, 0xB)
        session.remote[1][3] = Fingerprint(True, 19, 0x9, 0x1)
        session.remote[1][2] = Fingerprint(True, 2, 0x9, 0x9)
        expected = (
            '{"schema_version":1,"tick":20,"local":2,"peer_count":4,'
            '"inputs_agree":true,"witnessed":true,'
            '"local_state_digest":"0x000000000000000a",'
            '"local_input_digest":"0x000000000000000b",'
            '"last_agreed_tick":18,"dissenters":[3],"peers":['
            '{"seat":0,"state_digest":"0x000000000000000a","input_digest":"0x000000000000000b"},'
            '{"seat":1,"state_digest":null,"input_digest":null},'
            '{"seat":2,"state_digest":null,"input_digest":null},'
            '{"seat":3,"state_digest":"0x000000000000000d","input_digest":"0x000000000000000b"}],'
            f'"agreement_digest":"{fnv_of_params(params):#018x}",'
            '"content":"0x0000000000000010","rules":"0xfedcba9876543210",'
            '"seed":18446744073709551615,'
            '"stats":{"datagrams_refused":1,"frames_repeated":2,"frames_contradicted":3,'
            '"frames_out_of_window":4,"digests_contradicted":5,"stall_pumps":18446744073709551615}}'
        )
        self.assertEqual(self.report(session), expected)

    def test_unwitnessed_and_empty(self):
        session = rules.Session(TWO)
        session.outcome = Outcome(1, 0, 7)
        told = self.report(session)
        self.assertIn('"inputs_agree":true,"witnessed":false,', told)
        self.assertIn('"local_state_digest":"0x0000000000000000"', told)
        self.assertIn('"local_input_digest":"0x0000000000000000"', told)
        self.assertIn('"last_agreed_tick":null,"dissenters":[],', told)
        session.own[7] = Fingerprint(False, 7, 0x55, 0x66)  # absent, so its values are none
        self.assertEqual(self.report(session), told)

    def test_local_cell_as_it_stands(self):
        session = rules.Session(TWO)
        session.outcome = Outcome(1, 0, 7)
        session.own[7] = Fingerprint(True, 23, 0x55, 0x66)
        session.remote[1][7] = Fingerprint(True, 23, 0x77, 0x66)
        told = self.report(session)
        self.assertIn('"local_state_digest":"0x0000000000000055"', told)
        self.assertIn('"witnessed":false', told)
        self.assertIn('"last_agreed_tick":null', told)

    def test_last_agreed_is_below_the_tick(self):
        session = rules.Session(TWO)
        session.outcome = Outcome(1, 0, 7)
        session.own[7] = Fingerprint(True, 7, 1, 1)
        self.assertIn('"last_agreed_tick":null', self.report(session))

    def test_inputs_alone_deny_nothing(self):
        session = rules.Session(TWO)
        session.outcome = Outcome(1, 0, 7)
        session.own[6] = Fingerprint(True, 6, 1, 1)
        session.remote[1][6] = Fingerprint(True, 6, 1, 2)
        self.assertIn('"last_agreed_tick":6', self.report(session))

    def test_room(self):
        session = rules.Session(TWO)
        session.outcome = Outcome(1, 0, 7)
        length = len(self.report(session))
        lent = bytearray(b"#" * (length - 1))
        self.assertEqual(rules.report(session, lent)[0].number, 62)
        self.assertEqual(lent, b"#" * (length - 1))
        self.assertEqual(rules.report(session, bytearray(length))[0].number, 0)
        self.assertEqual(rules.report(session, bytearray(0))[0].number, 62)

    def test_no_desync(self):
        grown = playing(TWO)
        self.assertEqual(rules.report(grown.session, bytearray(0))[0].number, 61)
        grown.bye(1, 0)
        self.assertEqual(rules.report(grown.session, bytearray(0))[0].number, 61)

    def test_longest_text_fits(self):
        params = Params(8, 7, 16, 63, 255, *[U64_MAX] * 4)
        session = rules.Session(params)
        session.outcome = Outcome(1, 0, U64_MAX)
        session.counters = dict.fromkeys(rules.COUNTERS, U64_MAX)
        session.own = [Fingerprint(True, U64_MAX - 1, 1, 1)] * 16
        session.remote = [[Fingerprint(True, U64_MAX, 2, 2)] * 16 for _ in range(8)]
        self.assertLessEqual(len(self.report(session)), 2048)


# --- Records built by hand ---------------------------------------------------


class Saturation(unittest.TestCase):
    def test_counters_stop(self):
        session = playing(TWO).session
        session.counters = dict.fromkeys(rules.COUNTERS, U64_MAX)
        session.last_stalled = 0
        for message in (
            Inputs(1, KEY, 0, 1, 1, b"B"),
            Inputs(1, KEY, 0, 1, 1, b"B"),
            Inputs(1, KEY, 0, 1, 1, b"x"),
            Inputs(1, KEY, 64, 1, 1, b"x"),
            Digest(1, KEY, 5, 0, 0),
            Digest(1, KEY, 5, 1, 0),
        ):
            _, session = rules.deliver(session, 1, message)
        session.ring_seats[0] = 0
        _, session = rules.advance(session)
        self.assertEqual(set(session.counters.values()), {U64_MAX})

    def test_ticks_stop(self):
        session = playing(TWO).session
        session.pending = session.next_local = U64_MAX
        self.assertTrue(rules.wants_local(session))
        answer, session = rules.submit(session, b"A")
        self.assertEqual((answer.values, session.next_local), ((U64_MAX,), U64_MAX))
        rules.write_frame(session, U64_MAX, 1, b"B")
        answer, session = rules.advance(session)
        self.assertEqual(answer.values[:2], (U64_MAX, True))
        answer, session = rules.commit(session, U64_MAX, 5)
        self.assertEqual((answer.number, session.pending), (0, U64_MAX))
        self.assertEqual(session.owed.tick, U64_MAX)
        answer, session = rules.leave(session)
        self.assertEqual(session.outcome, Outcome(3, 0, U64_MAX - 1))

    def test_window_at_the_end(self):
        session = playing(TWO).session
        session.pending = U64_MAX - 1
        answer, after = rules.deliver(session, 1, Inputs(1, KEY, U64_MAX - 1, 1, 1, b"B"))
        self.assertEqual(answer.number, 0)
        self.assertTrue(rules.is_held(after, U64_MAX - 1, 1))
        session.pending = U64_MAX - 65
        answer, _ = rules.deliver(session, 1, Inputs(1, KEY, U64_MAX - 1, 1, 1, b"B"))
        self.assertEqual(answer.number, 27)
        session.pending = U64_MAX - 64
        answer, _ = rules.deliver(session, 1, Inputs(1, KEY, U64_MAX - 1, 1, 1, b"B"))
        self.assertEqual(answer.number, 0)

    def test_stall_at_the_end(self):
        """2^64-1 is also the mark for no stall, so the count goes on from where it is."""
        session = playing(TWO).session
        session.pending = U64_MAX
        session.counters["stall_pumps"] = 7
        answer, _ = rules.advance(session)
        self.assertEqual(answer.values, (U64_MAX, 3, 8))

    def test_local_far_behind_or_ahead(self):
        session = playing(TWO).session
        session.pending, session.next_local = 100, 3
        self.assertTrue(rules.wants_local(session))
        answer, after = rules.submit(session, b"A")
        self.assertEqual((answer.values, after.ring_ticks[3]), ((3,), 3))
        session.pending, session.next_local = 0, U64_MAX
        self.assertFalse(rules.wants_local(session))
        self.assertEqual(rules.submit(session, b"A")[0].number, 42)


class ByHand(unittest.TestCase):
    def test_extra_bits_do_not_matter(self):
        session = rules.Session(THREE)
        session.hello_marks = 0b11111010
        session.next_local = 5
        _, after = rules.submit(session, b"AA")
        self.assertFalse(after.playing)
        session.hello_marks = 0b11111111
        _, after = rules.submit(session, b"AA")
        self.assertTrue(after.playing)
        after.ring_ticks[0], after.ring_seats[0] = 0, 0b11111011
        self.assertEqual(rules.advance(after)[0].values, (0, 0b100, 1))
        after.ring_seats[0] = 0b01010111
        self.assertEqual(rules.advance(after)[0].word, "step")
        after.playing_marks = 0b11111110
        self.assertEqual(rules.first_kind(after), rules.KIND_HELLO)
        after.playing_marks = 0b10000101
        self.assertEqual(rules.first_kind(after), rules.KIND_INPUTS)

    def test_outcome_beats_the_playing_mark(self):
        session = playing(TWO).session
        session.outcome = Outcome(2, 1, 0)
        self.assertTrue(session.playing)
        self.assertFalse(rules.is_playing(session))
        session.pump_place = 255
        answer, after = rules.pump(session)
        self.assertEqual((answer.number, after.pump_kind), (71, rules.KIND_BYE))

    def test_step_at_another_tick(self):
        session = playing(TWO).session
        session.pending, session.step = 10, Step(True, 99, True)
        answer, _ = rules.commit(session, 10, 5)
        self.assertEqual((answer.number, answer.values), (51, (10, 99)))
        self.assertEqual(rules.commit(session, 99, None)[0].number, 52)
        answer, after = rules.commit(session, 99, 5)
        self.assertEqual((answer.number, after.pending), (0, 11))
        self.assertEqual(after.own[3].tick, 99)

    def test_absent_cells_say_nothing(self):
        session = playing(TWO).session
        session.own[0] = Fingerprint(False, 0, 5, 5)
        answer, after = rules.deliver(session, 1, Digest(1, KEY, 0, 6, 6))
        self.assertEqual(answer.number, 0)
        session.remote[1][0] = Fingerprint(False, 0, 7, 7)
        answer, after = rules.deliver(session, 1, Digest(1, KEY, 0, 6, 6))
        self.assertEqual((answer.number, after.remote[1][0].state), (0, 6))

    def test_fingerprints_in_wrong_cells(self):
        session = playing(TWO).session
        session.own[1] = Fingerprint(True, 0, 5, 5)
        answer, _ = rules.deliver(session, 1, Digest(1, KEY, 0, 6, 6))
        self.assertEqual(answer.number, 0)
        session.remote[1][1] = Fingerprint(True, 0, 6, 6)
        answer, _ = rules.deliver(session, 1, Digest(1, KEY, 0, 5, 5))
        self.assertEqual(answer.number, 0)

    def test_judging_looks_at_each_remote(self):
        session = playing(THREE).session
        session.own[0] = Fingerprint(True, 0, 5, 5)
        session.remote[2][0] = Fingerprint(True, 0, 6, 6)
        answer, _ = rules.deliver(session, 0, Digest(0, KEY, 0, 5, 5))
        self.assertEqual(answer.values, Outcome(1, 0, 0))

    def test_seats_beyond_the_roster_are_no_remotes(self):
        session = playing(TWO).session
        session.own[0] = Fingerprint(True, 0, 5, 5)
        for seat in (0, 2, 7):
            session.remote[seat][0] = Fingerprint(True, 0, 6, 6)
        answer, _ = rules.deliver(session, 1, Digest(1, KEY, 0, 5, 5))
        self.assertEqual(answer.number, 0)
        session.outcome = Outcome(1, 0, 0)
        self.assertIn('"witnessed":false', rules.report_text(session))

    def test_pump_places(self):
        session = playing(EIGHT).session
        session.pump_kind = rules.KIND_HELLO
        for place, seat, kind in ((0, 0, Hello), (3, 4, Hello), (7, 7, Hello), (8, 0, Inputs)):
            session.pump_place = place
            answer, after = rules.pump(session)
            self.assertEqual((answer.values[0], type(answer.values[1])), (seat, kind))
            self.assertEqual(after.pump_place, seat + 1)
        session.pump_place = 255
        self.assertEqual(rules.pump(session)[0].values[0], 0)

    def test_digest_kind_with_nothing_owed(self):
        session = playing(TWO).session
        session.pump_kind = rules.KIND_DIGEST
        self.assertEqual(rules.pump(session)[0].number, 71)

    def test_joining_with_a_digest_owed(self):
        session = rules.Session(TWO)
        session.owed = Fingerprint(True, 0, 5, 5)
        session.pump_place = 2
        self.assertEqual(rules.pump(session)[0].number, 71)

    def test_bad_parameters(self):
        for changes in ({"count": 9}, {"local": 2}, {"width": 0}, {"period": 0}, {"session": 0}):
            session = rules.Session(TWO._replace(**changes))
            session.outcome = Outcome(1, 0, 0)
            for answer, after in every_call(session, random.Random(1)):
                self.assertEqual(answer.number, 20)
                self.assertIs(after, session)
            self.assertFalse(rules.wants_local(session))


EDGES = (0, 1, 2, 15, 16, 62, 63, 64, 65, 127, 2**63, U64_MAX - 64, U64_MAX - 1, U64_MAX)


def any_u64(rng):
    return rng.choice(EDGES) if rng.random() < 0.8 else rng.getrandbits(64)


def any_session(rng):
    """A record with anything anywhere, mostly with good parameters."""
    count = rng.randint(2, 8)
    good = (count, rng.randrange(count), rng.randint(1, 16), rng.randint(0, 63), rng.randint(1, 3))
    small = good if rng.random() < 0.9 else [rng.randrange(256) for _ in range(5)]
    large = [any_u64(rng) for _ in range(3)] + [rng.choice((0, 9, 9, 9))]
    session = rules.Session(Params(*small, *large))

    def fingerprint(cell):
        tick = rng.choice((any_u64(rng), cell, cell + 48))
        return Fingerprint(rng.random() < 0.7, tick, rng.randrange(2), rng.randrange(2))

    session.ring = bytearray(rng.randbytes(rules.RING_BYTES))
    session.pending = any_u64(rng)
    session.next_local = rng.choice((any_u64(rng), rules.plus(session.pending, rng.randrange(66))))
    near = [rules.plus(session.pending, cell) for cell in range(64)]
    session.ring_ticks = [rng.choice((any_u64(rng), near[cell])) for cell in range(64)]
    if rng.random() < 0.5:
        session.ring_ticks[session.pending % 64] = session.pending
    session.ring_seats = [rng.choice((255, 127, rng.randrange(256))) for _ in range(64)]
    session.input_digest = any_u64(rng)
    session.own = [fingerprint(cell) for cell in range(16)]
    session.remote = [[fingerprint(cell) for cell in range(16)] for _ in range(8)]
    session.owed = fingerprint(0)
    session.hello_marks = rng.choice((255, rng.randrange(256)))
    session.playing_marks = rng.choice((255, rng.randrange(256)))
    session.playing = rng.random() < 0.6
    session.step = Step(rng.random() < 0.4, any_u64(rng), rng.random() < 0.5)
    session.outcome = Outcome(rng.choice((0, 0, 0, 1, 2, 3)), rng.randrange(256), any_u64(rng))
    session.counters = {name: any_u64(rng) for name in rules.COUNTERS}
    session.last_stalled = rng.choice((any_u64(rng), session.pending))
    session.pump_kind = rng.choice((3, 4, 5, 6, rng.randrange(256)))
    session.pump_place = rng.choice((0, 1, 7, 8, 255, rng.randrange(256)))
    return session


def any_window(rng):
    """Such a record with good parameters, whose window is full up to some tick.
    Behind it a cell may lack a seat, or be of another turn of the ring; past
    2^64-1 it is what a sum modulo 2^64 would ask for."""
    session = any_session(rng)
    while rules.is_bad(session):
        session = any_session(rng)
    wanted = rng.randrange(65)
    for ahead in range(64):
        tick, seats = session.pending + ahead, 255
        if ahead == wanted or ahead > wanted and rng.random() < 0.3:
            if rng.random() < 0.5:
                seats -= 1 << rng.randrange(session.params.count)
            else:
                tick += rng.choice((64, -64))
        if rng.random() < 0.5:
            seats &= rules.of_count(session.params.count)
        session.ring_ticks[tick % 64], session.ring_seats[tick % 64] = tick % 2**64, seats
    return session


def any_messages(session, rng):
    """`(source, message)` pairs, most past the header."""
    params = session.params
    sender = rng.choice((rng.randrange(8), rng.randrange(256)))
    source = sender if rng.random() < 0.9 else rng.randrange(256)
    key = params.session if rng.random() < 0.9 else any_u64(rng)
    width = params.width if rng.random() < 0.8 else rng.choice((1, 16, rng.randrange(256)))
    count = rng.choice((1, 8, rng.randrange(256)))
    first = rng.choice((session.pending, any_u64(rng)))
    run = rng.randbytes(min(count * width, 128))
    small = [rng.randrange(256) for _ in range(4)]
    agreed = rng.choice((rules.agreement(params), any_u64(rng)))
    yield source, outside.good_hello(params, sender)._replace(agreement=agreed, session=key)
    yield source, Hello(sender, key, agreed, *(any_u64(rng) for _ in range(3)), *small)
    yield source, Inputs(sender, key, first, count, width, run)
    tick = rng.choice((any_u64(rng), rng.randrange(64)))
    yield source, Digest(sender, key, tick, rng.randrange(2), rng.randrange(2))
    yield source, Bye(sender, key, any_u64(rng))
    yield source, Other(sender, key, rng.randrange(6))


def every_call(session, rng):
    width = session.params.width if rng.random() < 0.9 else rng.randrange(300)
    yield rules.submit(session, rng.randbytes(width))
    for source, message in any_messages(session, rng):
        yield rules.deliver(session, source, message)
    yield rules.advance(session)
    digest = any_u64(rng) if session.step.due else None
    for tick in (session.step.tick, session.pending, any_u64(rng)):
        yield rules.commit(session, tick, digest)
        yield rules.commit(session, tick, rng.choice((None, any_u64(rng))))
    yield rules.leave(session)
    yield rules.pump(session)
    yield rules.report(session, bytearray(rng.choice((0, 600, 2048))))
    yield rules.ready(session), session


REFUSALS_WITHOUT_CHANGE = (*range(11, 21), *range(41, 63))


class AnyRecord(unittest.TestCase):
    ROUNDS = 400

    def test_calls_are_total(self):
        seen = set()
        for seed in range(self.ROUNDS):
            rng = random.Random(seed)
            session = any_session(rng)
            kept = copy.deepcopy(session)
            bad = rules.params_refusal(session.params) != 0
            rules.wants_local(session)
            rules.session_fields(session)
            for answer, after in every_call(session, rng):
                seen.add(answer.number)
                self.assertEqual(answer.number == 20, bad)
                if answer.number in REFUSALS_WITHOUT_CHANGE:
                    self.assertIs(after, session)
                self.check_ranges(after)
                # The next state can be called upon as well.
                for _ in every_call(after, random.Random(seed)):
                    pass
            self.assertEqual(session, kept)
        expected = {0, 1, 20, *range(21, 32), 41, 42, 51, 52, 61, 62, 71}
        self.assertEqual(seen, expected)

    def check_ranges(self, session):
        self.assertEqual(len(session.ring), rules.RING_BYTES)
        numbers = [session.pending, session.next_local, session.input_digest]
        numbers += [*session.ring_ticks, *session.counters.values(), session.last_stalled]
        self.assertTrue(all(0 <= number <= U64_MAX for number in numbers))
        small = [*session.ring_seats, session.hello_marks, session.playing_marks]
        small += [session.pump_place, session.pump_kind]
        self.assertTrue(all(0 <= number <= 255 for number in small))

    def test_at_most_twenty_one_before_71(self):
        for seed in range(self.ROUNDS):
            session = any_session(random.Random(seed))
            if rules.is_bad(session):
                continue
            for _ in range(22):
                answer, session = rules.pump(session)
                if answer.number == 71:
                    break
            self.assertEqual(answer.number, 71)


# --- outside.py --------------------------------------------------------------

HERE = pathlib.Path(__file__).resolve().parent


class Outside(unittest.TestCase):
    def test_same_seed_same_scripts(self):
        first, again = (list(outside.all_scripts(3, 4)) for _ in range(2))
        self.assertEqual(first, again)
        self.assertNotEqual(first, list(outside.all_scripts(4, 4)))

    def test_every_line_and_reason_is_reached(self):
        words, reasons = set(), set()
        for _, script in outside.all_scripts(1, 30):
            for kind, payload, (line,) in rules.run(script):
                words.add(" ".join(line.split()[:2]))
                if line == "deliver 21":
                    _, message = rules.read_message(kind, payload)
                    reasons.add((kind, rules.malformed_reason(message)))
        numbered = {"open": [0, *range(11, 17)], "submit": [0, 1, 41, 42]}
        numbered |= {"deliver": [0, 1, *range(21, 32)], "commit": [0, 51, 52]}
        numbered |= {"ended": [1, 2, 3], "report": [61], "send": [0, 1, 2, 71]}
        expected = {f"{word} {number}" for word, all_ in numbered.items() for number in all_}
        expected |= {"bad", "none", "cut", "waiting", "step 0", "stalled 0"}
        self.assertEqual(expected - words, set())
        fits = {3: (1, 2, 3, 4, 5, 6), 4: (1, 2, 4, 7, 8, 9), 5: (1, 2), 6: (1, 2), 7: (1, 2, 10)}
        every = {(kind, reason) for kind, fitting in fits.items() for reason in fitting}
        self.assertEqual(reasons, every)

    def test_every_ready_count_is_reached(self):
        for scripts in outside.window_scripts(), outside.play_scripts(1, 25):
            seen = set()
            for _, script in scripts:
                seen |= {lines[-1] for _, _, lines in rules.run(script, rules.READY)}
            self.assertEqual({f"ready {ticks}" for ticks in range(65)} - seen, set())

    def test_a_gap_at_each_place(self):
        for place in range(64):
            lines = rules.text(outside.gap_at(place), rules.READY).splitlines()
            # With all but one frame, then with that one.
            self.assertEqual(lines[-3::2], [f"ready {place}", "ready 64"])
            self.assertIn("submit 42", lines)
            self.assertIn("deliver 27", lines)

    def program(self, path):
        return f"{shlex.quote(sys.executable)} -B {shlex.quote(str(path))}"

    def some_scripts(self):
        return [one for number, one in enumerate(outside.all_scripts(1, 10)) if number % 40 == 0]

    def test_rules_agree_with_themselves(self):
        scripts = self.some_scripts()
        right = self.program(HERE / "rules.py")
        self.assertEqual(outside.compare(right, scripts), len(scripts))
        for form in (rules.TRACE, rules.CARRIED, rules.READY):
            self.assertEqual(outside.compare(f"{right} {form}", scripts, form), len(scripts))

    def test_differences_are_found(self):
        source = (HERE / "rules.py").read_text()
        with tempfile.TemporaryDirectory() as directory:
            wrong = pathlib.Path(directory) / "wrong.py"
            wrong.write_text(source.replace("message.delay > MAX_DELAY", "message.delay > 64"))
            kept = pathlib.Path(directory) / "kept"
            told = io.StringIO()
            with contextlib.redirect_stdout(told):
                arguments = ["--program", self.program(wrong), "--count", "1", "--seed", "8"]
                status = outside.main(arguments + ["--keep", str(kept)])
            self.assertEqual(status, 1)
            self.assertIn("seed 8", told.getvalue())
            self.assertIn("expected deliver 21\n  found    deliver 0", told.getvalue())
            self.assertNotEqual(kept.read_bytes(), b"")

    def test_a_wrong_value_is_found(self):
        source = (HERE / "rules.py").read_text()
        right = "return NOT_IN_ROSTER, message.sender"
        self.assertIn(right, source)
        with tempfile.TemporaryDirectory() as directory:
            wrong = pathlib.Path(directory) / "wrong.py"
            wrong.write_text(source.replace(right, "return NOT_IN_ROSTER, source + 1"))
            program = f"{self.program(wrong)} {rules.CARRIED}"
            script = outside.situations()["playing"] + message_record(3, Bye(3, KEY, 0))
            _, _, words = outside.compare(program, [("a stranger", script)], rules.CARRIED)
        self.assertIn("expected deliver 25 3\n  found    deliver 25 4", words)

    def test_a_wrong_count_is_found(self):
        source = (HERE / "rules.py").read_text()
        right = "for ahead in range(WINDOW)]"
        self.assertIn(right, source)
        with tempfile.TemporaryDirectory() as directory:
            wrong = pathlib.Path(directory) / "wrong.py"
            wrong.write_text(source.replace(right, "for ahead in range(WINDOW - 1)]"))
            program = f"{self.program(wrong)} {rules.READY}"
            _, _, words = outside.compare(program, outside.window_scripts(), rules.READY)
        self.assertIn("expected ready 64\n  found    ready 63", words)

    def test_first_difference(self):
        script = open_record(TWO) + ADVANCE
        self.assertIsNone(outside.first_difference(script, b"open 0\nwaiting\n"))
        for found in (b"", b"open 0\n", b"open 0\nwaiting", b"open 0\nwaiting\n\n"):
            self.assertIsNotNone(outside.first_difference(script, found), found)
        self.assertIn("line 2", outside.first_difference(script, b"open 0\nwait\n"))

    def test_fixed_lists(self):
        """The Rust's stored answers, which tools/fixed made, are the rules' too."""
        for crate, form in ("trace", rules.TRACE), ("carried", rules.CARRIED):
            files = HERE.parent / "crates" / crate
            found = rules.text((files / "stdin").read_bytes(), form)
            self.assertTrue(found == (files / "stdout").read_text(), crate)


if __name__ == "__main__":
    unittest.main()
