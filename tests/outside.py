#!/usr/bin/env python3
"""Scripts outside the Rust's domain, and a program held against rules.py on them.

    python3 tests/outside.py --program 'CMD' [--count K] [--seed N] [FORM]
    python3 tests/outside.py --write DIRECTORY [--count K] [--seed N] [FORM]

The first runs CMD on every script (standard input) and compares what it prints
with rules.py, line by line; the first difference is shown and the exit status
is 1. FORM is `--trace`, which compares the trace form instead, or `--carried`,
the values that the answers carry, or `--ready`, how many ticks are ready after
each record; CMD must then print that form.
`--keep FILE` saves the script that showed the difference. The second writes
each script with the lines expected of it.

The same seed makes the same scripts. Fixed families cover each limit from both
sides, a gap at each place of the window, each payload length and each cut;
`--count` says how many random plays come on top of them. Scripts share a file
where they can: one that needs the time before any open, or ends in a cut, has a
file of its own.
"""

import argparse
import pathlib
import random
import shlex
import subprocess
import sys

import rules
from rules import U64_MAX, Bye, Digest, Hello, Inputs, Other, Params

# --- Records -----------------------------------------------------------------


def record(kind, payload=b""):
    return rules.RECORD_HEADER.pack(len(payload), kind) + payload


def open_record(params):
    return record(rules.OPEN, rules.OPEN_LAYOUT.pack(*params))


def submit_record(frame):
    return record(rules.SUBMIT, frame)


def message_record(source, message):
    """The script record that delivers a message."""
    if isinstance(message, Hello):
        return record(rules.HELLO, rules.HELLO_LAYOUT.pack(source, *message))
    if isinstance(message, Inputs):
        fields = rules.INPUTS_LAYOUT.pack(source, *message[:-1])
        return record(rules.INPUTS, fields + message.run)
    if isinstance(message, Digest):
        return record(rules.DIGEST, rules.DIGEST_LAYOUT.pack(source, *message))
    if isinstance(message, Bye):
        return record(rules.BYE, rules.BYE_LAYOUT.pack(source, *message))
    return record(rules.OTHER, rules.OTHER_LAYOUT.pack(source, *message))


def commit_record(tick, flag, digest):
    return record(rules.COMMIT, rules.COMMIT_LAYOUT.pack(tick, flag, digest))


ADVANCE = record(rules.ADVANCE)
LEAVE = record(rules.LEAVE)
PUMP = record(rules.PUMP)
REPORT = record(rules.REPORT)


def good_hello(params, sender):
    return Hello(
        sender,
        params.session,
        rules.agreement(params),
        params.content,
        params.rules,
        params.seed,
        params.count,
        params.width,
        params.delay,
        params.period,
    )


# --- Situations: what went before --------------------------------------------

PARAMS = Params(
    count=3, local=1, width=2, delay=1, period=2, seed=5, content=6, rules=7, session=9
)


def situations():
    """Named beginnings. Those of BEFORE_OPEN hold no good open."""
    opened = open_record(PARAMS)
    hellos = [message_record(seat, good_hello(PARAMS, seat)) for seat in (0, 2)]
    playing = opened + b"".join(hellos) + submit_record(b"aa") + submit_record(b"bb")
    inputs = [message_record(seat, Inputs(seat, 9, 0, 1, 2, b"xy")) for seat in (0, 2)]
    stepped = playing + b"".join(inputs) + ADVANCE
    committed = stepped + commit_record(0, 1, 77)
    return {
        "nothing": b"",
        "refused open": open_record(PARAMS._replace(count=1)),
        "joining": opened,
        "playing": playing,
        "stepped": stepped,
        "committed": committed,
        "desynced": committed + message_record(2, Digest(2, 9, 0, 78, 1)),
        "peer left": stepped + message_record(2, Bye(2, 9, 4)),
        "left": playing + LEAVE,
    }


BEFORE_OPEN = ("nothing", "refused open")


# --- Both sides of each limit ------------------------------------------------

SEAT_EDGES = (0, 1, 2, 3, 6, 7, 8, 9, 127, 128, 254, 255)
SESSION_EDGES = (0, 1, 8, 9, 10, 2**32 + 9, 2**63, U64_MAX - 1, U64_MAX)
COUNT_EDGES = (0, 1, 2, 3, 7, 8, 9, 10, 255)
WIDTH_EDGES = (0, 1, 2, 3, 15, 16, 17, 18, 255)
DELAY_EDGES = (0, 1, 62, 63, 64, 65, 255)
PERIOD_EDGES = (0, 1, 2, 255)
FRAMES_EDGES = (0, 1, 2, 7, 8, 9, 10, 255)
TICK_EDGES = (0, 1, 2, 3, 62, 63, 64, 65, 66, 127, 128, 2**63) + tuple(
    range(U64_MAX - 9, U64_MAX + 1)
)
RUN_EDGES = (0, 1, 2, 3, 4, 15, 16, 17, 31, 32, 33, 127, 128)
OTHER_EDGES = (0, 1, 2, 3, 4, 5, 6, 255)

OPEN_EDGES = {
    "count": COUNT_EDGES,
    "local": SEAT_EDGES,
    "width": WIDTH_EDGES,
    "delay": DELAY_EDGES,
    "period": PERIOD_EDGES,
    "session": SESSION_EDGES,
}


def good_messages(params, sender):
    """One of each kind, with the edges of each of its own fields."""
    session, width = params.session, params.width
    hello = good_hello(params, sender)
    return [
        (
            hello,
            {
                "agreement": (hello.agreement ^ 1, hello.agreement ^ 2**63, 0),
                "content": (0, U64_MAX),
                "rules": (0, U64_MAX),
                "seed": (0, U64_MAX),
                "count": COUNT_EDGES,
                "width": WIDTH_EDGES,
                "delay": DELAY_EDGES,
                "period": PERIOD_EDGES,
            },
        ),
        (
            Inputs(sender, session, 0, 1, width, bytes(width)),
            {"first": TICK_EDGES, "count": FRAMES_EDGES, "width": WIDTH_EDGES},
        ),
        (Digest(sender, session, 0, 1, 2), {"tick": TICK_EDGES}),
        (Bye(sender, session, 0), {"tick": TICK_EDGES}),
        (Other(sender, session, 1), {"kind": OTHER_EDGES}),
    ]


def fitting_run(message):
    """Gives Inputs the run its count and width ask for, as far as a record holds it."""
    if isinstance(message, Inputs):
        length = min(message.count * message.width, rules.MAX_RUN)
        return message._replace(run=bytes(range(length)))
    return message


def edge_records():
    """Each limit alone, then Inputs' fields against each other."""
    for seat in (0, 1, 2, 3):
        for message, fields in good_messages(PARAMS, seat):
            yield message_record(seat, message)
            for session in SESSION_EDGES:
                yield message_record(seat, message._replace(session=session))
            for other in SEAT_EDGES:
                yield message_record(other, message)
                yield message_record(other, message._replace(sender=other))
                yield message_record(seat, message._replace(sender=other))
            for name, values in fields.items():
                for value in values:
                    changed = message._replace(**{name: value})
                    yield message_record(seat, changed)
                    yield message_record(seat, fitting_run(changed))
    for count in FRAMES_EDGES:
        for width in WIDTH_EDGES:
            for length in {*RUN_EDGES, *(count * width + d for d in (-1, 0, 1))}:
                if 0 <= length <= rules.MAX_RUN:
                    run = bytes(range(length))
                    yield message_record(2, Inputs(2, 9, 5, count, width, run))
        for first in TICK_EDGES:
            yield message_record(2, fitting_run(Inputs(2, 9, first, count, 2, b"")))


def open_edges():
    """Each parameter alone and each pair of them."""
    for one, ones in OPEN_EDGES.items():
        for first in ones:
            changed = PARAMS._replace(**{one: first})
            yield open_record(changed)
            for other, others in OPEN_EDGES.items():
                for second in others if other > one else ():
                    yield open_record(changed._replace(**{other: second}))


def limit_scripts():
    edges = list(edge_records())
    for name, before in situations().items():
        if name in BEFORE_OPEN:
            yield f"limits, {name}", before + b"".join(edges)
        else:
            # A fresh beginning each time: an accepted edge must not hide the next.
            yield f"limits, {name}", b"".join(before + edge + PUMP for edge in edges)
            yield f"limits without fresh starts, {name}", before + b"".join(edges)
    opens = list(open_edges())
    yield "limits of open", b"".join(opens)
    before = situations()["committed"]
    yield "limits of open, later", before + b"".join(edge + PUMP + ADVANCE for edge in opens)


# --- Full windows ------------------------------------------------------------


def frames_record(seat, first, count):
    return message_record(seat, fitting_run(Inputs(seat, PARAMS.session, first, count, 2, b"")))


def whole_window(seats):
    """Every frame of a new session's window that these remotes owe."""
    return b"".join(frames_record(seat, first, 8) for seat in seats for first in range(0, 64, 8))


def gap_at(place):
    """A window with one frame missing, then that one. A 65th frame is tried as
    well, by the local seat and by a remote."""
    script = open_record(PARAMS) + submit_record(b"aa") * 65 + whole_window([0])
    for tick in (*range(place + 1, 65), *range(place), place):
        script += frames_record(2, tick, 1)
    return script


def turns(ticks):
    """A full window that is stepped on, and full again before each step."""
    script = situations()["playing"] + submit_record(b"cc") * 62 + whole_window([0, 2])
    for tick in range(ticks):
        script += ADVANCE + commit_record(tick, tick % 2 == 0, tick) + submit_record(b"dd")
        script += frames_record(2, tick + 64, 1) + frames_record(0, tick + 64, 1)
    return script


def window_scripts():
    yield "a gap at each place", b"".join(gap_at(place) for place in range(64))
    yield "a full window, turned", turns(130)


# --- Payload lengths and unknown kinds ---------------------------------------

KNOWN_KINDS = range(1, 13)
UNKNOWN_KINDS = (0, 13, 14, 15, 16, 127, 128, 255) + tuple(
    256 + kind for kind in (0, *KNOWN_KINDS)
) + (0x0800, 0x0B00, 32767, 32768, 65535)
FAR_LENGTHS = (255, 256, 257, 293, 302, 1024, 32768, 65535)


def length_scripts(seed):
    rng = random.Random(f"lengths {seed}")
    for name in ("nothing", "committed", "desynced"):
        before = situations()[name]
        for kinds in (KNOWN_KINDS, UNKNOWN_KINDS):
            script = [before]
            for kind in kinds:
                lengths = range(160) if kind in KNOWN_KINDS else (0, 1, 11, 17, 20, 37)
                for length in lengths:
                    payload = rng.randbytes(length)
                    if kind == rules.OPEN and length == rules.OPEN_LAYOUT.size:
                        payload = rules.OPEN_LAYOUT.pack(*PARAMS._replace(count=0))
                    script += [record(kind, payload)]
            yield f"lengths, {name}, kinds from {kinds[0]}", b"".join(script)
    for kind in (*KNOWN_KINDS, 0, 13):
        far = [record(kind, rng.randbytes(length)) for length in FAR_LENGTHS]
        yield f"far lengths, kind {kind}", situations()["playing"] + b"".join(far) + PUMP


# --- Cuts --------------------------------------------------------------------


def cut_scripts(seed):
    """Records cut at every byte, after each situation in turn."""
    rng = random.Random(f"cuts {seed}")
    whole = [open_record(PARAMS), submit_record(b"aa")]
    whole += [message_record(2, message) for message, _ in good_messages(PARAMS, 2)]
    whole += [ADVANCE, commit_record(0, 1, 77), LEAVE, PUMP, REPORT]
    # Cut comes before bad: unknown kinds and wrong lengths are cut all the same.
    whole += [record(kind, b"12345") for kind in (0, 8, 13, 300, 65535)]
    befores = list(situations().items())
    turn = rng.randrange(len(befores))
    for full in whole:
        _, kind = rules.RECORD_HEADER.unpack_from(full)
        for length in range(1, len(full)):
            name, before = befores[turn % len(befores)]
            turn += 1
            yield f"kind {kind} cut to {length}, {name}", before + full[:length]
    for name, before in befores:
        yield f"whole, {name}", before
        longest = rules.RECORD_HEADER.pack(65535, rules.SUBMIT)
        yield f"cut just before its end, {name}", before + longest + bytes(65534)


# --- Random plays ------------------------------------------------------------


class Play:
    """A script that grows by looking at the session it has so far, so that many
    records land near a limit and some far outside."""

    def __init__(self, rng):
        self.rng = rng
        self.circle = rules.Circle()
        self.script = bytearray()
        self.quarrel = rng.choice((0.05, 0.05, 0.3))

    def add(self, *new):
        for one in new:
            self.script += one
            for kind, payload in rules.records(one):
                self.circle.line(kind, payload)

    def add_message(self, source, message):
        """Many messages that would end the session are left out: after an outcome
        every delivery answers alike."""
        answer, _ = rules.deliver(self.session, source, message)
        ends = answer.number == rules.ENDED and not rules.has_outcome(self.session)
        if not ends or self.rng.random() < self.quarrel:
            self.add(message_record(source, message))

    @property
    def session(self):
        return self.circle.session

    def any_u64(self):
        rng = self.rng
        return rng.choice((rng.choice(TICK_EDGES), rng.getrandbits(64), rng.randrange(200)))

    def params(self):
        rng = self.rng
        count = rng.choice((2, 2, 3, 4, 8))
        return Params(
            count,
            rng.randrange(count),
            rng.choice((1, 2, 16)),
            rng.choice((0, 1, 3, 63)),
            rng.choice((1, 2, 3, 255)),
            *(rng.getrandbits(64) for _ in range(3)),
            rng.choice((1, 9, U64_MAX, rng.getrandbits(64) | 1)),
        )

    def open(self):
        self.add(open_record(self.params()))

    def bad_open(self):
        names = self.rng.sample(sorted(OPEN_EDGES), self.rng.randint(1, 3))
        values = {name: self.rng.choice(OPEN_EDGES[name]) for name in names}
        edited = self.params()._replace(**values)
        if rules.params_refusal(edited) or self.rng.random() < 0.1:
            self.add(open_record(edited))

    def remote(self):
        return self.rng.choice(rules.remotes(self.session))

    def frame(self, seat, tick):
        """What a seat truly plays, so that repeats can be equal."""
        return bytes((seat * 31 + tick * 7 + i) % 256 for i in range(self.session.params.width))

    def submit(self):
        frame = self.frame(self.session.params.local, self.session.next_local)
        self.add(submit_record(frame))

    def bad_submit(self):
        self.add(submit_record(self.rng.randbytes(self.rng.choice(RUN_EDGES))))

    def hello(self):
        seat = self.remote()
        self.add_message(seat, good_hello(self.session.params, seat))

    def inputs_from(self, seat, first, count):
        run = bytearray(b"".join(self.frame(seat, first + index) for index in range(count)))
        if self.rng.random() < 0.05:
            run[self.rng.randrange(len(run))] ^= 1
        params = self.session.params
        message = Inputs(seat, params.session, first, count, params.width, bytes(run))
        self.add_message(seat, message)

    def inputs(self):
        offset = self.rng.choice((-9, -8, -1, 0, 0, 1, 5, 55, 56, 60, 63, 64, 65))
        first = min(max(self.session.pending + offset, 0), U64_MAX - 8)
        self.inputs_from(self.remote(), first, self.rng.choice((1, 2, 7, 8)))

    def fill(self):
        """Frames far ahead from every seat, in any order, now and then with a run missing."""
        pending, next_local = self.session.pending, self.session.next_local
        reach = pending + self.rng.choice((20, 62, 63, 64, 64, 65))
        for _ in range(next_local, reach):
            self.submit()
        remotes = rules.remotes(self.session)
        runs = [(seat, first) for seat in remotes for first in range(pending, reach, 8)]
        self.rng.shuffle(runs)
        for seat, first in runs[self.rng.choice((0, 0, 1)) :]:
            self.inputs_from(seat, first, min(8, reach - first))

    def digest(self):
        """Mostly what the commits of `commit` say: the state of a tick is the tick."""
        own = self.rng.choice(self.session.own)
        tick = self.rng.choice((own.tick, own.tick + 16, self.session.pending, self.any_u64()))
        tick = min(tick, U64_MAX)
        state = self.rng.getrandbits(2) if self.rng.random() < self.quarrel else tick
        inputs = self.rng.choice((own.input, 0))
        self.add_digest(self.remote(), tick, state, inputs)

    def digest_again(self):
        """One already held, equal or with one value changed."""
        seat = self.remote()
        present = [cell for cell in self.session.remote[seat] if cell.present]
        held = self.rng.choice(present or self.session.own)
        changes = self.rng.choice(((0, 0), (1, 0), (0, 1)))
        self.add_digest(seat, held.tick, held.state ^ changes[0], held.input ^ changes[1])

    def add_digest(self, seat, tick, state, inputs):
        message = Digest(seat, self.session.params.session, tick, state, inputs)
        self.add_message(seat, message)

    def commit(self):
        step = self.session.step
        self.add(commit_record(step.tick, self.rng.choice((1, 2, 255)) * step.due, step.tick))

    def bad_commit(self):
        tick = self.rng.choice((self.session.step.tick, self.session.pending, self.any_u64()))
        self.add(commit_record(tick, self.rng.choice((0, 1, 255)), self.any_u64()))

    def round(self):
        """One tick played in full, now and then with a seat missing."""
        if rules.wants_local(self.session):
            self.submit()
        for seat in rules.remotes(self.session):
            if self.rng.random() < 0.95:
                self.inputs_from(seat, self.session.pending, self.rng.choice((1, 1, 2, 8)))
        self.add(ADVANCE)
        step = self.session.step
        if step.present and self.rng.random() < 0.1:
            self.add(commit_record(step.tick, not step.due, 0))
        if step.present and self.rng.random() < 0.9:
            self.commit()

    def marks(self):
        """Playing marks by messages that need not be accepted, and a pass on each side."""
        params = self.session.params
        for seat in rules.remotes(self.session):
            wide = params.width % 16 + 1
            far = Inputs(seat, params.session, 2**40, 1, params.width, bytes(params.width))
            other = Inputs(seat, params.session, 0, 1, wide, bytes(wide))
            digest = Digest(seat, params.session, 2**40, 0, 0)
            self.add(message_record(seat, self.rng.choice((far, other, digest))))
        self.add(*[PUMP] * 44)

    def outside(self):
        """A message with one to three fields at an edge."""
        message, fields = self.rng.choice(good_messages(self.session.params, self.remote()))
        own_session = self.session.params.session
        fields = dict(fields, sender=SEAT_EDGES, session=(0, own_session, own_session ^ 1))
        for name in self.rng.sample(sorted(fields), min(len(fields), self.rng.randint(1, 3))):
            message = message._replace(**{name: self.rng.choice(fields[name])})
        if isinstance(message, Inputs) and self.rng.random() < 0.5:
            message = message._replace(run=self.rng.randbytes(self.rng.choice(RUN_EDGES)))
        else:
            message = fitting_run(message)
        source = self.rng.choice((message.sender, message.sender, self.rng.choice(SEAT_EDGES)))
        self.add_message(source, message)

    def noise(self):
        kind = self.rng.choice((*KNOWN_KINDS, *UNKNOWN_KINDS))
        right = rules.LENGTHS.get(kind, rules.exactly(0))[0]
        length = max(right + self.rng.randint(-2, 2), 0)
        payload = self.rng.randbytes(length)
        if kind != rules.OPEN or length not in rules.LENGTHS[kind]:
            self.add(record(kind, payload))

    def bye(self):
        seat = self.remote()
        self.add(message_record(seat, Bye(seat, self.session.params.session, self.any_u64())))

    def leave(self):
        self.add(LEAVE)

    def pass_(self):
        for _ in range(self.rng.choice((1, 2, 8, 22))):
            self.add(PUMP)

    def other(self):
        self.add(self.rng.choice((ADVANCE, REPORT, PUMP)))


WEIGHTS = {
    Play.round: 30,
    Play.submit: 8,
    Play.hello: 8,
    Play.inputs: 12,
    Play.fill: 1,
    Play.digest: 6,
    Play.digest_again: 4,
    Play.commit: 4,
    Play.outside: 14,
    Play.noise: 4,
    Play.bad_open: 2,
    Play.bad_submit: 2,
    Play.bad_commit: 3,
    Play.pass_: 8,
    Play.other: 8,
    Play.bye: 0.1,
    Play.leave: 0.1,
}


ACTIONS_AFTER_OUTCOME = 20


def play_script(rng):
    play = Play(rng)
    play.open()
    if rng.random() < 0.8:
        for seat in rules.remotes(play.session):
            play.add(message_record(seat, good_hello(play.session.params, seat)))
        for _ in range(play.session.params.delay + 1):
            play.submit()
        if rng.random() < 0.2:
            play.marks()
    after_outcome = 0
    for action in rng.choices(list(WEIGHTS), list(WEIGHTS.values()), k=rng.choice((30, 400))):
        action(play)
        if rules.has_outcome(play.session):
            after_outcome += 1
            play.add(ADVANCE, REPORT)
        if after_outcome > ACTIONS_AFTER_OUTCOME:
            break
    return bytes(play.script)


PLAYS_A_FILE = 25


def play_scripts(seed, count):
    for start in range(0, count, PLAYS_A_FILE):
        numbers = range(start, min(start + PLAYS_A_FILE, count))
        plays = [play_script(random.Random(f"play {seed} {number}")) for number in numbers]
        yield f"plays {numbers[0]} to {numbers[-1]}", b"".join(plays)


def all_scripts(seed, count):
    yield "empty", b""
    yield from limit_scripts()
    yield from window_scripts()
    yield from length_scripts(seed)
    yield from cut_scripts(seed)
    yield from play_scripts(seed, count)


# --- The driver --------------------------------------------------------------

SHOWN = 96
TIMEOUT_SECONDS = 600


def shorten(thing, shown=SHOWN):
    return thing if len(thing) <= shown else f"{thing[:shown]}... ({len(thing)} characters)"


def show_bytes(line):
    """A printed line; whatever is no plain character as an escape."""
    plain = "".join(chr(byte) if 32 <= byte < 127 else f"\\x{byte:02x}" for byte in line)
    return shorten(plain, rules.TEXT_MAX)


def show_record(number, kind, payload):
    if kind is None:
        return f"record {number}, cut: {shorten(payload.hex())}"
    return f"record {number}, kind {kind}, payload {shorten(payload.hex()) or 'empty'}"


def first_difference(script, found, form=rules.PLAIN):
    """What differs first, in words; None where nothing does."""
    found_lines = found.split(b"\n")
    at = 0
    for number, (kind, payload, lines) in enumerate(rules.run(script, form)):
        for line in lines:
            # Only a line that a newline ends counts as printed.
            got = found_lines[at] if at + 1 < len(found_lines) else None
            if got != line.encode("ascii"):
                told = "nothing" if got is None else show_bytes(got)
                return "\n".join(
                    (
                        f"line {at + 1}, {show_record(number, kind, payload)}",
                        f"  expected {line}",
                        f"  found    {told}",
                    )
                )
            at += 1
    rest = b"\n".join(found_lines[at:])
    if rest:
        return f"after the last record: {show_bytes(rest)}"
    return None


def run_program(program, script):
    """What the program prints, and in words how it failed to end by itself."""
    try:
        done = subprocess.run(
            shlex.split(program), input=script, capture_output=True, timeout=TIMEOUT_SECONDS
        )
    except subprocess.TimeoutExpired as late:
        return late.stdout or b"", f"no end within {TIMEOUT_SECONDS} seconds"
    except OSError as failed:
        return b"", f"not started: {failed.strerror}"
    killed = f"ended by signal {-done.returncode}" if done.returncode < 0 else None
    return done.stdout, killed


def compare(program, scripts, form=rules.PLAIN):
    """`(name, script, words)` of the first difference, or the number of scripts."""
    number = 0
    for number, (name, script) in enumerate(scripts, 1):
        found, killed = run_program(program, script)
        words = [killed, first_difference(script, found, form)]
        if any(words):
            return name, script, "\n".join(filter(None, words))
    return number


def write_all(directory, scripts, form=rules.PLAIN):
    directory.mkdir(parents=True, exist_ok=True)
    for number, (name, script) in enumerate(scripts):
        stem = f"{number:04} {name}".replace(",", "").replace(" ", "-")
        (directory / f"{stem}.script").write_bytes(script)
        (directory / f"{stem}.lines").write_text(rules.text(script, form), newline="\n")


def main(arguments):
    parser = argparse.ArgumentParser(description="scripts outside the Rust's domain")
    parser.add_argument("--program", help="command that reads a script and prints lines")
    parser.add_argument("--write", type=pathlib.Path, help="directory for scripts and lines")
    parser.add_argument("--count", type=int, default=100, help="random plays (default 100)")
    parser.add_argument("--seed", type=int, default=1, help="default 1")
    form = parser.add_mutually_exclusive_group()
    for name, what in (
        (rules.TRACE, "the trace form"),
        (rules.CARRIED, "the values carried"),
        (rules.READY, "how many ticks are ready"),
    ):
        form.add_argument(
            name, dest="form", action="store_const", const=name, default=rules.PLAIN, help=f"compare {what}")
    parser.add_argument("--keep", type=pathlib.Path, help="file for the script that differs")
    options = parser.parse_args(arguments)
    if options.program is None and options.write is None:
        parser.error("one of --program and --write is needed")
    if options.write is not None:
        write_all(options.write, all_scripts(options.seed, options.count), options.form)
    if options.program is None:
        return 0
    result = compare(options.program, all_scripts(options.seed, options.count), options.form)
    if isinstance(result, int):
        print(f"seed {options.seed}: {result} scripts, no difference")
        return 0
    name, script, words = result
    print(f"seed {options.seed}, count {options.count}, script '{name}':\n{words}")
    if options.keep is not None:
        options.keep.write_bytes(script)
    return 1


if __name__ == "__main__":
    sys.exit(main(sys.argv[1:]))
