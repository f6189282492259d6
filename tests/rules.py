#!/usr/bin/env python3
"""The rules of document 01, written a second time and plainly.

The port is held against this module wherever the Rust text has no say. It
follows document 01's words and order, so that both can be read side by side:
sets, hash, parameters, messages, the numbers given back, the window, step and
commit, pump and report, the script runner.

    python3 tests/rules.py < script > lines
    python3 tests/rules.py --trace < script > lines
    python3 tests/rules.py --carried < script > lines
    python3 tests/rules.py --ready < script > lines

Every call takes a session and gives `(answer, next session)`. The session that
was passed in is never changed; a call that changes nothing gives back that
same object. `ready`, which request K1 added to the document's calls, is only a
question and gives its answer alone. A session is a plain record: a test may put
any u8 or u64 in any place and call anything on it.
"""

import struct
import sys
from typing import NamedTuple

U64_MAX = 2**64 - 1


def plus(left, right):
    """A sum that stops at 2^64-1."""
    return min(left + right, U64_MAX)


def minus(left, right):
    """A difference that stops at 0."""
    return max(left - right, 0)


# --- Sets of seats: one byte, seat k at bit k --------------------------------

SEATS = 8
NO_SEATS = 0
ALL_SEATS = 255


def of_count(count):
    return ALL_SEATS if count >= SEATS else (1 << count) - 1


def contains(seats, seat):
    return seat < SEATS and seats >> seat & 1 == 1


def with_seat(seats, seat):
    return seats | 1 << seat if seat < SEATS else seats


def without_seat(seats, seat):
    return seats & ~(1 << seat) if seat < SEATS else seats


def holds_each(seats, wanted):
    """Each wanted seat is in the set; other bits do not matter."""
    return seats & wanted == wanted


# --- State hash: FNV-1a 64, no length mixed in -------------------------------

HASH_START = 14695981039346656037
# The prime, 1,099,511,628,211, is 2^PRIME_SHIFT + PRIME_REST.
PRIME_SHIFT = 40
PRIME_REST = 435


def times_prime(value):
    """Modulo 2^64, part by part: times a power of two is a shift."""
    return ((value << PRIME_SHIFT) + PRIME_REST * value) % 2**64


def absorb(value, data):
    for byte in data:
        value = times_prime(value ^ byte)
    return value


def absorb_u32(value, number):
    return absorb(value, number.to_bytes(4, "little"))


def absorb_u64(value, number):
    return absorb(value, number.to_bytes(8, "little"))


# --- Parameters --------------------------------------------------------------

VERSION = 3
COUNTS = range(2, SEATS + 1)
WIDTHS = range(1, 17)
MAX_DELAY = 63


class Params(NamedTuple):
    """In the order of the script's open."""

    count: int
    local: int
    width: int
    delay: int
    period: int
    seed: int
    content: int
    rules: int
    session: int


def params_answer(params):
    """11 to 16, the lowest that applies; 0 when all is well."""
    if params.count not in COUNTS:
        return Answer(PEER_COUNT, "", (params.count, min(COUNTS), max(COUNTS)))
    if params.local >= params.count:
        return Answer(LOCAL_NOT_IN_ROSTER, "", (params.local, params.count))
    if params.width not in WIDTHS:
        return Answer(INPUT_BYTES, "", (params.width, max(WIDTHS)))
    if params.delay > MAX_DELAY:
        return Answer(INPUT_DELAY, "", (params.delay, WINDOW))
    if params.period == 0:
        return Answer(DIGEST_PERIOD_ZERO)
    if params.session == 0:
        return Answer(SESSION_ZERO)
    return Answer(DONE)


def params_refusal(params):
    return params_answer(params).number


def agreement(params):
    """Worked out wherever it is used, so that no record can hold a wrong one."""
    value = absorb_u32(HASH_START, VERSION)
    for number in (params.content, params.rules, params.seed):
        value = absorb_u64(value, number)
    for number in (params.count, params.width, params.delay, params.period):
        value = absorb_u32(value, number)
    return value


# --- Message records: sender, session, then the Rust record's fields ---------


class Hello(NamedTuple):
    sender: int
    session: int
    agreement: int
    content: int
    rules: int
    seed: int
    count: int
    width: int
    delay: int
    period: int


class Inputs(NamedTuple):
    """Frame i of the run belongs to tick `first + i`."""

    sender: int
    session: int
    first: int
    count: int
    width: int
    run: bytes


class Digest(NamedTuple):
    sender: int
    session: int
    tick: int
    state: int
    input: int


class Bye(NamedTuple):
    sender: int
    session: int
    tick: int


class Other(NamedTuple):
    """Chat, Join, Roster or Start: kinds 1 to 4, contents left behind."""

    sender: int
    session: int
    kind: int


# --- Numbers given back ------------------------------------------------------

DONE, ENDED = 0, 1
PEER_COUNT, LOCAL_NOT_IN_ROSTER, INPUT_BYTES = 11, 12, 13
INPUT_DELAY, DIGEST_PERIOD_ZERO, SESSION_ZERO = 14, 15, 16
BAD_STATE = 20
MALFORMED = 21
WRONG_SESSION, SENDER_NOT_SOURCE, FROM_SELF, NOT_IN_ROSTER = 22, 23, 24, 25
DISAGREEMENT = 26
OUT_OF_WINDOW, CONTRADICTION = 27, 28
WRONG_WIDTH = 29
DIGEST_CONTRADICTION = 30
NOT_SESSION_TRAFFIC = 31
SUBMIT_WRONG_WIDTH, WINDOW_FULL = 41, 42
OUT_OF_ORDER, DIGEST_MISMATCH = 51, 52
NO_DESYNC, NO_ROOM = 61, 62
NOTHING_TO_SEND = 71

# The six counters, in the order of the Rust's SessionStats.
COUNTERS = (
    "datagrams_refused",
    "frames_repeated",
    "frames_contradicted",
    "frames_out_of_window",
    "digests_contradicted",
    "stall_pumps",
)

OWN_COUNTER = {
    OUT_OF_WINDOW: "frames_out_of_window",
    CONTRADICTION: "frames_contradicted",
    DIGEST_CONTRADICTION: "digests_contradicted",
}

FRAME_COUNTS = range(1, 9)
OTHER_KINDS = range(1, 5)


class Answer(NamedTuple):
    """A number of document 01, a word where one number has several forms, and
    the values carried:

    - 0 from submit: the tick; from pump ("send"): seat and message; from
      report: the text's length; from ready: the number of ticks; from advance:
      "waiting", or "step" with tick, due and eight rows, or "stalled" with
      tick, missing seats and count
    - 1: the outcome
    - 21: the reason and what it carries
    - of any other refusal: the values of the Rust enum's variant, in its order
    """

    number: int
    word: str = ""
    values: tuple = ()


def malformed(message):
    """The lowest reason that fits the kind and applies, with what it carries;
    None when well formed."""
    reasons = [
        (1, message.sender >= SEATS, (message.sender, SEATS)),
        (2, message.session == 0, ()),
    ]
    if isinstance(message, Hello):
        reasons += [
            (3, message.count not in COUNTS, (message.count, min(COUNTS), max(COUNTS))),
            (4, message.width not in WIDTHS, (message.width, max(WIDTHS))),
            (5, message.delay > MAX_DELAY, (message.delay, WINDOW)),
            (6, message.period == 0, ()),
        ]
    elif isinstance(message, Inputs):
        declared, actual = message.count * message.width, len(message.run)
        reasons += [
            (4, message.width not in WIDTHS, (message.width, max(WIDTHS))),
            (7, message.count not in FRAME_COUNTS, (message.count, max(FRAME_COUNTS))),
            (8, actual != declared, (declared, actual)),
            (9, message.first + message.count > U64_MAX, (message.first, message.count)),
        ]
    elif isinstance(message, Other):
        reasons += [(10, message.kind not in OTHER_KINDS, (message.kind,))]
    return next(((reason, *values) for reason, broken, values in reasons if broken), None)


def malformed_reason(message):
    """The reason's number; 0 when well formed."""
    found = malformed(message)
    return found[0] if found else 0


# --- The session record ------------------------------------------------------

WINDOW = 64
FRAME_BYTES = 16
RING_BYTES = WINDOW * SEATS * FRAME_BYTES
FINGERPRINTS = 16
NO_TICK = U64_MAX

# What an outcome says; NO_OUTCOME is the absence of one.
NO_OUTCOME, DESYNCED, PEER_LEFT, LEFT_LOCALLY = 0, 1, 2, 3

# The pump's kinds carry the script's numbers.
KIND_HELLO, KIND_INPUTS, KIND_DIGEST, KIND_BYE = 3, 4, 5, 6


class Fingerprint(NamedTuple):
    present: bool = False
    tick: int = 0
    state: int = 0
    input: int = 0


class Step(NamedTuple):
    present: bool = False
    tick: int = 0
    due: bool = False


class Outcome(NamedTuple):
    why: int = NO_OUTCOME
    seat: int = 0  # means something for PEER_LEFT only
    tick: int = 0


class Session:
    """A session as `open` leaves it. Nothing is checked here, so that a test
    can also hold parameters that fail."""

    def __init__(self, params):
        self.params = params
        self.ring = bytearray(RING_BYTES)
        self.ring_ticks = [NO_TICK] * WINDOW
        self.ring_seats = [NO_SEATS] * WINDOW
        self.pending = 0
        self.next_local = 0
        self.input_digest = HASH_START
        self.own = [Fingerprint()] * FINGERPRINTS
        self.remote = [[Fingerprint()] * FINGERPRINTS for _ in range(SEATS)]
        self.owed = Fingerprint()
        self.hello_marks = with_seat(NO_SEATS, params.local)
        self.playing_marks = NO_SEATS
        self.playing = False
        self.step = Step()
        self.outcome = Outcome()
        self.counters = dict.fromkeys(COUNTERS, 0)
        self.last_stalled = NO_TICK
        self.pump_kind = KIND_HELLO
        self.pump_place = 0  # the next seat the pass looks at

    def copy(self):
        other = Session.__new__(Session)
        vars(other).update(vars(self))
        other.ring = bytearray(self.ring)
        other.ring_ticks = list(self.ring_ticks)
        other.ring_seats = list(self.ring_seats)
        other.own = list(self.own)
        other.remote = [list(cells) for cells in self.remote]
        other.counters = dict(self.counters)
        return other

    def __eq__(self, other):
        return isinstance(other, Session) and vars(self) == vars(other)

    __hash__ = None


def open_session(params):
    """`(answer, session)`, with None for the session where 11 to 16 refuses."""
    answer = params_answer(params)
    return answer, Session(params) if answer.number == DONE else None


def is_bad(session):
    return params_refusal(session.params) != DONE


def has_outcome(session):
    return session.outcome.why != NO_OUTCOME


def is_playing(session):
    """An outcome ends playing, whatever the mark says."""
    return bool(session.playing) and not has_outcome(session)


def roster(session):
    return of_count(session.params.count)


def remotes(session):
    """The seats of the roster but the local one, rising."""
    return [seat for seat in range(session.params.count) if seat != session.params.local]


def ended(session):
    return Answer(ENDED, "ended", session.outcome)


def end(session, why, seat, tick):
    """The first outcome stays."""
    if not has_outcome(session):
        session.outcome = Outcome(why, seat, tick)


def last_committed(session):
    """Pending minus one, or 0 at pending 0."""
    return minus(session.pending, 1)


def raise_counter(session, name):
    session.counters[name] = plus(session.counters[name], 1)


def refuse(session, number, *values):
    """The one place where a refused delivery raises its counters."""
    raise_counter(session, "datagrams_refused")
    if number in OWN_COUNTER:
        raise_counter(session, OWN_COUNTER[number])
    return Answer(number, "", values)


# --- The window --------------------------------------------------------------


def place_of(tick, seat):
    """Where the bytes of a tick and seat begin in the flat ring."""
    return ((tick % WINDOW) * SEATS + seat) * FRAME_BYTES


def seats_held(session, tick):
    """The cell's seat set, but only while the cell is this very tick's."""
    cell = tick % WINDOW
    return session.ring_seats[cell] if session.ring_ticks[cell] == tick else NO_SEATS


def is_held(session, tick, seat):
    return contains(seats_held(session, tick), seat)


def frame_at(session, tick, seat):
    start = place_of(tick, seat)
    return bytes(session.ring[start : start + session.params.width])


def write_frame(session, tick, seat, frame):
    cell = tick % WINDOW
    if session.ring_ticks[cell] != tick:
        session.ring_ticks[cell] = tick
        session.ring_seats[cell] = NO_SEATS
    session.ring_seats[cell] = with_seat(session.ring_seats[cell], seat)
    start = place_of(tick, seat)
    session.ring[start : start + len(frame)] = frame


def start_if_ready(session):
    """Tested after each accepted submit and Hello."""
    every_hello = holds_each(session.hello_marks, roster(session))
    if every_hello and session.next_local > session.params.delay:
        session.playing = True


def wants_local(session):
    if has_outcome(session) or is_bad(session):
        return False
    within_delay = session.next_local <= plus(session.pending, session.params.delay)
    return within_delay and minus(session.next_local, session.pending) < WINDOW


def submit(session, frame):
    if is_bad(session):
        return Answer(BAD_STATE), session
    if has_outcome(session):
        return ended(session), session
    if len(frame) != session.params.width:
        return Answer(SUBMIT_WRONG_WIDTH, "", (len(frame), session.params.width)), session
    if minus(session.next_local, session.pending) >= WINDOW:
        return Answer(WINDOW_FULL, "", (session.next_local, session.pending)), session
    after = session.copy()
    tick = after.next_local
    write_frame(after, tick, after.params.local, frame)
    after.next_local = plus(tick, 1)
    start_if_ready(after)
    return Answer(DONE, "", (tick,)), after


def has_every_frame(session, tick):
    """What advance asks of the pending tick, asked of any. Above 2^64-1 there is
    no tick: a sum that goes there is a gap, and never comes round to tick 0."""
    return tick <= U64_MAX and holds_each(seats_held(session, tick), roster(session))


def ready(session):
    """How many ticks from pending upward have every seat's frame, 0 to 64. Only
    what is held matters: not playing, nor Hello, nor an outcome. A step that is
    out has its tick still pending, and counted."""
    if is_bad(session):
        return Answer(BAD_STATE)
    full = [has_every_frame(session, session.pending + ahead) for ahead in range(WINDOW)]
    return Answer(DONE, "", (front_run(full),))


def front_run(truths):
    """How many can be taken from the front with no gap among them, said without
    stopping at the first gap: that is the answer's way, and this is its meaning."""
    return max(taken for taken in range(len(truths) + 1) if all(truths[:taken]))


# --- Deliveries --------------------------------------------------------------


def deliver(session, source, message):
    if is_bad(session):
        return Answer(BAD_STATE), session
    if has_outcome(session):
        return ended(session), session
    after = session.copy()
    return take(after, source, message), after


def take(session, source, message):
    """What deliver does to its own copy."""
    reason = malformed(message)
    if reason:
        return refuse(session, MALFORMED, *reason)
    refusal = header_refusal(session, source, message)
    if refusal:
        return refuse(session, *refusal)
    if isinstance(message, Hello):
        return take_hello(session, message)
    if isinstance(message, Inputs):
        return take_inputs(session, message)
    if isinstance(message, Digest):
        return take_digest(session, message)
    if isinstance(message, Bye):
        return take_bye(session, message)
    return refuse(session, NOT_SESSION_TRAFFIC, message.kind)


def header_refusal(session, source, message):
    """22 to 25, the lowest that applies, with what it carries; None when all is
    well."""
    if message.session != session.params.session:
        return WRONG_SESSION, message.session
    if message.sender != source:
        return SENDER_NOT_SOURCE, message.sender, source
    if message.sender == session.params.local:
        return (FROM_SELF,)
    if message.sender >= session.params.count:
        return NOT_IN_ROSTER, message.sender
    return None


def take_hello(session, message):
    """The number decides alone; the other fields only explain it."""
    ours = agreement(session.params)
    if message.agreement != ours:
        return refuse(session, DISAGREEMENT, message.agreement, ours)
    session.hello_marks = with_seat(session.hello_marks, message.sender)
    start_if_ready(session)
    return Answer(DONE)


def take_inputs(session, message):
    # Before 27 to 30, so that a refused message marks its sender too.
    session.playing_marks = with_seat(session.playing_marks, message.sender)
    if message.width != session.params.width:
        return refuse(session, WRONG_WIDTH, message.width, session.params.width)
    note, written = None, False
    for index in range(message.count):
        tick = message.first + index
        frame = message.run[index * message.width : (index + 1) * message.width]
        noted, wrote = take_frame(session, message.sender, tick, frame)
        note = noted or note
        written = written or wrote
    if note is None:
        return Answer(DONE)
    # Only the last note counts, and once; but it does count beside a write.
    refusal = refuse(session, *note)
    return Answer(DONE) if written else refusal


def take_frame(session, seat, tick, frame):
    """`(note, written)` for one frame; a note is a refusal's number and what it
    carries, or None."""
    if tick < session.pending:
        return None, False
    if tick - session.pending >= WINDOW:
        return (OUT_OF_WINDOW, tick, session.pending), False
    if is_held(session, tick, seat):
        if frame_at(session, tick, seat) != frame:
            return (CONTRADICTION, seat, tick), False
        raise_counter(session, "frames_repeated")
        return None, False
    write_frame(session, tick, seat, frame)
    return None, True


def take_digest(session, message):
    session.playing_marks = with_seat(session.playing_marks, message.sender)
    cells = session.remote[message.sender]
    new = Fingerprint(True, message.tick, message.state, message.input)
    held = held_fingerprint(cells, message.tick)
    if held.present:
        if (held.state, held.input) != (new.state, new.input):
            return refuse(session, DIGEST_CONTRADICTION, message.sender, message.tick)
        return Answer(DONE)  # an equal repeat is not judged again
    cells[message.tick % FINGERPRINTS] = new
    judge(session, message.tick)
    return ended(session) if has_outcome(session) else Answer(DONE)


def take_bye(session, message):
    end(session, PEER_LEFT, message.sender, message.tick)
    return ended(session)


# --- Step and commit ---------------------------------------------------------


def advance(session):
    if is_bad(session):
        return Answer(BAD_STATE), session
    if session.step.present:
        return Answer(DONE, "waiting"), session
    if session.outcome.why == DESYNCED:
        return ended(session), session
    if not has_outcome(session) and not is_playing(session):
        return Answer(DONE, "waiting"), session
    held = seats_held(session, session.pending)
    if holds_each(held, roster(session)):
        return take_step(session.copy())
    if has_outcome(session):
        return ended(session), session
    return stall(session.copy(), roster(session) & ~held)


def take_step(session):
    tick = session.pending
    frames = [frame_at(session, tick, seat) for seat in range(session.params.count)]
    session.input_digest = absorb_u64(session.input_digest, tick)
    for frame in frames:
        session.input_digest = absorb(session.input_digest, frame)
    due = tick % session.params.period == 0
    session.step = Step(True, tick, due)
    session.last_stalled = NO_TICK
    # Eight rows of sixteen, zero beyond width and roster.
    frames += [b""] * (SEATS - len(frames))
    rows = tuple(frame.ljust(FRAME_BYTES, b"\0") for frame in frames)
    return Answer(DONE, "step", (tick, due, rows)), session


def stall(session, missing):
    tick = session.pending
    if session.last_stalled != tick:
        session.last_stalled = tick
        session.counters["stall_pumps"] = 0
    raise_counter(session, "stall_pumps")
    return Answer(DONE, "stalled", (tick, missing, session.counters["stall_pumps"])), session


def commit(session, tick, digest):
    """`digest` is None where none is given."""
    if is_bad(session):
        return Answer(BAD_STATE), session
    step = session.step
    if not step.present:
        return Answer(OUT_OF_ORDER, "", (tick, session.pending)), session
    if step.tick != tick:
        return Answer(OUT_OF_ORDER, "", (tick, step.tick)), session
    if bool(step.due) != (digest is not None):
        return Answer(DIGEST_MISMATCH, "", (tick, bool(step.due))), session
    after = session.copy()
    after.step = Step()
    after.pending = plus(after.pending, 1)
    if digest is not None:
        after.owed = Fingerprint(True, tick, digest, after.input_digest)
        after.own[tick % FINGERPRINTS] = after.owed
        judge(after, tick)
    return Answer(DONE), after


def held_fingerprint(cells, tick):
    """The tick's cell while it is this very tick's, else an absent one."""
    cell = cells[tick % FINGERPRINTS]
    return cell if cell.present and cell.tick == tick else Fingerprint()


def denied(session, tick, state):
    """Whether a remote's digest for that very tick has another state value."""
    for seat in remotes(session):
        theirs = held_fingerprint(session.remote[seat], tick)
        if theirs.present and theirs.state != state:
            return True
    return False


def judge(session, tick):
    own = held_fingerprint(session.own, tick)
    if own.present and denied(session, tick, own.state):
        end(session, DESYNCED, 0, tick)


def leave(session):
    if is_bad(session):
        return Answer(BAD_STATE), session
    if has_outcome(session):
        return ended(session), session
    after = session.copy()
    end(after, LEFT_LOCALLY, 0, last_committed(after))
    after.pump_kind, after.pump_place = KIND_BYE, 0
    return ended(after), after


# --- Pump and report ---------------------------------------------------------

RUN_FRAMES = 8


def pump(session):
    if is_bad(session):
        return Answer(BAD_STATE), session
    after = session.copy()
    while True:
        seat = next_remote(after)
        if seat is not None:
            after.pump_place = seat + 1
            message = outgoing(after)
            if message is not None:
                return Answer(DONE, "send", (seat, message)), after
            continue
        after.pump_place = 0
        kind = next_kind(after)
        if kind is None:
            after.pump_kind = first_kind(after)
            return Answer(NOTHING_TO_SEND), after
        after.pump_kind = kind


def next_remote(session):
    return next((seat for seat in remotes(session) if seat >= session.pump_place), None)


def first_kind(session):
    """Chosen when the pass before ends, and kept whatever happens until then."""
    if has_outcome(session):
        return KIND_BYE
    if not is_playing(session):
        return KIND_HELLO
    every_mark = all(contains(session.playing_marks, seat) for seat in remotes(session))
    return KIND_INPUTS if every_mark else KIND_HELLO


def next_kind(session):
    """Chosen by the call that finds no remote left; None ends the pass."""
    if session.pump_kind == KIND_HELLO and is_playing(session):
        return KIND_INPUTS
    if session.pump_kind == KIND_INPUTS and session.owed.present:
        return KIND_DIGEST
    return None


def outgoing(session):
    """The message of the pump's kind, or None where it has nothing to carry."""
    params = session.params
    header = (params.local, params.session)
    if session.pump_kind == KIND_HELLO:
        return Hello(
            *header,
            agreement(params),
            params.content,
            params.rules,
            params.seed,
            params.count,
            params.width,
            params.delay,
            params.period,
        )
    if session.pump_kind == KIND_INPUTS:
        return outgoing_inputs(session, header)
    if session.pump_kind == KIND_DIGEST and session.owed.present:
        return Digest(*header, session.owed.tick, session.owed.state, session.owed.input)
    if session.pump_kind == KIND_BYE:
        return Bye(*header, last_committed(session))
    return None


def outgoing_inputs(session, header):
    """The newest local frame and up to seven before it, down to the first that
    a remote's frame 64 ticks ahead has pushed out."""
    local, width = session.params.local, session.params.width
    first = session.next_local
    while session.next_local - first < RUN_FRAMES:
        if first == 0 or not is_held(session, first - 1, local):
            break
        first -= 1
    count = session.next_local - first
    if count == 0:
        return None
    run = b"".join(frame_at(session, first + index, local) for index in range(count))
    return Inputs(*header, first, count, width, run)


TEXT_MAX = 2048


def report(session, lent):
    """Writes the text to the front of the lent bytearray. Bytes past the text
    keep their values, and so do all of them where the text has no room."""
    if is_bad(session):
        return Answer(BAD_STATE), session
    if session.outcome.why != DESYNCED:
        return Answer(NO_DESYNC), session
    text = report_text(session).encode("ascii")
    if len(lent) < len(text):
        return Answer(NO_ROOM), session
    lent[: len(text)] = text
    return Answer(DONE, "", (len(text),)), session


def last_agreed(session, tick):
    """The highest own tick below `tick` that no held remote digest denies, or
    None. Silence counts as agreement."""
    own_below = [own for own in session.own if own.present and own.tick < tick]
    agreed = [own.tick for own in own_below if not denied(session, own.tick, own.state)]
    return max(agreed, default=None)


def report_text(session):
    params, tick = session.params, session.outcome.tick
    # The local cell is taken as it stands, remote ones only for the tick.
    own = session.own[tick % FINGERPRINTS]
    if not own.present:
        own = Fingerprint()
    theirs = [Fingerprint()] * SEATS
    for seat in remotes(session):
        theirs[seat] = held_fingerprint(session.remote[seat], tick)
    reported = [seat for seat in range(SEATS) if theirs[seat].present]

    inputs_agree = all(theirs[seat].input == own.input for seat in reported)
    dissenters = [seat for seat in reported if theirs[seat].state != own.state]
    agreed = last_agreed(session, tick)
    peers = [json_peer(seat, theirs[seat]) for seat in range(params.count)]
    stats = [f'"{name}":{session.counters[name]}' for name in COUNTERS]
    members = [
        '"schema_version":1',
        f'"tick":{tick}',
        f'"local":{params.local}',
        f'"peer_count":{params.count}',
        f'"inputs_agree":{json_truth(inputs_agree)}',
        f'"witnessed":{json_truth(reported)}',
        f'"local_state_digest":{json_hex(own.state)}',
        f'"local_input_digest":{json_hex(own.input)}',
        f'"last_agreed_tick":{"null" if agreed is None else agreed}',
        f'"dissenters":[{",".join(map(str, dissenters))}]',
        f'"peers":[{",".join(peers)}]',
        f'"agreement_digest":{json_hex(agreement(params))}',
        f'"content":{json_hex(params.content)}',
        f'"rules":{json_hex(params.rules)}',
        f'"seed":{params.seed}',
        f'"stats":{{{",".join(stats)}}}',
    ]
    return "{" + ",".join(members) + "}"


def json_truth(value):
    return "true" if value else "false"


def json_hex(number):
    return f'"0x{number:016x}"'


def json_peer(seat, theirs):
    state = json_hex(theirs.state) if theirs.present else "null"
    inputs = json_hex(theirs.input) if theirs.present else "null"
    return f'{{"seat":{seat},"state_digest":{state},"input_digest":{inputs}}}'


# --- The script runner `circle` ----------------------------------------------

OPEN, SUBMIT, HELLO, INPUTS, DIGEST, BYE, OTHER = 1, 2, 3, 4, 5, 6, 7
ADVANCE, COMMIT, LEAVE, PUMP, REPORT = 8, 9, 10, 11, 12

RECORD_HEADER = struct.Struct("<HH")
OPEN_LAYOUT = struct.Struct("<5B4Q")
HELLO_LAYOUT = struct.Struct("<BBQ4Q4B")
INPUTS_LAYOUT = struct.Struct("<BBQQBB")  # the run follows
DIGEST_LAYOUT = struct.Struct("<BBQ3Q")
BYE_LAYOUT = struct.Struct("<BBQQ")
OTHER_LAYOUT = struct.Struct("<BBQB")
COMMIT_LAYOUT = struct.Struct("<QBQ")

MAX_RUN = max(FRAME_COUNTS) * max(WIDTHS)
ANY_LENGTH = range(0, 2**16)


def exactly(length):
    return range(length, length + 1)


LENGTHS = {
    OPEN: exactly(OPEN_LAYOUT.size),
    SUBMIT: ANY_LENGTH,
    HELLO: exactly(HELLO_LAYOUT.size),
    INPUTS: range(INPUTS_LAYOUT.size, INPUTS_LAYOUT.size + MAX_RUN + 1),
    DIGEST: exactly(DIGEST_LAYOUT.size),
    BYE: exactly(BYE_LAYOUT.size),
    OTHER: exactly(OTHER_LAYOUT.size),
    ADVANCE: exactly(0),
    COMMIT: exactly(COMMIT_LAYOUT.size),
    LEAVE: exactly(0),
    PUMP: exactly(0),
    REPORT: exactly(0),
}


def records(script):
    """Each record as `(kind, payload)`; `(None, rest)` for one cut by the end."""
    at = 0
    while at < len(script):
        payload_at = at + RECORD_HEADER.size
        if payload_at > len(script):
            yield None, script[at:]
            return
        length, kind = RECORD_HEADER.unpack_from(script, at)
        if payload_at + length > len(script):
            yield None, script[at:]
            return
        at = payload_at + length
        yield kind, script[payload_at:at]


def read_message(kind, payload):
    """`(source, message)` of a well-formed script record."""
    if kind == HELLO:
        source, *fields = HELLO_LAYOUT.unpack(payload)
        return source, Hello(*fields)
    if kind == INPUTS:
        source, *fields = INPUTS_LAYOUT.unpack_from(payload)
        return source, Inputs(*fields, payload[INPUTS_LAYOUT.size :])
    if kind == DIGEST:
        source, *fields = DIGEST_LAYOUT.unpack(payload)
        return source, Digest(*fields)
    if kind == BYE:
        source, *fields = BYE_LAYOUT.unpack(payload)
        return source, Bye(*fields)
    source, *fields = OTHER_LAYOUT.unpack(payload)
    return source, Other(*fields)


class Circle:
    """The runner between two records: a session, once a good open made one."""

    def __init__(self):
        self.session = None
        self.sent = None  # the message of the last record, if that sent one

    def line(self, kind, payload):
        """Runs one record and gives its line."""
        self.sent = None
        if kind is None:
            return "cut"
        if kind not in LENGTHS or len(payload) not in LENGTHS[kind]:
            return "bad"
        if kind == OPEN:
            return self.open(payload)
        if self.session is None:
            return "none"
        if kind == SUBMIT:
            return self.submit(payload)
        if kind in (HELLO, INPUTS, DIGEST, BYE, OTHER):
            return self.deliver(kind, payload)
        if kind == ADVANCE:
            return self.advance()
        if kind == COMMIT:
            return self.commit(payload)
        if kind == LEAVE:
            return self.leave()
        if kind == PUMP:
            return self.pump()
        return self.report()

    def open(self, payload):
        answer, session = open_session(Params(*OPEN_LAYOUT.unpack(payload)))
        if session is not None:
            self.session = session
        return f"open {answer.number}"

    def submit(self, payload):
        answer, self.session = submit(self.session, payload)
        if answer.number == DONE:
            return f"submit {DONE} {answer.values[0]}"
        return f"submit {answer.number}"

    def deliver(self, kind, payload):
        answer, self.session = deliver(self.session, *read_message(kind, payload))
        return f"deliver {answer.number}"

    def advance(self):
        answer, self.session = advance(self.session)
        if answer.word == "waiting":
            return "waiting"
        if answer.word == "stalled":
            tick, missing, count = answer.values
            return f"stalled {tick} {missing} {count}"
        if answer.word == "step":
            tick, due, rows = answer.values
            shown = [row[: self.session.params.width].hex() for row in rows]
            frames = " ".join(shown[: self.session.params.count])
            return f"step {tick} {int(due)} {frames}"
        return "ended " + outcome_fields(answer.values)

    def commit(self, payload):
        tick, flag, digest = COMMIT_LAYOUT.unpack(payload)
        answer, self.session = commit(self.session, tick, digest if flag else None)
        return f"commit {answer.number}"

    def leave(self):
        answer, self.session = leave(self.session)
        return "ended " + outcome_fields(answer.values)

    def pump(self):
        answer, self.session = pump(self.session)
        if answer.number != DONE:
            return f"send {answer.number}"
        seat, self.sent = answer.values
        return f"send {seat} {send_fields(self.sent)}"

    def report(self):
        lent = bytearray(TEXT_MAX)
        answer, self.session = report(self.session, lent)
        if answer.number != DONE:
            return f"report {answer.number}"
        return lent[: answer.values[0]].decode("ascii")

    def trace(self):
        """The lines that the trace form adds after a record's own."""
        if self.session is None:
            return []
        lines = [] if self.sent is None else ["> " + message_fields(self.sent)]
        return lines + ["= " + session_fields(self.session)]

    def ready(self):
        """The line that the ready form adds after a record's own."""
        return ready_line(None if self.session is None else ready(self.session))


# What a lent buffer holds before a report. A report is ASCII, so each byte that
# it writes is another.
UNTOUCHED = 0xAA


class Carried(Circle):
    """The same calls. A line is the call, the number and every value that the
    answer carries."""

    def open(self, payload):
        answer, session = open_session(Params(*OPEN_LAYOUT.unpack(payload)))
        if session is not None:
            self.session = session
        return call_fields("open", answer)

    def submit(self, payload):
        answer, self.session = submit(self.session, payload)
        return call_fields("submit", answer)

    def deliver(self, kind, payload):
        answer, self.session = deliver(self.session, *read_message(kind, payload))
        return call_fields("deliver", answer)

    def advance(self):
        answer, self.session = advance(self.session)
        if answer.number != DONE:
            return call_fields("advance", answer)
        values = answer.values
        if answer.word == "step":
            # The rows stand beside the step; it says how much of them means something.
            values = (*values[:2], self.session.params.count, self.session.params.width)
        return " ".join(["advance", str(DONE), answer.word, *value_fields(values)])

    def commit(self, payload):
        tick, flag, digest = COMMIT_LAYOUT.unpack(payload)
        answer, self.session = commit(self.session, tick, digest if flag else None)
        return call_fields("commit", answer)

    def leave(self):
        answer, self.session = leave(self.session)
        return call_fields("leave", answer)

    def pump(self):
        answer, self.session = pump(self.session)
        if answer.number != DONE:
            return call_fields("pump", answer)
        seat, message = answer.values
        kind = KIND_OF[type(message)]
        # An Inputs' run stands beside the message.
        numbers = [field for field in message if not isinstance(field, bytes)]
        return call_fields("pump", Answer(DONE, "", (seat, kind, *numbers)))

    def report(self):
        """In the largest buffer, in one that is a byte too short for the text and
        in one that just holds it."""
        large, length = self.report_in(TEXT_MAX)
        short, _ = self.report_in(minus(length, 1))
        exact, _ = self.report_in(length)
        return " ".join(["report", *large, *short, *exact])

    def report_in(self, room):
        """Number, length where it was written and how many bytes changed; and that
        length, 0 where nothing was written."""
        lent = bytearray([UNTOUCHED]) * room
        answer, self.session = report(self.session, lent)
        changed = sum(byte != UNTOUCHED for byte in lent)
        fields = value_fields((answer.number, *answer.values, changed))
        return fields, sum(answer.values)


KIND_OF = {Hello: HELLO, Inputs: INPUTS, Digest: DIGEST, Bye: BYE}


def call_fields(name, answer):
    if answer.number == ENDED:
        return f"{name} {ENDED} {outcome_fields(answer.values)}"
    return " ".join([name, *value_fields((answer.number, *answer.values))])


def value_fields(values):
    """Whole numbers; a truth value is 0 or 1."""
    return [str(int(value)) for value in values]


def outcome_fields(outcome):
    seat = outcome.seat if outcome.why == PEER_LEFT else "-"
    return f"{outcome.why} {seat} {outcome.tick}"


def send_fields(message):
    """Kind, tick and count, 0 where the message has none."""
    if isinstance(message, Hello):
        return f"{HELLO} 0 0"
    if isinstance(message, Inputs):
        return f"{INPUTS} {message.first} {message.count}"
    if isinstance(message, Digest):
        return f"{DIGEST} {message.tick} 0"
    return f"{BYE} {message.tick} 0"


def message_fields(message):
    fields = (field.hex() if isinstance(field, bytes) else str(field) for field in message)
    return " ".join(fields)


def session_fields(session):
    numbers = [session.counters[name] for name in COUNTERS]
    numbers += [session.pending, session.next_local]
    numbers += [int(is_playing(session)), int(wants_local(session))]
    numbers += [session.input_digest]
    outcome = outcome_fields(session.outcome) if has_outcome(session) else "0 - 0"
    return " ".join(map(str, numbers)) + " " + outcome


def ready_line(answer):
    """The word none, where there is no session to ask or its record is bad."""
    if answer is None or answer.number == BAD_STATE:
        return "ready none"
    return f"ready {answer.values[0]}"


PLAIN, TRACE, CARRIED, READY = "", "--trace", "--carried", "--ready"


def run(script, form=PLAIN):
    """For each record of the script, `(kind, payload, lines)`."""
    circle = Carried() if form == CARRIED else Circle()
    for kind, payload in records(script):
        lines = [circle.line(kind, payload)]
        if form == TRACE:
            lines += circle.trace()
        if form == READY:
            lines += [circle.ready()]
        yield kind, payload, lines


def text(script, form=PLAIN):
    """The whole output for a script."""
    return "".join(line + "\n" for _, _, lines in run(script, form) for line in lines)


def main(arguments):
    form = " ".join(arguments)
    if form not in (PLAIN, TRACE, CARRIED, READY):
        sys.stderr.write("usage: rules.py [--trace | --carried | --ready] < script > lines\n")
        return 2
    script = sys.stdin.buffer.read()
    for _, _, lines in run(script, form):
        sys.stdout.write("".join(line + "\n" for line in lines))
    return 0


if __name__ == "__main__":
    sys.exit(main(sys.argv[1:]))
