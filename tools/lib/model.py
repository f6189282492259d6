"""A session, as far as making scripts needs one.

It knows what a seat would send and where its limits stand; counters and
reports are left out. Nothing rests on it: a script is right whatever the model
thinks, for the oracle says what the lines must be.
"""

from collections import namedtuple

from lib.records import FNV_START, absorb, agreement

TOP = 2**64 - 1
SEATS, WINDOW, HISTORY, REDUNDANCY, WIDEST = 8, 64, 16, 8, 16

Params = namedtuple("Params", "count local width delay period seed content rules session")

# Messages: the fields of their script records without the source.
Hello = namedtuple("Hello", "sender session agreement content rules seed count width delay period")
Inputs = namedtuple("Inputs", "sender session first count width run")
Digest = namedtuple("Digest", "sender session tick state input")
Bye = namedtuple("Bye", "sender session tick")
Other = namedtuple("Other", "sender session which")

Fingerprint = namedtuple("Fingerprint", "tick state input")

DESYNCED, PEER_LEFT, LEFT_LOCALLY = "desynced", "peer left", "left locally"


class Session:
    def __init__(self, params):
        p = self.p = params
        self.agreement = agreement(p.content, p.rules, p.seed, p.count, p.width, p.delay, p.period)
        self.remotes = [seat for seat in range(p.count) if seat != p.local]
        self.cells = [(TOP, {})] * WINDOW  # a tick and the frames held for it, by seat
        self.pending = 0
        self.next_local = 0
        self.started = False
        self.hash = FNV_START
        self.own = {}             # the last own Fingerprint of each cell
        self.theirs = {}          # .. and each remote's, by (seat, cell)
        self.owed = None
        self.hellos = {p.local}
        self.seen_playing = set()
        self.outstanding = None   # (tick, due) of the step that is not committed
        self.outcome = None
        self.passing = Hello      # the kind that the pass is at,
        self.passed = 0           # .. and the first seat it has not served

    def wants_local(self):
        return not self.outcome and self.next_local <= self.pending + self.p.delay

    def held(self, tick):
        """The frames held for a tick, by seat."""
        at, frames = self.cells[tick % WINDOW]
        return frames if at == tick else {}

    # --- submit and deliver

    def submit(self, data):
        """Whether it was accepted."""
        if self.outcome or len(data) != self.p.width or self.next_local - self.pending >= WINDOW:
            return False
        self._write(self.p.local, self.next_local, data)
        self.next_local += 1
        self._start()
        return True

    def _write(self, seat, tick, data):
        self.cells[tick % WINDOW] = (tick, {**self.held(tick), seat: data})

    def _start(self):
        if len(self.hellos) == self.p.count and self.next_local > self.p.delay:
            self.started = True

    def deliver(self, source, m):
        if self.outcome or m.session != self.p.session or m.sender != source or source not in self.remotes:
            return
        if isinstance(m, Bye):
            self.outcome = PEER_LEFT
        elif isinstance(m, Hello) and m.agreement == self.agreement:
            self.hellos.add(source)
            self._start()
        elif isinstance(m, Inputs):
            self.seen_playing.add(source)
            self._absorb_inputs(m)
        elif isinstance(m, Digest):
            self.seen_playing.add(source)
            self._absorb_digest(m)

    def _absorb_inputs(self, m):
        for tick in range(m.first, m.first + m.count if m.width == self.p.width else m.first):
            if self.pending <= tick < self.pending + WINDOW and m.sender not in self.held(tick):
                at = (tick - m.first) * m.width
                self._write(m.sender, tick, m.run[at:at + m.width])

    def _absorb_digest(self, m):
        place = (m.sender, m.tick % HISTORY)
        if place not in self.theirs or self.theirs[place].tick != m.tick:
            self.theirs[place] = Fingerprint(m.tick, m.state, m.input)
            self._judge(m.tick)

    def _judge(self, tick):
        own = self.own.get(tick % HISTORY)
        for seat in self.remotes:
            their = self.theirs.get((seat, tick % HISTORY))
            if own and their and own.tick == their.tick == tick and own.state != their.state:
                self.outcome = self.outcome or DESYNCED

    # --- advance, commit, leave

    def advance(self):
        """The frames of a step by seat, or None."""
        frames = self.held(self.pending)
        ready = self.started if not self.outcome else self.outcome != DESYNCED
        if self.outstanding or not ready or len(frames) < self.p.count:
            return None
        data = [frames[seat] for seat in range(self.p.count)]
        self.hash = absorb(self.hash, self.pending.to_bytes(8, "little") + b"".join(data))
        self.outstanding = (self.pending, self.pending % self.p.period == 0)
        return data

    def commit(self, tick, digest):
        """digest None: none is given."""
        if self.outstanding != (tick, digest is not None):
            return
        self.outstanding = None
        self.pending += 1
        if digest is not None:
            self.owed = self.own[tick % HISTORY] = Fingerprint(tick, digest, self.hash)
            self._judge(tick)

    def leave(self):
        if not self.outcome:
            self.outcome = LEFT_LOCALLY
            self.passing, self.passed = Bye, 0

    # --- pump

    def pump(self):
        """(peer, message), or None at the end of a pass."""
        while self.passing:
            peer = next((seat for seat in self.remotes if seat >= self.passed), None)
            if peer is None:
                self.passing, self.passed = self._next_kind(), 0
                continue
            self.passed = peer + 1
            message = self._message()
            if message:
                return peer, message
        self.passing, self.passed = self._first_kind(), 0
        return None

    def _first_kind(self):
        if self.outcome:
            return Bye
        return Inputs if self.started and len(self.seen_playing) == len(self.remotes) else Hello

    def _next_kind(self):
        if self.passing is Hello and self.started and not self.outcome:
            return Inputs
        return Digest if self.passing is Inputs and self.owed else None

    def _message(self):
        p = self.p
        if self.passing is Hello:
            return Hello(p.local, p.session, self.agreement, p.content, p.rules, p.seed, p.count, p.width, p.delay,
                         p.period)
        if self.passing is Bye:
            return Bye(p.local, p.session, max(self.pending - 1, 0))
        if self.passing is Digest:
            return Digest(p.local, p.session, *self.owed)
        first, frames = self.next_local, []
        while len(frames) < REDUNDANCY and p.local in self.held(first - 1):
            first -= 1
            frames.insert(0, self.held(first)[p.local])
        return Inputs(p.local, p.session, first, len(frames), p.width, b"".join(frames)) if frames else None
