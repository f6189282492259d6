"""Scripts of the second sort: calls near every limit of one session.

Each script draws its own mix of the habits below, so that some scripts dwell
on what others never do. All messages pass the malformed checks and all seats
are below 8: the oracle can answer every record.
"""

from lib.dice import Dice
from lib.model import HISTORY, REDUNDANCY, SEATS, TOP, WIDEST, WINDOW, Bye, Digest, Hello, Inputs, Other, Params
from lib.recorder import Recorder
from lib.records import frame, pack

DELAYS = [0, 0, 1, 3, 8, 62, 63]
PERIODS = [1, 1, 2, 3, 8, 16, 17, 32, 255, 255]
NEAR = [-65, -64, -17, -16, -8, -7, -2, -1, 0, 0, 0, 1, 2, 7, 8, 15, 16, 48, 55, 56, 57, 62, 63, 64, 65, 127, 128]

# How often each habit comes up, before a script's own mix.
HABITS = {
    "greet": 6, "press": 12, "fill": 1, "press_wrongly": 3, "send_frames": 14, "contradict": 6, "run": 12,
    "run_far": 1, "advance": 6, "commit_wrongly": 5, "send_digest": 8, "lie": 5, "repeat": 5, "spoil_header": 6,
    "disagree": 2, "send_other": 2, "go_ahead": 4, "send_pass": 6, "pump": 5, "report": 1, "open_wrongly": 2,
    "break_record": 1, "fork": 4, "fork_late": 2, "say_bye": 2, "leave": 1,
}
ENDS = {"fork", "fork_late", "say_bye", "leave"}
MOST_RECORDS = 1500
# How a script may begin; without one it comes to play by its habits.
OPENINGS = {"go_on": 5, "join_slowly": 2, "play_unseen": 2, "end_early": 1}


class Limits:
    def __init__(self, dice):
        self.dice = dice
        count = dice.between(2, 8)
        period = dice.pick(PERIODS) if dice.chance(85) else dice.between(1, 255)
        words = [dice.word() if dice.chance(70) else dice.pick([0, 1, TOP]) for _ in range(3)]
        self.p = Params(count, dice.below(count), dice.between(1, WIDEST), dice.pick(DELAYS), period, *words,
                        dice.pick([1, 9, TOP, dice.word() or 1]))
        self.salt = dice.word()
        self.calls = Recorder(self.p)
        self.s = self.calls.session
        self.delivered = []

    # --- what is true in this circle

    def bytes_of(self, seat, tick):
        """The bytes that a seat presses for a tick."""
        dice = Dice(self.salt, seat, tick)
        return (dice.word() << 64 | dice.word()).to_bytes(16, "little")[:self.p.width]

    def world(self, tick):
        """The digest that all worlds agree on after a tick."""
        return Dice(self.salt, tick).word()

    def remote(self):
        return self.dice.pick(self.s.remotes)

    def near(self):
        """A tick near a limit of the window, or of the numbers."""
        if self.dice.chance(8):
            return TOP - self.dice.below(10)
        return min(max(self.s.pending + self.dice.pick(NEAR), 0), TOP)

    # --- messages

    def deliver(self, source, message):
        self.delivered.append((source, message))
        self.calls.deliver(source, message)

    def hello(self, seat):
        p = self.p
        return Hello(seat, p.session, self.s.agreement, p.content, p.rules, p.seed, p.count, p.width, p.delay, p.period)

    def inputs(self, seat, first, count):
        run = b"".join(self.bytes_of(seat, first + i) for i in range(count))
        return Inputs(seat, self.p.session, first, count, self.p.width, run)

    def digest(self, seat, tick, dissent=0):
        own = self.s.own.get(tick % HISTORY)
        same = own and own.tick == tick and self.dice.chance(60)
        return Digest(seat, self.p.session, tick, self.world(tick) ^ dissent, own.input if same else self.dice.word())

    def some_message(self, seat):
        """A message of any kind that this seat could have sent."""
        tick = self.near()
        return self.dice.pick([
            self.hello(seat),
            self.inputs(seat, min(tick, TOP - REDUNDANCY), self.dice.between(1, REDUNDANCY)),
            self.digest(seat, tick),
            Bye(seat, self.p.session, tick),
            Other(seat, self.p.session, self.dice.between(1, 4)),
        ])

    # --- habits: good ones

    def greet(self):
        silent = [seat for seat in self.s.remotes if seat not in self.s.hellos]
        for seat in silent if self.dice.chance(50) else [self.remote()]:
            self.deliver(seat, self.hello(seat))

    def press(self):
        for _ in range(self.dice.pick([1, 1, 3, 9])):
            self.calls.submit(self.bytes_of(self.p.local, self.s.next_local))

    def fill(self):
        """Presses until the window is full, and once or twice more."""
        while self.calls.submit(self.bytes_of(self.p.local, self.s.next_local)):
            pass
        if self.dice.chance(50):
            self.press_wrongly()

    def run(self, ticks=None):
        """Makes the next ticks whole and runs them."""
        for _ in range(ticks or self.dice.between(1, 12)):
            if not self.s.outstanding:
                self.complete()
                if not self.calls.advance():
                    return
            if ticks is None and self.dice.chance(10):
                return
            tick, due = self.s.outstanding
            self.calls.commit(tick, self.world(tick) if due else None, flag=self.dice.pick([1, 1, 1, 2, 255]))

    def complete(self):
        tick = self.s.pending
        while not self.s.outcome and self.s.next_local <= max(tick, self.p.delay):
            self.calls.submit(self.bytes_of(self.p.local, self.s.next_local))
        for seat in self.s.remotes:
            if not self.s.started and seat not in self.s.hellos:
                self.deliver(seat, self.hello(seat))
            if seat not in self.s.held(tick):
                self.deliver(seat, self.inputs(seat, tick, self.dice.between(1, REDUNDANCY)))

    def run_far(self):
        """Far enough for the rings to come round, or for the next digest."""
        ticks = self.dice.pick([20, 40, 70])
        if self.p.period > 16 and self.dice.chance(80):
            ticks = self.p.period - self.s.pending % self.p.period + 2
        self.run(ticks)

    def advance(self):
        for _ in range(self.dice.pick([1, 1, 2, 4])):
            self.calls.advance()

    def send_pass(self):
        while self.calls.pump():
            if self.dice.chance(3):
                return

    def pump(self):
        for _ in range(self.dice.pick([1, 1, 2, 3, 8])):
            self.calls.pump()

    def report(self):
        self.calls.report()

    # --- openings

    def go_on(self):
        pass

    def join_slowly(self):
        """Before each Hello, what must not be taken for one."""
        while self.s.next_local <= self.p.delay:
            self.press()
        for seat in self.dice.shuffled(self.s.remotes):
            if self.dice.chance(60):
                self.disagree(seat)
            if self.dice.chance(50):
                self.deliver(seat, self.inputs(seat, 0, 1))
            if self.dice.chance(30):
                self.pump()
            if self.dice.chance(70):  # play would begin here
                self.press()
            self.advance()
            self.deliver(seat, self.hello(seat))

    def play_unseen(self):
        """Plays before anyone was seen playing. Then each remote, but now and
        then one, shows itself by something that is a sign of play or is not."""
        for seat in self.s.remotes:
            self.deliver(seat, self.hello(seat))
        while not self.s.started:
            self.press()
        width = 1 + self.p.width % WIDEST
        for seat in self.dice.shuffled(self.s.remotes)[self.dice.below(2):]:
            self.deliver(seat, self.dice.pick([
                self.inputs(seat, WINDOW, 1),
                self.inputs(seat, 0, 1)._replace(width=width, run=bytes(width)),
                self.digest(seat, 0),
                Other(seat, self.p.session, 1),
                self.hello(seat),
            ]))
        for _ in range(3):
            self.send_pass()

    def end_early(self):
        """Ends before it played, with a tick that is whole already."""
        self.press()
        for seat in self.s.remotes:
            self.deliver(seat, self.inputs(seat, 0, self.dice.between(1, REDUNDANCY)))
        self.advance()
        self.dice.pick([self.calls.leave, self.say_bye])()
        self.run(2)

    # --- habits: at the limits

    def send_frames(self):
        """Inputs around a limit: true, or with a frame or two that differ, or
        of another width."""
        dice, seat = self.dice, self.remote()
        count = dice.pick([1, 1, 2, 8, dice.between(1, REDUNDANCY)])
        message = self.inputs(seat, min(self.near(), TOP - count), count)
        if dice.chance(30):
            run = bytearray(message.run)
            for _ in range(dice.pick([1, 1, 2])):
                run[dice.pick([0, len(run) - 1, dice.below(len(run))])] ^= 1 << dice.below(8)
            message = message._replace(run=bytes(run))
        if dice.chance(10):
            width = dice.pick([w for w in (1, WIDEST, self.p.width - 1, self.p.width + 1)
                               if 1 <= w <= WIDEST and w != self.p.width])
            message = message._replace(width=width, run=dice.bytes(width * count))
        self.deliver(seat, message)

    def contradict(self):
        """Other bytes for a frame that is held, with its neighbours around."""
        held = [(seat, tick) for tick, frames in self.s.cells for seat in frames
                if seat != self.p.local and tick >= self.s.pending]
        if not held:
            return
        # The newest one too, so that the message may reach out of the window.
        seat, tick = self.dice.pick(held) if self.dice.chance(60) else max(held, key=lambda entry: entry[1])
        count = self.dice.between(1, REDUNDANCY)
        first = min(max(tick - self.dice.below(count), 0), TOP - count)
        message = self.inputs(seat, first, count)
        run = bytearray(message.run)
        run[(tick - first) * self.p.width + self.dice.below(self.p.width)] ^= 1 << self.dice.below(8)
        self.deliver(seat, message._replace(run=bytes(run)))

    def go_ahead(self):
        """A remote runs up to 64 ticks ahead, over old frames of this seat that
        the pump then lacks. With all its own frames run, even the newest."""
        while self.dice.chance(97) and self.s.started and not self.s.outcome and self.s.pending < self.s.next_local:
            self.run(1)
        seat, count = self.remote(), self.dice.pick([1, 1, 2, REDUNDANCY, self.dice.between(1, REDUNDANCY)])
        first = self.s.pending + WINDOW - self.dice.pick([count, count, count + 1, self.dice.between(1, 9)])
        self.deliver(seat, self.inputs(seat, first, count))
        if self.dice.chance(80):
            self.send_pass()

    def send_digest(self):
        """A fingerprint that agrees, over some tick of any cell."""
        own = [fingerprint.tick for fingerprint in self.s.own.values()]
        tick = self.dice.pick(own) if own and self.dice.chance(50) else self.near()
        seat = self.remote()
        self.deliver(seat, self.digest(seat, tick))

    def lie(self):
        """A fingerprint again, with another state or only another input; now and
        then after one for an older or newer tick has taken its cell."""
        if not self.s.theirs:
            return
        place, held = self.dice.pick(list(self.s.theirs.items()))
        seat, tick = place[0], held.tick + HISTORY * self.dice.pick([-2, -1, 1])
        if self.dice.chance(40) and 0 <= tick <= TOP:
            self.deliver(seat, self.digest(seat, tick))
            held = self.s.theirs[place]
        again = self.dice.pick([held._replace(state=held.state ^ 1), held._replace(input=held.input ^ 1), held])
        self.deliver(seat, Digest(seat, self.p.session, *again))

    def repeat(self):
        if self.delivered:
            self.calls.deliver(*self.dice.pick(self.delivered[-40:]))

    def press_wrongly(self):
        width = self.p.width
        self.calls.submit(self.dice.bytes(self.dice.pick([0, width - 1, width + 1, WIDEST + 1, 200])))

    def commit_wrongly(self):
        """Another tick, a digest too many or too few, or no step at all."""
        if not self.s.outstanding and self.dice.chance(60):
            self.complete()
            self.calls.advance()
        tick, due = self.s.outstanding or (self.s.pending, self.dice.chance(50))
        other = self.dice.pick([tick + 1, max(tick - 1, 0), 0, TOP, tick])
        given = due if self.dice.chance(40) else not due
        if (other, given) != self.s.outstanding:
            self.calls.commit(other, self.world(other) if given else None, unused=self.dice.pick([0, 5]))

    # --- habits: refused messages

    def spoil_header(self):
        """One or two things wrong with who sent it; the first in order answers."""
        dice = self.dice
        sender = dice.pick([self.remote(), self.p.local, dice.below(SEATS)])
        source = sender if dice.chance(60) else dice.below(SEATS)
        message = self.some_message(sender)
        if dice.chance(40):
            message = message._replace(session=dice.pick([1, 2, TOP, self.p.session ^ 1 or 2]))
        clean = (message.session == self.p.session and source == sender and sender in self.s.remotes)
        if not (clean and isinstance(message, Bye)):
            self.deliver(source, message)

    def disagree(self, seat=None):
        """Another agreement number, with these or with other parameters; or
        other parameters that claim to agree."""
        seat = self.remote() if seat is None else seat
        hello = self.hello(seat)
        other = hello._replace(content=hello.content ^ 1, count=2, width=WIDEST, delay=WINDOW - 1, period=255)
        wrong = self.dice.pick([hello.agreement ^ 1, 0, TOP])
        self.deliver(seat, self.dice.pick([
            hello._replace(agreement=wrong), other._replace(agreement=wrong), other]))

    def send_other(self):
        seat = self.remote()
        self.deliver(seat, Other(seat, self.p.session, self.dice.between(1, 4)))

    # --- habits: ends

    def fork(self):
        """One or more worlds differ at a tick to come, or at one gone by. There
        or at the own tick before it, a world may agree over other inputs."""
        own = [fingerprint.tick for fingerprint in self.s.own.values()]
        to_come = self.s.pending + -self.s.pending % self.p.period
        tick = self.dice.pick(own) if own and self.dice.chance(60) else to_come
        before = max([each for each in own if each < tick], default=tick)
        for each in before, tick:
            if self.dice.chance(50):
                seat = self.remote()
                self.deliver(seat, self.digest(seat, each)._replace(input=self.dice.word()))
        for seat in self.dice.shuffled(self.s.remotes)[:self.dice.between(1, 4)]:
            self.deliver(seat, self.digest(seat, tick, dissent=self.dice.pick([0, 1, TOP])))

    def fork_late(self):
        """A fork shows while a step is out whose commit takes over the cell of
        the very fingerprint that was judged."""
        for _ in range(3 * HISTORY):
            if self.s.outcome:
                return
            if self.s.outstanding and self.s.outstanding[1]:
                tick = self.s.outstanding[0]
                judged = self.s.own.get(tick % HISTORY)
                if judged and judged.tick != tick:
                    seat = self.remote()
                    self.deliver(seat, self.digest(seat, judged.tick, dissent=1))
                    self.calls.advance()
                    self.report()
                    self.calls.commit(tick, self.world(tick))
                    self.report()
                    return
            if self.s.outstanding:
                tick, due = self.s.outstanding
                self.calls.commit(tick, self.world(tick) if due else None)
            self.complete()
            if not self.calls.advance():
                return

    def say_bye(self):
        self.stock_up()
        seat = self.remote()
        self.deliver(seat, Bye(seat, self.p.session, self.near()))

    def leave(self):
        self.stock_up()
        self.calls.leave()

    def stock_up(self):
        """Now and then an end finds whole ticks that are still to run."""
        if self.s.outcome or self.dice.chance(40):
            return
        for _ in range(self.dice.between(1, 4)):
            self.calls.submit(self.bytes_of(self.p.local, self.s.next_local))
        for seat in self.s.remotes:
            self.deliver(seat, self.inputs(seat, self.s.pending, self.dice.between(1, REDUNDANCY)))

    # --- habits: records that change nothing

    def open_wrongly(self):
        """One or more parameters wrong: the first in order answers, and the
        session goes on."""
        dice, count = self.dice, self.dice.between(2, SEATS - 1)
        wrong = [
            {"count": dice.pick([0, 1, 9, 255])},
            {"count": count, "local": dice.between(count, SEATS - 1)},
            {"width": dice.pick([0, WIDEST + 1, 255])},
            {"delay": dice.pick([WINDOW, 255])},
            {"period": 0},
            {"session": 0},
        ]
        faults = {}
        for fault in dice.shuffled(wrong)[:dice.pick([1, 1, 2, 3])]:
            faults.update(fault)
        self.calls.raw(pack("open", *self.p._replace(**faults)))

    def break_record(self):
        """A kind that does not exist, or a length that the kind cannot have."""
        kind, length = self.dice.pick([
            (0, 0), (15, 37), (255, 3), (0xFFFF, 0), (1, 36), (1, 38), (3, 45), (4, 19), (4, 149), (5, 33), (6, 19),
            (7, 10), (8, 1), (9, 16), (10, 1), (11, 2), (12, 1)])
        self.calls.raw(frame(kind, self.dice.bytes(length)))


def script(dice):
    limits = Limits(dice)
    mix = {habit: weight * dice.pick([0, 1, 1, 2, 5]) for habit, weight in HABITS.items()}
    mix["run"] += 4  # else it may never play
    turns = dice.pick([20, 40, 80, 120])
    life = dice.below(turns)    # turns before which it does not end
    rest = dice.between(5, 25)  # turns to go after an end
    getattr(limits, dice.weighted(OPENINGS))()
    for turn in range(turns):
        habit = dice.weighted(mix)
        if habit in ENDS:
            if turn < life:
                continue
            if dice.chance(50):  # in the middle of a pass
                limits.pump()
        getattr(limits, habit)()
        if limits.s.outcome:
            rest -= 1
        if rest == 0 or len(limits.calls.records) > MOST_RECORDS:
            break
    limits.send_pass()
    limits.report()
    return b"".join(limits.calls.records)
