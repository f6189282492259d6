"""Scripts of the first sort: what one seat lives through in a whole circle
over a bad radio.

Every seat is a model session with a host around it. Messages really travel:
what a seat is handed is what another one's pump made, lost, doubled, late or
out of order as the radio pleases. The calls of one seat are the script.
"""

from lib import model
from lib.recorder import Recorder
from lib.records import FNV_START, absorb

SEATS = {2: 4, 3: 4, 4: 2, 5: 1, 6: 1, 7: 1, 8: 2}
DELAYS = {0: 4, 1: 4, 2: 2, 3: 4, 5: 1, 8: 2, 62: 1, 63: 2}
PERIODS = {1: 4, 2: 2, 3: 2, 16: 3, 17: 1, 32: 1, 255: 1}


class Host:
    """A seat and how its host behaves."""

    def __init__(self, dice, params, fork_at):
        self.dice = dice
        self.calls = Recorder(params)
        self.session = self.calls.session
        self.inbox = []                             # (due round, order, source, message)
        self.pressed = []                           # the accepted inputs, by tick
        self.world = FNV_START
        self.fork_at = fork_at                      # from this tick on its world differs
        self.presses = dice.pick([1, 1, 1, 2, 4])   # inputs offered a turn at most
        self.greedy = dice.chance(2)                # offers them even if not wanted
        self.speed = dice.pick([100, 100, 90, 60])
        self.steps = dice.pick([1, 2, 4, 9])
        self.quiet = dice.pick([0, 0, 30, 60])      # turns of a hundred without a pass
        self.idle = _spell(dice, 15)                # rounds in which it offers nothing

    def turn(self, now, send):
        due = sorted(entry for entry in self.inbox if entry[0] <= now)
        self.inbox = [entry for entry in self.inbox if entry[0] > now]
        # Now and then part of the mail comes in between the other calls.
        first = self.dice.below(len(due) + 1) if self.dice.chance(20) else len(due)
        for _, _, source, message in due[:first]:
            self.calls.deliver(source, message)
        if now not in self.idle:
            self.offer()
        self.run()
        for _, _, source, message in due[first:]:
            self.calls.deliver(source, message)
        if not self.dice.chance(self.quiet):
            self.send_pass(send)

    def offer(self):
        for _ in range(self.presses):
            if not self.session.wants_local() and not self.greedy:
                return
            data = self.dice.bytes(self.session.p.width)
            if not self.calls.submit(data):
                return
            self.pressed.append(data)

    def run(self):
        for _ in range(self.steps):
            frames = self.calls.advance()
            if frames:
                self.world = absorb(self.world, b"".join(frames))
            elif not self.session.outstanding:
                return
            if self.dice.chance(5):  # the world takes its time: committed next turn
                return
            self.commit()

    def commit(self):
        tick, due = self.session.outstanding
        world = self.world ^ (tick >= self.fork_at)
        if self.dice.chance(1):  # a host that lost track
            self.calls.commit(tick, None if due else world)
            self.calls.commit(tick + 1, world if due else None)
        self.calls.commit(tick, world if due else None)

    def send_pass(self, send):
        while out := self.calls.pump():
            send(self.session.p.local, *out)
            if self.dice.chance(2):  # out of air time: the pass goes on next turn
                return


class Radio:
    """Carries messages between hosts, badly."""

    def __init__(self, dice, hosts):
        self.dice = dice
        self.hosts = hosts
        self.now = 0
        self.sent = 0
        self.loss = dice.pick([0, 5, 20, 50])
        self.repeat = dice.pick([0, 5, 30])
        self.jitter = dice.pick([0, 1, 3, 9])
        self.late = dice.pick([0, 0, 2, 10])
        self.dead = _spell(dice, 25)  # rounds in which nothing gets through

    def send(self, source, peer, message):
        dice = self.dice
        for _ in range(2 if dice.chance(self.repeat) else 1):
            if self.now in self.dead or dice.chance(self.loss):
                continue
            due = self.now + 1 + dice.below(self.jitter + 1)
            if dice.chance(self.late):
                due += dice.between(10, 60)
            # Mail of one round is sorted by this pair: shuffled a little by
            # the first number, kept apart by the second.
            self.sent += 1
            order = (dice.below(3) if self.jitter else 0, self.sent)
            self.hosts[peer].inbox.append((due, order, source, message))

    def relay(self):
        """Repeats to a seat the frames it needs next. A pump sends only the
        newest eight, so from delay 4 on a circle can lose a frame for good,
        and from delay 8 on it does so before its first tick; units that keep
        their presses longer make such circles move."""
        for peer, to in enumerate(self.hosts):
            first = to.session.pending
            for source, host in enumerate(self.hosts):
                frames = host.pressed[first:first + model.REDUNDANCY]
                if source != peer and frames and self.dice.chance(50):
                    p = host.session.p
                    message = model.Inputs(source, p.session, first, len(frames), p.width, b"".join(frames))
                    self.send(source, peer, message)


def _spell(dice, percent):
    """Some rounds in a row, in so many cases of a hundred."""
    if not dice.chance(percent):
        return range(0)
    start = dice.between(3, 50)
    return range(start, start + dice.between(3, 30))


def _hosts(dice):
    count, width, delay = dice.weighted(SEATS), dice.between(1, 16), dice.weighted(DELAYS)
    period = dice.weighted(PERIODS) if dice.chance(85) else dice.between(1, 255)
    words = [dice.word() if dice.chance(80) else dice.pick([0, model.TOP]) for _ in range(3)]
    token = dice.word() or 1
    forks = dice.below(count) if dice.chance(35) else None
    fork_at = dice.pick([0, 1, dice.below(20), dice.below(60)])
    return [Host(dice, model.Params(count, seat, width, delay, period, *words, token),
                 fork_at if seat == forks else model.TOP) for seat in range(count)]


def script(dice):
    hosts = _hosts(dice)
    seen = dice.pick(hosts)
    radio = Radio(dice, hosts)
    relayed = seen.session.p.delay > 3 and dice.chance(80)
    leaver = dice.pick(hosts) if dice.chance(30) else None
    leave_at = dice.between(1, 80)
    most = dice.pick([300, 600, 600, 1000]) if dice.chance(95) else 3000
    rest = dice.between(2, 5)  # rounds to go once the seat knows of an end
    while len(seen.calls.records) < most and rest > 0:
        radio.now += 1
        for host in dice.shuffled(hosts):
            if host is leaver and radio.now == leave_at:
                host.calls.leave()
            if dice.chance(host.speed):
                host.turn(radio.now, radio.send)
        if relayed:
            radio.relay()
        if seen.session.outcome:
            rest -= 1
        if dice.chance(2):
            seen.calls.report()
    seen.calls.report()
    if dice.chance(30):
        seen.calls.leave()
    return b"".join(seen.calls.records)
