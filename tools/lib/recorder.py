"""A session whose calls are written down as script records."""

from lib import model
from lib.records import pack

NAMES = {model.Hello: "hello", model.Inputs: "inputs", model.Digest: "digest", model.Bye: "bye", model.Other: "other"}


class Recorder:
    """Every call goes into `records` and to the model."""

    def __init__(self, params):
        self.session = model.Session(params)
        self.records = [pack("open", *params)]

    def submit(self, data):
        self.records.append(pack("submit", data))
        return self.session.submit(data)

    def deliver(self, source, message):
        self.records.append(pack(NAMES[type(message)], source, *message))
        self.session.deliver(source, message)

    def advance(self):
        self.records.append(pack("advance"))
        return self.session.advance()

    def commit(self, tick, digest, flag=1, unused=0):
        """digest None: none is given, and the record carries `unused`."""
        given = (0, unused) if digest is None else (flag, digest)
        self.records.append(pack("commit", tick, *given))
        self.session.commit(tick, digest)

    def leave(self):
        self.records.append(pack("leave"))
        self.session.leave()

    def pump(self):
        self.records.append(pack("pump"))
        return self.session.pump()

    def report(self):
        self.records.append(pack("report"))

    def raw(self, record):
        """A record that changes no session: a refused open, a bad one."""
        self.records.append(record)
