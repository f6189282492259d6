#!/usr/bin/env python3
"""circle on a pipe and on a file: in pieces, slowly, past the size of its buffers, and broken off at every place.

    python3 tests/pipe.py --program 'CMD'

CMD reads a script on standard input. The expected lines are those of rules.py.
"""

import argparse
import random
import select
import shlex
import subprocess
import sys
import tempfile
import time

import outside
import rules

WAIT = 30  # seconds for one line; an emulator is slow to start
PIECE = 65536  # what circle reads at once; of a file it gets as much
OUT = 16384  # and writes at once
SIZES = 1, 3, 4, 5, 4096, 70000


def case(params=None):
    """A script whose records are of every length that a record can have."""
    params = params or rules.Params(2, 0, 1, 0, 1, 0, 0, 0, 9)
    records = [outside.open_record(params)]
    for length in (1, 0, 65535, 1, 65534, 300):
        records.append(outside.submit_record(bytes(length)))
        records.append(outside.record(rules.PUMP))
    records.append(outside.record(99, bytes(65535)))
    return records


def expected(script):
    return rules.text(script).encode()


def broken_off(params=None):
    """Scripts whose first piece ends within a record, at each place of its header and a little after."""
    params = params or rules.Params(2, 0, 1, 0, 1, 0, 0, 0, 9)
    for place in range(8):
        first = outside.open_record(params)
        filler = outside.submit_record(bytes(PIECE - place - len(first) - 4))
        yield first + filler + outside.submit_record(b"abc") + outside.record(rules.PUMP) * 3


def from_file(command, script):
    with tempfile.TemporaryFile() as file:
        file.write(script)
        file.seek(0)
        return subprocess.run(command, stdin=file, stdout=subprocess.PIPE, check=True).stdout


def in_pieces(command, script, sizes):
    """What CMD prints for a script that comes in pieces of these sizes."""
    process = subprocess.Popen(command, stdin=subprocess.PIPE, stdout=subprocess.PIPE)
    out = []
    at = 0
    while at < len(script):
        size = next(sizes)
        process.stdin.write(script[at:at + size])
        process.stdin.flush()
        at += size
        while select.select([process.stdout], [], [], 0)[0]:
            got = process.stdout.read1(1 << 16)
            if not got:
                break
            out.append(got)
    process.stdin.close()
    out.append(process.stdout.read())
    process.wait()
    return b"".join(out)


def as_it_goes(command, records):
    """Each record is written only once the line of the one before was read."""
    process = subprocess.Popen(command, stdin=subprocess.PIPE, stdout=subprocess.PIPE)
    lines = b""
    for done, record in enumerate(records, 1):
        process.stdin.write(record)
        process.stdin.flush()
        until = time.monotonic() + WAIT
        while lines.count(b"\n") < done:
            if not select.select([process.stdout], [], [], max(0, until - time.monotonic()))[0]:
                process.kill()
                return lines + b"(no line for record %d within %d s)" % (done, WAIT)
            lines += process.stdout.read1(1 << 16)
    process.stdin.close()
    lines += process.stdout.read()
    process.wait()
    return lines


def main():
    parser = argparse.ArgumentParser(description=__doc__, formatter_class=argparse.RawDescriptionHelpFormatter)
    parser.add_argument("--program", required=True)
    command = shlex.split(parser.parse_args().program)
    records = case()
    script = b"".join(records)
    assert len(script) > 2 * PIECE
    want = expected(script)
    dice = random.Random(1)
    short = b"".join(records[:3]) + records[0][:7]
    tries = [
        ("in one piece", in_pieces(command, script, iter([len(script)])), want),
        ("in pieces of every size", in_pieces(command, script, iter(lambda: dice.choice(SIZES), 0)), want),
        ("byte by byte, and cut", in_pieces(command, short, iter(lambda: 1, 0)), expected(short)),
        ("a record at a time", as_it_goes(command, records), want),
        ("nothing", in_pieces(command, b"", iter([1])), b""),
        ("from a file", from_file(command, script), want),
    ]
    for place, text in enumerate(broken_off()):
        tries.append((f"broken off at place {place}", from_file(command, text), expected(text)))
    many = records[0] + outside.record(99) * OUT
    assert len(expected(many)) > 2 * OUT
    tries.append(("more lines than are written at once", from_file(command, many), expected(many)))
    for name, got, wanted in tries:
        if got != wanted:
            print(f"tests/pipe.py: {name}: printed\n{got[:400]!r}\nfor\n{wanted[:400]!r}")
            sys.exit(1)
    print(f"{len(tries)} ways to bring a script, no difference")


if __name__ == "__main__":
    main()
