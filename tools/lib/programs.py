"""The oracle and the programs held beside it: how they are run, and what a
`= ` line of their trace form shows."""

import os
import subprocess
import sys

ROOT = os.path.dirname(os.path.dirname(os.path.dirname(os.path.abspath(__file__))))

COUNTERS = ("datagrams_refused", "frames_repeated", "frames_contradicted", "frames_out_of_window",
            "digests_contradicted", "stall_pumps")
SHOWN = COUNTERS + ("pending", "next_local", "playing", "wants_local", "input_digest", "why", "seat", "tick")


def oracle():
    """The oracle's path, built if need be. Where it cannot be had, oracle/build
    has said why and its exit status becomes ours."""
    built = subprocess.run([os.path.join(ROOT, "oracle", "build")])
    if built.returncode:
        sys.exit(built.returncode)
    return os.path.join(ROOT, "target", "oracle", "oracle")


def output(command, script):
    """What a program prints for a script, and its exit status."""
    done = subprocess.run(command, input=script, stdout=subprocess.PIPE)
    return done.stdout, done.returncode
