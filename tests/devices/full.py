#!/usr/bin/env python3
"""Runs the built program with a full disk as its standard output.

    tests/devices/full.py PROGRAM

/dev/full takes no byte, and what a run writes is collected. One feeder hands its answers on before it waits for more. The
journal of an input without a filing, and all that two feeders write, is handed on by the last flush alone: a run without that
flush, or one that doesn't look how it went, loses what was collected and ends with 0. Each run must end with status 1 and the
line `slotdesk: write fault`. Prints a line for each of them, and ends with 1 if one ended otherwise.
"""
import subprocess
import sys

ORDER = b"TIME 2409010500\n"
WAYS = [
    ("one feeder", [], ORDER),
    ("the journal", ["--journal"], b""),
    ("two feeders", ["--feeders", "2"], ORDER),
    ("the journal of two feeders", ["--feeders", "2", "--journal"], b""),
]
WANTED = (1, b"slotdesk: write fault\n")


def ending(program, words, filings):
    """The status of a run, and what it wrote on standard error."""
    with open("/dev/full", "wb", buffering=0) as full:
        words = [program, "--start", "2409010500", *words]
        done = subprocess.run(words, input=filings, stdout=full, stderr=subprocess.PIPE, timeout=60)
    return done.returncode, done.stderr


def main():
    if len(sys.argv) != 2:
        print(__doc__)
        return 2
    failed = 0
    for name, words, filings in WAYS:
        found = ending(sys.argv[1], words, filings)
        failed += found != WANTED
        print("full disk, %s: %s" % (name, "told" if found == WANTED else "NOT TOLD: status %d, %r" % found))
    return 1 if failed else 0


if __name__ == "__main__":
    sys.exit(main())
