#!/usr/bin/env python3
"""Runs a built program whose reader goes before it writes, and on a device that is full.

    tests/devices/gone_reader.py PROGRAM

slotview ends in silence with status 0 where nobody reads on, whatever it writes; on a full device with its line and status 1.
slotdesk takes both for a fault: somebody may wait for its answers. Prints a line for each run that differs, then 'N runs, M
findings'. The status is 1 where there are any.
"""
import os
import pathlib
import subprocess
import sys

FLIGHTS = 1000
FILING = "(FPL-AAA%d-IS-A320/M-SDFG/LB1-LIML%02d%02d-N0450F350 DCT-EDDF0150-0)"
OPEN = "OPEN RMZ01 ARR EDDF 2409010700 2409020600 240"
SETUP = "SLOTDESK JOURNAL 2\nSETUP 2409010500 10 20000 1000000\n"

# What is run: below and above the 65,536 bytes that are collected before they are written.
VIEWS = (
    ["--help"],
    [],
    ["list"],
    ["list", "--format", "csv"],
    ["list", "--format", "json"],
    ["flight", "AAA1"],
    ["load", "RMZ01"],
    ["load", "RMZ01", "--svg"],
    ["count", "ARR", "EDDF", "--svg"],
    ["sweep", "ARR", "EDDM", "2409010700", "2409010800", "--rates", "1..9"],
    ["refused"],
    ["page"],
)
DESKS = (
    ["--help"],
    ["--start", "2409010500"],
    ["--start", "2409010500", "--plans", "20000", "--journal"],
    ["--start", "2409010500", "--feeders", "2"],
)


def filings():
    return [OPEN] + [FILING % (count, 6 + count // 60 % 16, count % 60) for count in range(1, FLIGHTS + 1)]


def day():
    return "".join(text + "\n" for text in filings()).encode()


def journal():
    entries = ["E 0 2 %d\n%s\n" % (len(text), text) for text in filings()]
    return (SETUP + "".join(entries) + "END %d\n" % len(entries)).encode()


def run(program, words, given, output):
    """The status, and what is said on standard error."""
    done = subprocess.run([program, *words], input=given, stdout=output, stderr=subprocess.PIPE, timeout=60)
    return done.returncode, done.stderr


def without_a_reader(program, words, given):
    ours, theirs = os.pipe()
    os.close(ours)
    try:
        return run(program, words, given, theirs)
    finally:
        os.close(theirs)


def on_a_full_device(program, words, given):
    with open("/dev/full", "wb") as full:
        return run(program, words, given, full)


def main():
    if len(sys.argv) != 2:
        print(__doc__)
        return 2
    program = str(pathlib.Path(sys.argv[1]).resolve())
    name = pathlib.Path(program).name
    views = name == "slotview"
    fault = (1, b"%s: write fault\n" % name.encode())
    given = journal() if views else day()
    runs = [(way, words) for words in (VIEWS if views else DESKS) for way in (without_a_reader, on_a_full_device)]
    findings = 0
    for way, words in runs:
        wanted = (0, b"") if views and way is without_a_reader else fault
        seen = way(program, words, given)
        if seen != wanted:
            findings += 1
            print("%s %s, %s: %r, wanted %r" % (name, " ".join(words), way.__name__, seen, wanted))
    print("%s: %d runs, %d findings" % (name, len(runs), findings))
    return 1 if findings else 0


if __name__ == "__main__":
    sys.exit(main())
