#!/usr/bin/env python3
"""Refuses each request for memory in turn to feeds at a desk, to a run of two feeders, and to two that are answered as they file.

    tests/memory/growths.py

Feeds run in threads, so their memory is that of the whole program. The program in src beside this file calls the libraries, without
a command line. `rt try --fail-alloc N --cases` builds it once, proves nothing, and refuses request N to each of its runs; by its input
each run makes some requests before the calls, so that another one of the calls is refused. A call that is refused is made again, and
all must be as it promises then; else the program stops. To the run without an input nothing may be refused any more: then all
were tried. Prints how many requests were refused, and ends with 1 if anything was wrong.
"""
import collections
import pathlib
import re
import subprocess
import sys
import tempfile

HOME = pathlib.Path(__file__).resolve().parent
sys.path.insert(0, str(HOME.parent))
sys.dont_write_bytecode = True

from workspace import placed  # noqa: E402

STANDS_ON = ["fpl_text", "fpl_message", "flow_plans", "flow_log", "flow_core", "flow_store", "flow_desk", "flow_runs", "flow_live"]
# More than the calls make.
LAST = 300
REFUSED, NOTHING = "refused, and all as promised", "not refused"
ENDED = "run=ended status=0 "


def run_each(folder):
    """The lines of a run in which nothing is proved, for each request."""
    crate = placed(folder, "growths", STANDS_ON, HOME, proofs=False)
    cases = folder / "cases"
    cases.mkdir()
    for number in range(1, LAST + 1):
        (cases / str(number)).write_bytes(b"x" * (LAST - number))
    # The interpreter would take minutes for what the compiled program does in seconds.
    command = ["rt", "try", "--steps", "1", "--seconds", "60", "--fail-alloc", str(LAST), "--cases", str(cases)]
    ran = subprocess.run(command, cwd=crate, capture_output=True, text=True, stdin=subprocess.DEVNULL)
    return (ran.stdout + ran.stderr).splitlines()


def told_of(lines):
    """What is told of each run, by the number of its request: what it said, and then how it ended."""
    told, number = collections.defaultdict(list), None
    for line in lines:
        head = re.fullmatch(r"== (\d+)", line)
        end = re.match(r"case=(\d+) (run=.*)", line)
        if head:
            number = int(head[1])
        elif end:
            told[int(end[1])].append(end[2])
        elif number is not None:
            told[number].append(line)
    return told


def main():
    with tempfile.TemporaryDirectory() as folder:
        lines = run_each(pathlib.Path(folder))
    told = told_of(lines)
    ended = {number for number, ran in told.items() if any(line.startswith(ENDED) for line in ran)}
    refused = {number for number in ended if told[number][0] == REFUSED}
    nothing = {number for number in ended if told[number][0] == NOTHING}
    wrong = set(range(1, LAST + 1)) - refused - nothing
    for number in sorted(wrong):
        print("request %d: %s" % (number, "\n   ".join(told[number] or lines[-5:])))
    print("growths: %d refused in turn, %d wrong%s" % (len(refused), len(wrong), "" if LAST in nothing else ", not all tried"))
    return 0 if refused and LAST in nothing and not wrong else 1


if __name__ == "__main__":
    sys.exit(main())
