#!/usr/bin/env python3
"""Files one line after the other to the built program and waits for its answer before the next, on a pipe and on a terminal.

    tests/devices/waits.py PROGRAM [--filings N]

The input stays open all the while, as a gateway keeps it, or a person at a terminal: the program reads on before the next
filing is there, so an answer that it keeps back doesn't come at all. It is waited for 5 seconds. With many feeders answers come
when the input has ended. Prints for each way whether each filing was answered, and the longest and the median wait in
milliseconds, and ends with 1 if one wasn't.
"""
import argparse
import os
import pty
import select
import statistics
import subprocess
import sys
import time
import tty

WORDS = ["--start", "2409010500"]
FILINGS = "(FPL-AAA%d-IS-A320/M-SDFG/LB1-LIML%02d%02d-N0450F350 DCT-EDDF0150-0)\n"
LIMIT = 5.0
# More filings than a history has had in any other test of many feeders.
MANY = 1200


def wait_for_line(source, begin):
    """The bytes to the next end of a line, or those that came within the limit."""
    read = b""
    while not read.endswith(b"\n"):
        ready, _, _ = select.select([source], [], [], max(0.0, begin + LIMIT - time.monotonic()))
        if not ready:
            return read
        piece = os.read(source, 65536)
        if not piece:
            return read
        read += piece
    return read


def ask(sink, source, filings):
    """How long each answer took, and what was wrong with the first that didn't come."""
    waits = []
    for count in range(1, filings + 1):
        begin = time.monotonic()
        os.write(sink, (FILINGS % (count, 6 + count // 60 % 12, count % 60)).encode())
        answer = wait_for_line(source, begin)
        waits.append(time.monotonic() - begin)
        if not answer.startswith(b"%d OK FPL " % count):
            return waits, "NOT ANSWERED before the next read: filing %d got %r" % (count, answer)
    return waits, None


def on_pipe(program, filings):
    with subprocess.Popen([program, *WORDS], stdin=subprocess.PIPE, stdout=subprocess.PIPE, bufsize=0) as child:
        result = ask(child.stdin.fileno(), child.stdout.fileno(), filings)
        child.stdin.close()
        return result


def on_terminal(program, filings):
    ours, theirs = pty.openpty()
    tty.setraw(theirs)
    # At its end the terminal is gone, which is a read fault.
    with subprocess.Popen([program, *WORDS], stdin=theirs, stdout=theirs, stderr=subprocess.DEVNULL) as child:
        os.close(theirs)
        result = ask(ours, ours, filings)
        os.close(ours)
        child.wait()
        return result


def with_feeders(program, _filings):
    """How long the last line took after the end of the input, and what was wrong."""
    words = [*WORDS, "--feeders", "2"]
    filed = "".join(FILINGS % (count, 6 + count // 60 % 12, count % 60) for count in range(1, MANY + 1))
    with subprocess.Popen([program, *words], stdin=subprocess.PIPE, stdout=subprocess.PIPE, bufsize=0) as child:
        begin = time.monotonic()
        try:
            lines = child.communicate(filed.encode(), timeout=60)[0].splitlines()
        except subprocess.TimeoutExpired:
            child.kill()
            lines = []
        right = len(lines) == MANY + 1 and lines[-1] == b"REPLAY OK"
        return [time.monotonic() - begin], None if right else "NOT ANSWERED: %d lines" % len(lines)


def main():
    parser = argparse.ArgumentParser(description=__doc__, formatter_class=argparse.RawDescriptionHelpFormatter)
    parser.add_argument("program")
    parser.add_argument("--filings", type=int, default=500)
    args = parser.parse_args()
    failed = 0
    ways = [("a pipe", on_pipe), ("a terminal", on_terminal), ("2 feeders", with_feeders)]
    for name, way in ways:
        waits, wrong = way(args.program, args.filings)
        failed += wrong is not None
        figures = "longest %.1f ms, median %.3f ms" % (1000 * max(waits), 1000 * statistics.median(waits))
        print("%s: %s; %s" % (name, wrong or "answered", figures))
    sys.exit(1 if failed else 0)


main()
