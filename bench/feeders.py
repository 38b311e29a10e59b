#!/usr/bin/env python3
"""Measures slotdesk with 1, 2 and more feeders, beside another program of the same input and output where one is given.

    bench/feeders.py PROGRAM [PEER] [--feeders 1,2,4,64] [--flights N] [--runs N]

The load is `feeders` of bench/load.py. First, for each program and number of feeders above 1, one run with --journal is looked at:
the answers are those of the entries in order and as many as the filings, the last line says that the replay is the same, the
entries of each feeder are the filings that were dealt to it, in order, and one feeder that files the same texts in the order of
the journal is answered the same, byte for byte. Then the programs run in turn without a journal; of the runs of each the shortest
counts. Prints for each number of feeders and program the wall and user seconds and the peak memory in MiB, and the product's wall
and memory as parts of the peer's. Ends with 1 where an output is wrong.
"""
import argparse
import concurrent.futures
import os
import pathlib
import subprocess
import sys
import tempfile
import time

HERE = pathlib.Path(__file__).resolve().parent
WORDS = ["--start", "2409010000", "--plans", "20000"]


def run(program, words, load, out):
    with open(load, "rb") as source, open(out, "wb") as sink:
        begin = time.monotonic()
        child = subprocess.Popen([program, *WORDS, *words], stdin=source, stdout=sink)
        _, status, usage = os.wait4(child.pid, 0)
        wall = time.monotonic() - begin
    if status != 0:
        sys.exit("%s ended with %d" % (program, status))
    return wall, usage.ru_utime, usage.ru_maxrss / 1024


def journal(text):
    """The feeder and the text of each entry of a journal text of version 2."""
    lines = text.split(b"\n")
    assert lines[0] == b"SLOTDESK JOURNAL 2", lines[0]
    at, entries = 2, []
    while lines[at].startswith(b"E "):
        entries.append((int(lines[at].split()[1]), lines[at + 1]))
        at += 2
    assert lines[at] == b"END %d" % len(entries), lines[at]
    return entries


def answers(text):
    """The numbers of the answers, in the order in which they stand."""
    return [int(line.split()[0]) for line in text.split(b"\n") if line[:1].isdigit()]


def faults(program, feeders, load, folder):
    """What is wrong with the output of one run. Called in a process of its own, so that what it reads isn't counted as the peak
    memory of the programs that are started later."""
    return list(found(program, feeders, pathlib.Path(load).read_bytes().splitlines(), load, os.path.join(folder, "out")))


def found(program, feeders, filings, load, out):
    run(program, ["--feeders", str(feeders), "--journal"], load, out)
    written, _, rest = pathlib.Path(out).read_bytes().partition(b"SLOTDESK JOURNAL")
    entries = journal(b"SLOTDESK JOURNAL" + rest)
    if not rest.endswith(b"\nREPLAY OK\n"):
        yield "the last line isn't REPLAY OK"
    if answers(written) != list(range(1, len(filings) + 1)):
        yield "not the answers of all entries in order"
    for feeder in range(feeders):
        if [text for by, text in entries if by == feeder] != filings[feeder::feeders]:
            yield "the entries of feeder %d aren't its filings in order" % feeder
    again = out + "-again"
    pathlib.Path(again).write_bytes(b"".join(text + b"\n" for _, text in entries))
    run(program, [], again, out)
    if pathlib.Path(out).read_bytes() != written:
        yield "one feeder is answered otherwise"


def main():
    parser = argparse.ArgumentParser(description=__doc__, formatter_class=argparse.RawDescriptionHelpFormatter)
    parser.add_argument("program")
    parser.add_argument("peer", nargs="?")
    parser.add_argument("--feeders", default="1,2,4,64")
    parser.add_argument("--flights", type=int, default=20_000)
    parser.add_argument("--runs", type=int, default=5)
    args = parser.parse_args()
    programs = [program for program in (args.program, args.peer) if program]
    numbers = [int(number) for number in args.feeders.split(",")]
    wrong = 0
    with tempfile.TemporaryDirectory() as folder:
        load, out = os.path.join(folder, "load"), os.path.join(folder, "out")
        with open(load, "wb") as sink:
            subprocess.run([sys.executable, str(HERE / "load.py"), "feeders", str(args.flights)], stdout=sink, check=True)
        with concurrent.futures.ProcessPoolExecutor(1) as aside:
            for feeders in numbers:
                for program in programs if feeders > 1 else []:
                    for fault in aside.submit(faults, program, feeders, load, folder).result():
                        wrong += 1
                        print("%s, %d feeders: %s" % (os.path.basename(program), feeders, fault))
        print("%d flights; outputs %s\n" % (args.flights, "WRONG" if wrong else "right"))
        print("| feeders | program | wall s | user s | peak MiB | wall | memory |\n|---:|---|---:|---:|---:|---:|---:|")
        for feeders in numbers:
            best = {}
            for _ in range(args.runs):
                for program in programs:
                    best[program] = min(best.get(program, (1e9,) * 3), run(program, ["--feeders", str(feeders)], load, out))
            for program in programs:
                parts = [own / its for own, its in zip(best[program], best[programs[-1]])]
                print("| %d | %s | %.3f | %.3f | %.1f | %.2f | %.2f |" % (
                    feeders, os.path.basename(program), *best[program], parts[0], parts[2]), flush=True)
    sys.exit(1 if wrong else 0)


main()
