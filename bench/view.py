#!/usr/bin/env python3
"""Measures slotview beside the slotdesk that reads the same journal.

    bench/view.py SLOTDESK SLOTVIEW [--size N] [--runs N]

A journal of N entries is made once, by the load 'journal' of bench/load.py. Then slotdesk --resume reads it, and slotview
shows it: the summary, the slot lists of all regulations, and the summary as it stood after half of the entries. The runs
take turns; of those of each the shortest counts. Prints wall and user seconds and the peak memory in MiB, and how
often slotview takes that of slotdesk.
"""
import argparse
import os
import pathlib
import subprocess
import sys
import tempfile
import time

HERE = pathlib.Path(__file__).resolve().parent
MARK = b"SLOTDESK JOURNAL "


def run(words, source, sink):
    with open(source, "rb") as given, open(sink, "wb") as taken:
        begin = time.monotonic()
        child = subprocess.Popen(words, stdin=given, stdout=taken)
        _, status, usage = os.wait4(child.pid, 0)
        wall = time.monotonic() - begin
    if status != 0:
        sys.exit("%s ended with %d" % (" ".join(words), status))
    return wall, usage.ru_utime, usage.ru_maxrss / 1024


def make_journal(slotdesk, size, folder):
    """The journal text alone: what slotdesk writes before it, its answers, is left out."""
    load, answers, journal = (os.path.join(folder, name) for name in ("load", "answers", "journal"))
    with open(load, "wb") as sink:
        subprocess.run([sys.executable, str(HERE / "load.py"), "journal", str(size)], stdout=sink, check=True)
    run([slotdesk, "--start", "2409010000", "--plans", "20000", "--journal"], load, answers)
    found = False
    with open(answers, "rb") as given, open(journal, "wb") as taken:
        for line in given:
            found = found or line.startswith(MARK)
            if found:
                taken.write(line)
    return journal


def main():
    parser = argparse.ArgumentParser()
    parser.add_argument("slotdesk")
    parser.add_argument("slotview")
    parser.add_argument("--size", type=int, default=1_000_000)
    parser.add_argument("--runs", type=int, default=3)
    args = parser.parse_args()
    rows = {
        "slotdesk --resume": [args.slotdesk, "--resume"],
        "slotview": [args.slotview],
        "slotview list": [args.slotview, "list"],
        "slotview --at %d" % (args.size // 2): [args.slotview, "--at", str(args.size // 2)],
    }
    with tempfile.TemporaryDirectory() as folder:
        journal = make_journal(args.slotdesk, args.size, folder)
        best = {}
        for _ in range(args.runs):
            for name, words in rows.items():
                best[name] = min(best.get(name, (1e9, 1e9, 1e9)), run(words, journal, os.path.join(folder, "out")))
    base = best["slotdesk --resume"]
    print("| run | wall s | user s | peak MiB | time | memory |\n|---|---:|---:|---:|---:|---:|")
    for name, (wall, user, peak) in best.items():
        print("| %s | %.2f | %.2f | %.0f | %.2f | %.2f |" % (name, wall, user, peak, wall / base[0], peak / base[2]))
    return 0


if __name__ == "__main__":
    sys.exit(main())
