#!/usr/bin/env python3
"""Measures slotdesk, beside another program of the same input and output where one is given.

    bench/measure.py PROGRAM [PEER] [--loads day,chains,text,journal] [--runs N]

A load is named as in bench/load.py, with its size behind a colon where it isn't the usual one, as in toandfro:20000.
The programs run in turn; of the runs of each the shortest counts. Prints for each load and program the wall and user
seconds and the peak memory in MiB, and whether the outputs are the same. The peak is that of a run of its own under GNU time,
where there is one: to a process that a script starts the kernel counts the script's own memory, some 19 MiB.
"""
import argparse
import hashlib
import os
import pathlib
import subprocess
import sys
import tempfile
import time

HERE = pathlib.Path(__file__).resolve().parent
WORDS = ["--start", "2409010000", "--plans", "20000"]
TIME = "/usr/bin/time"


def run(program, load, out):
    with open(load, "rb") as source, open(out, "wb") as sink:
        begin = time.monotonic()
        child = subprocess.Popen([program, *WORDS], stdin=source, stdout=sink)
        _, status, usage = os.wait4(child.pid, 0)
        wall = time.monotonic() - begin
    if status != 0:
        sys.exit("%s ended with %d" % (program, status))
    return wall, usage.ru_utime, usage.ru_maxrss / 1024


def peak(program, load, out):
    """The peak memory in MiB of a run under GNU time."""
    with open(load, "rb") as source, open(os.devnull, "wb") as sink:
        subprocess.run([TIME, "-f", "%M", "-o", out, program, *WORDS], stdin=source, stdout=sink, check=True)
    return int(pathlib.Path(out).read_text().split()[-1]) / 1024


def main():
    parser = argparse.ArgumentParser()
    parser.add_argument("program")
    parser.add_argument("peer", nargs="?")
    parser.add_argument("--loads", default="day,chains,text,journal")
    parser.add_argument("--runs", type=int, default=3)
    args = parser.parse_args()
    programs = [program for program in (args.program, args.peer) if program]
    print("| load | program | wall s | user s | peak MiB |\n|---|---|---:|---:|---:|")
    with tempfile.TemporaryDirectory() as folder:
        for name in args.loads.split(","):
            load = os.path.join(folder, name)
            with open(load, "wb") as sink:
                subprocess.run([sys.executable, str(HERE / "load.py"), *name.split(":")], stdout=sink, check=True)
            best = {}
            digests = set()
            for _ in range(args.runs):
                for program in programs:
                    out = os.path.join(folder, "out")
                    best[program] = min(best.get(program, (1e9, 1e9, 1e9)), run(program, load, out))
                    digests.add(hashlib.sha256(pathlib.Path(out).read_bytes()).hexdigest())
            for program in programs:
                wall, user, memory = best[program]
                if os.path.exists(TIME):
                    memory = peak(program, load, os.path.join(folder, "peak"))
                print("| %s | %s | %.3f | %.3f | %.1f |" % (name, os.path.basename(program), wall, user, memory))
            if len(digests) > 1:
                print("outputs differ on", name)


main()
