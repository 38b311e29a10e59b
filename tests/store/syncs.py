#!/usr/bin/env python3
"""Counts the syncs of a desk with a store that 64 feeders file at, each of which waits for each answer.

    tests/store/syncs.py PROGRAM [--filings N] [--pair MICROSECONDS]

A shim, built here with cc and loaded before the C library, counts each sync of the store and lets it take at least half of
the time of a pair. Prints how many filings there were for each pair of syncs, and ends with 1 if there were fewer than 8.
Where cc isn't there it says so, and counts nothing.
"""
import argparse
import os
import pathlib
import select
import shutil
import subprocess
import sys
import tempfile
import time

import stores

FEEDERS, LEAST = 64, 8
FILING = b"(FPL-%s-IS-A320/M-SDFG/LB1-LIML%02d%02d-N0450F350 DCT-EDDF0150-0)\n"
SHIM = r"""
#define _GNU_SOURCE
#include <dlfcn.h>
#include <stdlib.h>
#include <time.h>
#include <unistd.h>
int fdatasync(int fd) {
    static int (*real)(int);
    if (!real) real = dlsym(RTLD_NEXT, "fdatasync");
    struct timespec wait = {0, atol(getenv("SYNC_NANOSECONDS"))};
    nanosleep(&wait, NULL);
    if (write(9, "s", 1) < 0) { }
    return real(fd);
}
"""


def shim(folder):
    source, library = folder / "shim.c", folder / "shim.so"
    source.write_text(SHIM)
    subprocess.run(["cc", "-O1", "-shared", "-fPIC", "-o", library, source, "-ldl"], check=True)
    return library


def begin(program, folder, library, microseconds, counted):
    """A desk over the feeds in this folder. Its syncs are counted in a file."""
    feeds = folder / "feeds"
    feeds.mkdir()
    ends = []
    for at in range(FEEDERS):
        source, sink = (feeds / ("f%02d%s" % (at, end)) for end in (".in", ".out"))
        os.mkfifo(source)
        os.mkfifo(sink)
        ends.append((os.open(source, os.O_RDWR), os.open(sink, os.O_RDWR)))
    process = subprocess.Popen(
        [program, "--feeds", feeds, "--store", folder / "store", *stores.START], stdin=subprocess.DEVNULL,
        stdout=subprocess.DEVNULL, env={"LD_PRELOAD": str(library), "SYNC_NANOSECONDS": str(500 * microseconds)},
        preexec_fn=lambda: os.dup2(counted.fileno(), 9), pass_fds=(9,))
    return process, ends


def file_each(ends, count):
    """Each feeder files so many, one after the other, when the last one was answered. Returns how long it took."""
    waiting, left, poll = {}, {}, select.epoll()
    for at, (source, sink) in enumerate(ends):
        poll.register(sink, select.EPOLLIN)
        waiting[sink], left[sink] = source, [FILING % (b"A%dX%d" % (at, n), 6 + n // 60 % 16, n % 60) for n in range(count)]
    began = time.monotonic()
    for sink, source in waiting.items():
        os.write(source, left[sink].pop())
    while waiting:
        for sink, _ in poll.poll():
            # An answer is written at once, and a pipe holds it.
            if os.read(sink, 65536).endswith(b"\n\n"):
                if left[sink]:
                    os.write(waiting[sink], left[sink].pop())
                else:
                    os.close(waiting.pop(sink))
                    poll.unregister(sink)
    return time.monotonic() - began


def main():
    parser = argparse.ArgumentParser(description=__doc__, formatter_class=argparse.RawDescriptionHelpFormatter)
    parser.add_argument("program")
    parser.add_argument("--filings", type=int, default=12_800)
    parser.add_argument("--pair", type=int, default=100)
    args = parser.parse_args()
    if shutil.which("cc") is None:
        print("syncs: cc isn't there, so no sync was counted")
        return 0
    with tempfile.TemporaryDirectory() as name, tempfile.TemporaryFile() as counted:
        folder = pathlib.Path(name)
        process, ends = begin(pathlib.Path(args.program).resolve(), folder, shim(folder), args.pair, counted)
        took = file_each(ends, args.filings // FEEDERS)
        assert process.wait(60) == 0, process.returncode
        # One when the store is opened.
        pairs = (os.fstat(counted.fileno()).st_size - 1) / 2
        kept, _ = stores.entries((folder / "store").read_bytes())
        assert len(kept) == args.filings // FEEDERS * FEEDERS, len(kept)
    print("syncs: %d filings of %d feeders that wait for each answer, %d pairs of syncs of at least %d microseconds: "
          "%.1f filings a pair, %.0f microseconds a pair" % (len(kept), FEEDERS, pairs, args.pair, len(kept) / pairs, 1e6 * took / pairs))
    return 0 if len(kept) >= LEAST * pairs else 1


if __name__ == "__main__":
    sys.exit(main())
