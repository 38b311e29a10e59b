#!/usr/bin/env python3
"""Refuses each request for memory in turn to the built program, and tells how its runs ended.

    tests/memory/refused.py PROGRAM [NAME ..]

NAME is a worked run in tests/cli/slotdesk; if none is named, some that file by themselves, with two feeders, over feeds, over feeds
with a store, and going on from a journal. Where cc isn't there it says so, and refuses nothing.
The program asks the C library for its memory. A shim, built here with cc and loaded before that library, refuses the request
number N, so that each N takes one short run; N rises until nothing is refused. A run must end as the worked run does, with its
output, or with status 2, the line of want of memory and a beginning of that output, and so of what its feeds are answered and of
the entries in its store; but never so where the journal is full. With feeders what it has answered are then
entries without a gap in their numbers and nothing behind them, since the filings of the other feeders go on. What the loader and
the C library ask for before the program begins isn't counted.
Prints for each worked run how many ended in which way, and ends with 1 if one ended in another, or none for want of memory.
"""
import argparse
import collections
import os
import pathlib
import shutil
import subprocess
import sys
import tempfile

CASES = pathlib.Path(__file__).resolve().parent.parent / "cli" / "slotdesk"
CHOSEN = [
    "three-flights-and-one-slot-message",
    "journal-of-one-entry",
    "resumed-desk-revises-a-slot",
    "feeders-of-two-flights",
    "feeders-and-their-journal",
    "feeders-resumed-write-the-whole-journal",
    "feeders-resumed-with-the-journal-full",
    "feeds-of-one-pair",
    "feeds-in-the-order-of-their-names",
    "feeds-with-a-new-store",
    "feeds-go-on-with-their-store",
]
FULL, MEMORY = b"- NO 91 JournalFull\n", b"slotdesk: out of memory\n"
SHIM = r"""
#define _GNU_SOURCE
#include <dlfcn.h>
#include <errno.h>
#include <stdatomic.h>
#include <stdlib.h>
#include <unistd.h>
static atomic_long left;
static char early[65536];
static size_t taken;
static void *(*real_malloc)(size_t), *(*real_realloc)(void *, size_t), *(*real_calloc)(size_t, size_t), *(*real_aligned)(size_t, size_t);
static int (*real_posix)(void **, size_t, size_t);
__attribute__((constructor)) static void begin(void) {
    real_malloc = dlsym(RTLD_NEXT, "malloc"); real_realloc = dlsym(RTLD_NEXT, "realloc");
    real_calloc = dlsym(RTLD_NEXT, "calloc"); real_aligned = dlsym(RTLD_NEXT, "aligned_alloc");
    real_posix = dlsym(RTLD_NEXT, "posix_memalign");
    const char *count = getenv("REFUSE");
    atomic_store(&left, count ? atol(count) : 0);
}
static int refuses(void) {
    if (atomic_fetch_sub(&left, 1) != 1) return 0;
    if (write(9, "r", 1) < 0) { }
    errno = ENOMEM;
    return 1;
}
static void *first(size_t n) { size_t at = taken; taken += (n + 15) & ~(size_t)15; return taken > sizeof early ? NULL : early + at; }
void *malloc(size_t n) { return !real_malloc ? first(n) : refuses() ? NULL : real_malloc(n); }
void *calloc(size_t a, size_t b) { return !real_calloc ? first(a * b) : refuses() ? NULL : real_calloc(a, b); }
void *realloc(void *p, size_t n) { return refuses() ? NULL : real_realloc(p, n); }
void *aligned_alloc(size_t a, size_t n) { return refuses() ? NULL : real_aligned(a, n); }
int posix_memalign(void **p, size_t a, size_t n) { return refuses() ? ENOMEM : real_posix(p, a, n); }
void free(void *p) {
    static void (*real_free)(void *);
    if ((char *)p >= early && (char *)p < early + sizeof early) return;
    if (!real_free) real_free = dlsym(RTLD_NEXT, "free");
    real_free(p);
}
"""


def shim(folder):
    source, library = folder / "shim.c", folder / "shim.so"
    source.write_text(SHIM)
    subprocess.run(["cc", "-O1", "-shared", "-fPIC", "-o", library, source, "-ldl"], check=True)
    return library


def text(path):
    return path.read_bytes() if path.exists() else b""


def run(program, library, words, filings, count, place):
    """The run in which this request is refused: its status, output and errors, and whether anything was refused."""
    ours, theirs = os.pipe()

    def hand_over():
        os.dup2(theirs, 9)

    done = subprocess.run(
        [program, *words], input=filings, capture_output=True, timeout=60, preexec_fn=hand_over, pass_fds=(9,),
        env={"LD_PRELOAD": str(library), "REFUSE": str(count)}, cwd=place,
    )
    os.close(theirs)
    refused = os.read(ours, 1) == b"r"
    os.close(ours)
    return done, refused


def without_gap(output, wanted):
    """Whether these are answers to entries one after the other, from the first one that the worked run answers."""
    if not output:
        return True
    first, numbers = int(wanted.split(b" ", 1)[0]), [line.split(b" ", 1)[0] for line in output.split(b"\n")[:-1]]
    return numbers == [b"%d" % (first + at) for at in range(len(numbers))] and output.endswith(b"\n")


def is_cut_at_full(output, wanted):
    """Whether all entries that the journal can have are answered, and no filing that finds it full."""
    return FULL in wanted and output == wanted.split(FULL, 1)[0]


def run_placed(program, library, folder, count):
    """As `run`, of a worked run in its folder, or in a copy of its folder data. The third is what is left in the latter."""
    words, filings = text(folder / "args").split(b"\n")[:-1], text(folder / "stdin")
    if not (folder / "data").is_dir():
        return *run(program, library, words, filings, count, folder), {}
    with tempfile.TemporaryDirectory() as place:
        shutil.copytree(folder / "data", place, dirs_exist_ok=True)
        done, refused = run(program, library, words, filings, count, place)
        names = [path.relative_to(folder / "after") for path in (folder / "after").rglob("*") if path.is_file()]
        return done, refused, {name: text(pathlib.Path(place) / name) for name in names}


def are_left(left, folder, whole):
    """Whether what is left in the files of a run is what the worked run leaves there, or, if it needn't be whole, begins so."""
    wanted = {name: text(folder / "after" / name) for name in left}
    return all(left[name] == wanted[name] or not whole and wanted[name].startswith(front(name, left[name])) for name in left)


def front(name, found):
    """The bytes of a file that are to be a beginning: all, but the closed gate of a store."""
    return found.removesuffix(b"-") if name.suffix == ".store" else found


def ending(done, wanted, feeders):
    """How a run ended, or None where that is none of the ways in which it may."""
    if done.returncode == 2 and is_cut_at_full(done.stdout, wanted):
        return None
    if (done.returncode, done.stdout, done.stderr) == (0, wanted, b""):
        return "as without it"
    if (done.returncode, done.stderr) != (2, MEMORY):
        return None
    if wanted.startswith(done.stdout) or (feeders and without_gap(done.stdout, wanted)):
        return "out of memory"
    return None


def refuse(program, library, name):
    folder = CASES / name
    words, wanted = text(folder / "args").split(b"\n")[:-1], text(folder / "stdout")
    ways, wrong = collections.Counter(), 0
    for count in range(1, 1_000_000):
        done, refused, left = run_placed(program, library, folder, count)
        if not refused:
            break
        way = ending(done, wanted, b"--feeders" in words)
        way = way if are_left(left, folder, done.returncode == 0) else None
        ways[way] += 1
        if way is None:
            wrong += 1
            print("%s, request %d: status %d, %r, %r" % (name, count, done.returncode, done.stderr[:200], done.stdout[-80:]))
    said = ", ".join("%d %s" % (times, way) for way, times in ways.most_common() if way)
    print("%s: %d requests refused in turn: %s; %d in another way" % (name, sum(ways.values()), said, wrong))
    return wrong == 0 and ways["out of memory"] > 0


def main():
    parser = argparse.ArgumentParser(description=__doc__, formatter_class=argparse.RawDescriptionHelpFormatter)
    parser.add_argument("program")
    parser.add_argument("names", nargs="*", default=CHOSEN)
    args = parser.parse_args()
    if shutil.which("cc") is None:
        print("cc isn't there: no request for memory is refused to %s" % args.program)
        return
    with tempfile.TemporaryDirectory() as folder:
        program, library = pathlib.Path(args.program).resolve(), shim(pathlib.Path(folder))
        right = [refuse(program, library, name) for name in args.names]
    sys.exit(0 if all(right) else 1)


main()
