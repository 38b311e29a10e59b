#!/usr/bin/env python3
"""Runs the built program over feeds that wait, end, break and fail.

    tests/devices/feeds.py PROGRAM [--trips N] [--long]

- each of two terminals and two pairs of named pipes files one line after the other and is answered
  within a second, in its own file and on standard output, while the others stay silent and nobody
  has opened a fifth pair; that one is answered at the end; with a store, too, and what each is
  answered is in it then;
- 64 feeders have 65 threads, and none of them is waited for by another;
- a pipe that is opened for reading only after its filing gets its answer all the same;
- a feeder whose reader goes has its line at once, the others go on, and the status is 1 after the
  journal and REPLAY;
- standard output that is closed or full ends the run: its line comes at once, nobody is answered
  from then on, no journal and no REPLAY follow, and the process ends when each read has returned;
  so does a store that fails;
- if no thread can be made feeds are answered one after the other, with a store, too;
- a folder with a name that isn't UTF-8 is refused, and one with more than 64 pairs;
- a round trip through two named pipes takes at most a millisecond more than through `cat`, by the
  medians;
- with --long: 4,000,000,000 bytes of one feeder are read, and one more is a read fault, which
  another feeder doesn't meet.
Prints a line for each, and ends with 1 if one was otherwise.
"""
import argparse
import contextlib
import errno
import os
import pathlib
import pty
import resource
import select
import shutil
import signal
import statistics
import subprocess
import sys
import tempfile
import termios
import time

WORDS = ["--start", "2409010500"]
FILING = "(FPL-%s%d-IS-A320/M-SDFG/LB1-LIML%02d%02d-N0450F350 DCT-EDDF0150-0)\n"
SECOND, LIMIT = 1.0, 10.0
# A user that has no other processes.
OTHER_USER = 64_913


class Wrong(Exception):
    """What was otherwise than promised."""


def expect(is_so, what):
    if not is_so:
        raise Wrong(what)


def filing(name, count):
    return (FILING % (name, count, 6 + count // 60 % 12, count % 60)).encode()


def read_until(source, end, limit=SECOND):
    """The bytes to this end, or those that came within the limit."""
    stop, read = time.monotonic() + limit, b""
    while not read.endswith(end):
        ready, _, _ = select.select([source], [], [], max(0.0, stop - time.monotonic()))
        piece = os.read(source, 65536) if ready else b""
        if not piece:
            break
        read += piece
    return read


def read_rest(source):
    """All bytes until the end, which must come within the limit."""
    stop, read = time.monotonic() + LIMIT, b""
    while True:
        ready, _, _ = select.select([source], [], [], max(0.0, stop - time.monotonic()))
        expect(ready, "no end within %d seconds" % LIMIT)
        piece = os.read(source, 65536)
        if not piece:
            return read
        read += piece


def make_pipes(folder, *names):
    for name in names:
        os.mkfifo(folder / (name + ".in"))
        os.mkfifo(folder / (name + ".out"))


def reader_of(folder, name):
    """The reader of a pipe, which doesn't wait for a writer."""
    return os.open(folder / (name + ".out"), os.O_RDONLY | os.O_NONBLOCK)


def writer_of(folder, name):
    """The writer of a pipe, as soon as the desk reads there."""
    stop = time.monotonic() + LIMIT
    while time.monotonic() < stop:
        try:
            writer = os.open(folder / (name + ".in"), os.O_WRONLY | os.O_NONBLOCK)
        except OSError as error:
            if error.errno != errno.ENXIO:
                raise
            time.sleep(0.001)
            continue
        os.set_blocking(writer, True)
        return writer
    raise Wrong("%s.in isn't opened" % name)


def make_terminal(folder, name):
    """A terminal under both names of a feeder, and its other side. Ctrl-D ends its input."""
    ours, theirs = pty.openpty()
    way = termios.tcgetattr(theirs)
    way[1] &= ~termios.OPOST
    way[3] &= ~termios.ECHO
    termios.tcsetattr(theirs, termios.TCSANOW, way)
    for end in (".in", ".out"):
        os.symlink(os.ttyname(theirs), folder / (name + end))
    return ours, theirs


@contextlib.contextmanager
def desk(program, folder, *words, stdout=subprocess.PIPE, **how):
    words = [program, *WORDS, "--feeds", str(folder), *words]
    how |= {"stdin": subprocess.DEVNULL, "stdout": stdout, "stderr": subprocess.PIPE}
    with subprocess.Popen(words, bufsize=0, **how) as child:
        try:
            yield child
        finally:
            child.kill()


def stored(store):
    """The words for a store, if there is one."""
    return [] if store is None else ["--store", str(store)]


def ask(sink, source, text, what):
    """Files a text, and returns its answer, which must come within a second."""
    os.write(sink, text)
    answer = read_until(source, b"\n\n")
    expect(answer.endswith(b"\n\n"), "%s: NOT ANSWERED within a second, got %r" % (what, answer))
    return answer


def ended(child, status, what):
    try:
        found = child.wait(LIMIT)
    except subprocess.TimeoutExpired:
        raise Wrong("%s: no end" % what) from None
    expect(found == status, "%s: status %d, wanted %d" % (what, found, status))


def silent_others(program, folder, store=None):
    """Each of four feeders is answered while the others are silent."""
    make_pipes(folder, "pa", "pb", "late")
    terminals = {name: make_terminal(folder, name) for name in ("ta", "tb")}
    with desk(program, folder, *stored(store)) as child:
        out = child.stdout.fileno()
        ends = {name: (ours, ours) for name, (ours, _) in terminals.items()}
        for name in ("pa", "pb"):
            ends[name] = writer_of(folder, name), reader_of(folder, name)
        longest, entry = 0.0, 0
        for count in range(1, 26):
            for name in ("ta", "pa", "pb", "tb"):
                entry += 1
                begin = time.monotonic()
                answer = ask(*ends[name], filing(name.upper(), count), name)
                longest = max(longest, time.monotonic() - begin)
                wanted = b"%d OK FPL %d\n" % (entry, entry)
                expect(answer == wanted + b"\n", "%s got %r, wanted %r" % (name, answer, wanted))
                told = read_until(out, wanted)
                expect(told == wanted, "standard output got %r, wanted %r" % (told, wanted))
                kept = store is None or filing(name.upper(), count).strip() in store.read_bytes()
                expect(kept, "%s was answered and isn't in the store" % name)
        sink, source = writer_of(folder, "late"), reader_of(folder, "late")
        expect(ask(sink, source, filing("L", 1), "late") == b"101 OK FPL 101\n\n", "late")
        for name in ("ta", "tb"):
            os.write(ends[name][0], b"\x04")
        for pipe in (ends["pa"][0], ends["pb"][0], sink):
            os.close(pipe)
        rest = read_rest(out)
        expect(rest == b"101 OK FPL 101\nREPLAY OK\n", "standard output ends with %r" % rest)
        ended(child, 0, "the desk")
        expect(child.stderr.read() == b"", "a line on standard error")
    return "each of 101 filings answered, longest %.1f ms" % (1000 * longest)


def threads_of(child):
    lines = pathlib.Path("/proc/%d/status" % child.pid).read_text().splitlines()
    return int(next(line for line in lines if line.startswith("Threads:")).split()[1])


def own_threads(program, folder):
    """64 feeders have 65 threads: the last is answered while nobody has opened the others."""
    names = ["f%02d" % count for count in range(64)]
    make_pipes(folder, *names)
    with desk(program, folder) as child:
        stop, seen = time.monotonic() + LIMIT, set()
        while 65 not in seen and time.monotonic() < stop:
            seen.add(threads_of(child))
            time.sleep(0.01)
        sink, source = writer_of(folder, names[-1]), reader_of(folder, names[-1])
        expect(ask(sink, source, filing("A", 1), names[-1]) == b"1 OK FPL 1\n\n", names[-1])
        seen.add(threads_of(child))
        expect(max(seen) == 65, "%d threads, wanted 65" % max(seen))
    return "65 threads for 64 feeders"


def late_reader(program, folder):
    """Answers wait for the reader of their pipe."""
    make_pipes(folder, "a", "b")
    with desk(program, folder) as child:
        sink = writer_of(folder, "a")
        os.write(sink, filing("A", 1))
        os.close(sink)
        expect(read_until(child.stdout.fileno(), b"\n") == b"1 OK FPL 1\n", "standard output")
        other = writer_of(folder, "b")
        answer = ask(other, reader_of(folder, "b"), filing("B", 1), "b")
        expect(answer == b"2 OK FPL 2\n\n", "b got %r" % answer)
        os.close(other)
        answer = read_rest(os.open(folder / "a.out", os.O_RDONLY))
        expect(answer == b"1 OK FPL 1\n\n", "a got %r" % answer)
        rest = read_rest(child.stdout.fileno())
        expect(rest == b"2 OK FPL 2\nREPLAY OK\n", "standard output ends with %r" % rest)
        ended(child, 0, "the desk")
    return "answered when its reader came"


def broken_reader(program, folder):
    """A feeder whose reader goes ends alone."""
    make_pipes(folder, "a", "broken", "c")
    with desk(program, folder, "--journal") as child:
        names = ("a", "broken", "c")
        ends = {name: (writer_of(folder, name), reader_of(folder, name)) for name in names}
        ask(*ends["broken"], filing("B", 1), "broken")
        os.close(ends["broken"][1])
        os.write(ends["broken"][0], filing("B", 2))
        line = read_until(child.stderr.fileno(), b"\n")
        expect(line == b"slotdesk: feeder broken: write fault\n", "standard error got %r" % line)
        for count in range(1, 101):
            for name in ("a", "c"):
                ask(*ends[name], filing(name.upper(), count), name)
        for name in ("a", "c"):
            os.close(ends[name][0])
        lines = read_rest(child.stdout.fileno()).split(b"\n")
        front, end = lines[:2], lines[-3:]
        expect(front == [b"1 OK FPL 1", b"2 OK FPL 2"], "standard output begins with %r" % front)
        expect(end == [b"END 202", b"REPLAY OK", b""], "standard output ends with %r" % end)
        ended(child, 1, "the desk")
        expect(child.stderr.read() == b"", "a second line on standard error")
    return "told at once, and 200 filings of two others answered"


def ends_all(program, folder, line, unanswered, *words, **how):
    """A fault of the run has its line at once, and nobody is answered from then on."""
    make_pipes(folder, "a", "b")
    with desk(program, folder, "--journal", *words, **how) as child:
        names = ("a", "b")
        ends = {name: (writer_of(folder, name), reader_of(folder, name)) for name in names}
        os.write(ends["a"][0], filing("A", 1))
        told = read_until(child.stderr.fileno(), b"\n")
        expect(told == line, "standard error got %r" % told)
        time.sleep(0.2)
        expect(child.poll() is None, "an end before each read has returned")
        os.write(ends["b"][0], filing("B", 1))
        for name in unanswered:
            answer = read_until(ends[name][1], b"\n\n", 0.3)
            expect(answer == b"", "%s was answered %r" % (name, answer))
        for name in names:
            os.close(ends[name][0])
        ended(child, 1, "the desk")
        expect(child.stderr.read() == b"", "a second line on standard error")
        output = child.stdout.read() if child.stdout else b""
        expect(output == b"", "standard output got %r" % output)
    return "told at once, and nobody answered from then on"


def failing_output(program, folder, device):
    """Standard output that fails ends the run."""
    return ends_all(program, folder, b"slotdesk: write fault\n", ("b",), stdout=device)


def closed_output(program, folder):
    ours, theirs = os.pipe()
    os.close(ours)
    try:
        return failing_output(program, folder, theirs)
    finally:
        os.close(theirs)


def full_output(program, folder):
    with open("/dev/full", "wb", buffering=0) as full:
        return failing_output(program, folder, full)


def let_no_file_grow():
    """Lets a store be made, and no entry be added."""
    signal.signal(signal.SIGXFSZ, signal.SIG_IGN)
    resource.setrlimit(resource.RLIMIT_FSIZE, (60, 60))


def failing_store(program, folder):
    """A store that fails ends the run, and the filing that it didn't take isn't answered."""
    words = stored(folder / "desk.store")
    line, both = b"slotdesk: store fault\n", ("a", "b")
    return ends_all(program, folder, line, both, *words, preexec_fn=let_no_file_grow)


def make_no_thread():
    """Lets the process make none: as a user of its own, if it is root's, whom no limit binds."""
    if os.geteuid() == 0:
        os.setgroups([])
        os.setgid(OTHER_USER)
        os.setuid(OTHER_USER)
    resource.setrlimit(resource.RLIMIT_NPROC, (1, 1))


def no_threads(program, folder, store=None):
    """If no thread can be made, feeds are answered one after the other."""
    own = shutil.copy(program, folder / "slotdesk")
    os.chmod(folder, 0o755)
    (folder / "feeds").mkdir()
    os.chmod(folder / "feeds", 0o777)
    for name in ("a", "b", "c"):
        filed = filing(name.upper(), 1) + filing(name.upper(), 2)
        for end, text in ((".in", filed), (".out", b"")):
            (folder / "feeds" / (name + end)).write_bytes(text)
            os.chmod(folder / "feeds" / (name + end), 0o666)
    pipe, words = subprocess.PIPE, [own, *WORDS, "--feeds", str(folder / "feeds"), *stored(store)]
    with subprocess.Popen(words, stdout=pipe, stderr=pipe, preexec_fn=make_no_thread) as child:
        try:
            output, errors = child.communicate(timeout=LIMIT)
        except subprocess.TimeoutExpired:
            child.kill()
            raise Wrong("no end within %d seconds" % LIMIT) from None
    wanted = b"".join(b"%d OK FPL %d\n" % (entry, entry) for entry in range(1, 7)) + b"REPLAY OK\n"
    found = child.returncode, output, errors
    expect(found == (0, wanted, b""), "status %d, %r, %r" % found)
    answers = [(folder / "feeds" / (name + ".out")).read_bytes() for name in ("a", "b", "c")]
    wanted = [b"%d OK FPL %d\n\n%d OK FPL %d\n\n" % (at, at, at + 1, at + 1) for at in (1, 3, 5)]
    expect(sorted(answers) == wanted, "answers %r" % answers)
    kept = 6 if store is None else store.read_bytes().count(b"\nE ")
    expect(kept == 6, "%d entries are in the store" % kept)
    return "answered one after the other"


def name_not_text(program, folder):
    """A name that isn't UTF-8 is refused, whatever its end."""
    make_pipes(folder, "a")
    (pathlib.Path(os.fsdecode(os.fsencode(folder) + b"/\xff.txt"))).touch()
    with desk(program, folder) as child:
        ended(child, 2, "the desk")
        line = child.stderr.read()
        expect(line == b"slotdesk: bad feeds\n", "standard error got %r" % line)
    return "refused"


def most_pairs(program, folder):
    """64 pairs are feeders 0 to 63, and one more is refused."""
    for count in range(64):
        (folder / ("f%02d.in" % count)).touch()
        (folder / ("f%02d.out" % count)).touch()
    (folder / "f63.in").write_bytes(b"TIME 2409010501\n")
    with desk(program, folder, "--journal") as child:
        lines = read_rest(child.stdout.fileno()).split(b"\n")
        ended(child, 0, "64 pairs")
    expect(lines[3] == b"E 63 2 15", "the entry is %r" % lines[3])
    for end in (".in", ".out"):
        (folder / ("g" + end)).touch()
    with desk(program, folder) as child:
        ended(child, 2, "65 pairs")
        line = child.stderr.read()
        expect(line == b"slotdesk: bad feeds\n", "standard error got %r" % line)
    return "64, and one more is refused"


def ends_at(program, folder, size, status, errors):
    """A feeder of which this many bytes come, none of which ends a frame, beside another one."""
    for name, length in (("a.in", size), ("a.out", 0), ("b.out", 0)):
        (folder / name).touch()
        os.truncate(folder / name, length)
    (folder / "b.in").write_bytes(filing("B", 1))
    words = [program, *WORDS, "--feeds", str(folder)]
    done = subprocess.run(words, stdin=subprocess.DEVNULL, capture_output=True, timeout=60 * LIMIT)
    expect(done.stdout == b"1 OK FPL 1\nREPLAY OK\n", "standard output %r" % done.stdout)
    found = done.returncode, done.stderr, (folder / "a.out").read_bytes()
    wanted = status, errors, b"" if status else b"- NO 90 TooLong\n\n"
    expect(found == wanted, "%d bytes: %r, wanted %r" % (size, found, wanted))
    expect((folder / "b.out").read_bytes() == b"1 OK FPL 1\n\n", "b")


def most_bytes(program, folder):
    ends_at(program, folder, 4_000_000_000, 0, b"")
    ends_at(program, folder, 4_000_000_001, 1, b"slotdesk: feeder a: read fault\n")
    return "one more is a read fault"


def trips(ends, count, end):
    """The median of so many round trips, in seconds."""
    waits, poll = [], select.poll()
    poll.register(ends[1], select.POLLIN)
    for _ in range(count):
        text = b"TIME 2409010500\n"
        begin = time.monotonic()
        os.write(ends[0], text)
        read = b""
        while not read.endswith(end):
            expect(poll.poll(1000 * SECOND), "no answer within a second")
            read += os.read(ends[1], 65536)
        waits.append(time.monotonic() - begin)
    return statistics.median(waits)


def round_trip(program, folder, count):
    make_pipes(folder, "a")
    with desk(program, folder, stdout=subprocess.DEVNULL):
        ends = writer_of(folder, "a"), reader_of(folder, "a")
        ours = trips(ends, count, b"\n\n")
        for end in ends:
            os.close(end)
    copy = "exec cat < '%s' > '%s'" % (folder / "a.in", folder / "a.out")
    with subprocess.Popen(["sh", "-c", copy]) as child:
        source = reader_of(folder, "a")
        theirs = trips((writer_of(folder, "a"), source), count, b"\n")
        child.kill()
    more = 1e6 * (ours - theirs)
    expect(more < 1000, "%.0f microseconds more than cat" % more)
    return "median of %d is %.1f microseconds, %.1f more than cat's" % (count, 1e6 * ours, more)


def main():
    way = argparse.RawDescriptionHelpFormatter
    parser = argparse.ArgumentParser(description=__doc__, formatter_class=way)
    parser.add_argument("program")
    parser.add_argument("--trips", type=int, default=10_000)
    parser.add_argument("--long", action="store_true")
    args = parser.parse_args()
    program, failed = str(pathlib.Path(args.program).resolve()), 0
    ways = {
        "others silent": silent_others,
        "others silent, with a store": lambda program, folder: silent_others(
            program, folder, folder / "desk.store"
        ),
        "threads": own_threads,
        "a late reader": late_reader,
        "a broken reader": broken_reader,
        "standard output closed": closed_output,
        "standard output full": full_output,
        "a store that fails": failing_store,
        "no threads": no_threads,
        "no threads, with a store": lambda program, folder: no_threads(
            program, folder, folder / "feeds" / "desk.store"
        ),
        "a name that isn't UTF-8": name_not_text,
        "the most pairs": most_pairs,
        "round trip": lambda program, folder: round_trip(program, folder, args.trips),
    }
    if args.long:
        ways["the most bytes"] = most_bytes
    for name, way in ways.items():
        with tempfile.TemporaryDirectory() as folder:
            try:
                print("feeds, %s: %s" % (name, way(program, pathlib.Path(folder))))
            except Wrong as wrong:
                failed += 1
                print("feeds, %s: WRONG: %s" % (name, wrong))
    return 1 if failed else 0


if __name__ == "__main__":
    sys.exit(main())
