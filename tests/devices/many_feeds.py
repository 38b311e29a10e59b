#!/usr/bin/env python3
"""Lets 64 feeders file over named pipes at the built program, and looks at journal and answers.

    tests/devices/many_feeds.py PROGRAM [--filings N] [--store]

One reads no answer until the others have all of theirs, one stops reading in the middle, and one is
killed there. The desk must end with status 1 and the line of the feeder that stopped. For each
feeder the entries of the journal must be the first of its filings, and all of them but for the
broken and the killed one; what it was answered must be the answers to its entries, or a beginning
of them. Standard output must be the answers that a desk with one feeder gives to the texts of the
journal. With --store the desk has one, which must hold the entries of the journal. Prints how many
were filed and how long it took, and ends with 1 if anything was otherwise.
"""
import argparse
import fcntl
import os
import pathlib
import re
import subprocess
import sys
import tempfile
import threading
import time

FEEDERS = 64
SLOW, BROKEN, KILLED = 7, 21, 42
WORDS = ["--start", "2409010500", "--plans", "20000"]
HEAD, STORE_HEAD = b"SLOTDESK JOURNAL 2\n", b"SLOTDESK STORE 1\n"
LIMIT = 600
# Files one text after the other, and waits for the answer to each. After the count of answers that
# is given it reads no more.
WAITING = r"""
import os, sys
path, most = sys.argv[1], int(sys.argv[2])
sink, source = os.open(path + ".in", os.O_WRONLY), None
for count, text in enumerate(open(path + ".texts", "rb")):
    os.write(sink, text)
    if count == 0:
        source = os.open(path + ".out", os.O_RDONLY)
    if count == most:
        os.close(source)
    answer = b""
    while count < most and not answer.endswith(b"\n\n"):
        answer += os.read(source, 65536)
    os.write(1, answer)
"""


def name_of(feeder):
    return "feeder-%02d" % feeder


def texts_of(feeder, count):
    """The filings of a feeder: flight plans under a regulation, their delays, and the time."""
    flight = "%c%c" % (65 + feeder // 26, 65 + feeder % 26)
    texts = ["OPEN RMZ01 ARR EDDF 2409010700 2409020600 240"]
    for number in range(count - 1):
        off_block = "LIML%02d%02d" % (6 + number // 60 % 16, number % 60)
        if number % 5 == 4:
            texts.append("(DLA-%s%d-%s-EDDF)" % (flight, number - 1, off_block))
        elif number % 50 == 48:
            texts.append("TIME 2409010%d%02d" % (5 + number // 60 % 4, number % 60))
        else:
            words = flight, number, off_block
            texts.append("(FPL-%s%d-IS-A320/M-SDFG/LB1-%s-N0450F350 DCT-EDDF0150-0)" % words)
    return [text.encode() for text in texts]


def answers_of(folder, feeder):
    """The answers that a feeder has read."""
    path = folder / (name_of(feeder) + ".answers")
    return path.read_bytes() if path.exists() else b""


def answers_in(folder, feeder):
    """How many of them there are."""
    return answers_of(folder, feeder).count(b"\n\n")


def read_slowly(folder, may_read):
    """Reads the answers of the slow feeder, of which its pipe holds a page, when it may."""
    source = os.open(folder / (name_of(SLOW) + ".out"), os.O_RDONLY | os.O_NONBLOCK)
    fcntl.fcntl(source, fcntl.F_SETPIPE_SZ, 4096)
    may_read.wait()
    os.set_blocking(source, True)
    with open(folder / (name_of(SLOW) + ".answers"), "wb") as answers:
        while piece := os.read(source, 4096):
            answers.write(piece)
    os.close(source)


def wait_until(is_so, child):
    """Waits until something is so. Returns whether it came while the desk ran."""
    stop = time.monotonic() + LIMIT
    while not is_so():
        if child.poll() is not None or time.monotonic() > stop:
            return is_so()
        time.sleep(0.005)
    return True


def start_feeders(folder, texts):
    """The processes of all feeders, by feeder."""
    processes = {feeder: [] for feeder in range(FEEDERS)}
    for feeder, started in processes.items():
        path = str(folder / name_of(feeder))
        pathlib.Path(path + ".texts").write_bytes(b"".join(text + b"\n" for text in texts[feeder]))
        if feeder in (BROKEN, KILLED):
            most = len(texts[feeder]) // 2 if feeder == BROKEN else len(texts[feeder])
            words = [sys.executable, "-c", WAITING, path, str(most)]
            with open(path + ".answers", "wb") as answers:
                started.append(subprocess.Popen(words, stdout=answers))
            continue
        started.append(subprocess.Popen(["sh", "-c", 'exec cat "$0.texts" > "$0.in"', path]))
        if feeder != SLOW:
            copy = 'exec cat < "$0.out" > "$0.answers"'
            started.append(subprocess.Popen(["sh", "-c", copy, path]))
    return processes


def feed(program, folder, texts, store):
    """Runs the desk. Returns its status, None if it doesn't end, its lines of faults, whether none
    waited for another, and how long it took."""
    for feeder in range(FEEDERS):
        os.mkfifo(folder / (name_of(feeder) + ".in"))
        os.mkfifo(folder / (name_of(feeder) + ".out"))
    begin = time.monotonic()
    with open(folder / "output", "wb") as output, open(folder / "errors", "wb") as errors:
        words = [program, *WORDS, "--journal", "--feeds", str(folder)]
        words += ["--store", str(store)] if store else []
        silent = subprocess.DEVNULL
        child = subprocess.Popen(words, stdin=silent, stdout=output, stderr=errors)
    may_read = threading.Event()
    reader = threading.Thread(target=read_slowly, args=(folder, may_read), daemon=True)
    reader.start()
    processes = start_feeders(folder, texts)
    try:
        half = len(texts[KILLED]) // 2
        wait_until(lambda: answers_in(folder, KILLED) >= half, child)
        processes[KILLED][0].kill()
        sound = [feeder for feeder in range(FEEDERS) if feeder not in (SLOW, BROKEN, KILLED)]
        free = all(
            wait_until(lambda: answers_in(folder, feeder) == len(texts[feeder]), child)
            for feeder in sound
        )
        free = free and child.poll() is None
        may_read.set()
        status = child.wait(LIMIT)
        reader.join(LIMIT)
    except subprocess.TimeoutExpired:
        status = None
    finally:
        child.kill()
        for process in sum(processes.values(), []):
            process.kill()
            process.wait()
    return status, (folder / "errors").read_bytes(), free, time.monotonic() - begin


def entries_of(journal):
    """The feeder and the text of each entry of a journal's text, and what follows its END."""
    entries, at = [], journal.index(b"\n", len(HEAD)) + 1
    while journal.startswith(b"E ", at):
        line = journal.index(b"\n", at)
        feeder, _, length = map(int, journal[at + 2:line].split())
        entries.append((feeder, journal[line + 1:line + 1 + length]))
        at = line + 1 + length + 1
    return entries, journal[at:]


def findings(program, folder, texts, store, status, errors, free):
    """What was otherwise than promised."""
    if not free:
        yield "somebody waited for the slow one"
    told = {("slotdesk: feeder %s: write fault" % name_of(it)).encode() for it in (BROKEN, KILLED)}
    lines = errors.splitlines()
    if status != 1 or sorted(set(lines)) != sorted(lines) or not {min(told)} <= set(lines) <= told:
        yield "status %s, standard error %r" % (status, errors)
    output, head, journal = (folder / "output").read_bytes().partition(HEAD)
    if not head:
        yield "no journal"
        return
    entries, end = entries_of(head + journal)
    if end != b"END %d\nREPLAY OK\n" % len(entries):
        yield "the journal ends with %r" % end[-100:]
    if store and not store.read_bytes().startswith(STORE_HEAD + journal.removesuffix(end) + b"-"):
        yield "the store hasn't the entries of the journal"
    answers = re.split(rb"^(?=\d)", output, flags=re.M)[1:]
    if len(answers) != len(entries):
        yield "%d answers to %d entries" % (len(answers), len(entries))
        return
    filed = b"".join(text + b"\n" for _, text in entries)
    one = subprocess.run([program, *WORDS], input=filed, capture_output=True, timeout=LIMIT)
    if one.stdout != output:
        yield "a desk with one feeder answers the journal otherwise"
    own = [[] for _ in range(FEEDERS)]
    for (feeder, text), answer in zip(entries, answers):
        own[feeder].append((text, answer))
    for feeder in range(FEEDERS):
        yield from findings_of(folder, feeder, texts[feeder], own[feeder])


def findings_of(folder, feeder, texts, own):
    if [text for text, _ in own] != texts[:len(own)]:
        yield "%s: its entries aren't the first of its filings" % name_of(feeder)
    whole, read = b"".join(answer + b"\n" for _, answer in own), answers_of(folder, feeder)
    end = name_of(feeder), len(own), len(texts), read[-100:]
    if feeder in (BROKEN, KILLED):
        if not read or not whole.startswith(read):
            yield "%s: %d of %d filings entered, not answered so: %r" % end
    elif len(own) != len(texts) or read != whole:
        yield "%s: %d of %d filings entered, answered %r" % end


def main():
    way = argparse.RawDescriptionHelpFormatter
    parser = argparse.ArgumentParser(description=__doc__, formatter_class=way)
    parser.add_argument("program")
    parser.add_argument("--filings", type=int, default=20_000)
    parser.add_argument("--store", action="store_true")
    args = parser.parse_args()
    program = str(pathlib.Path(args.program).resolve())
    texts = [texts_of(feeder, args.filings // FEEDERS) for feeder in range(FEEDERS)]
    with tempfile.TemporaryDirectory() as place:
        folder = pathlib.Path(place)
        store = folder / "desk.store" if args.store else None
        status, errors, free, wall = feed(program, folder, texts, store)
        found = list(findings(program, folder, texts, store, status, errors, free))
    for finding in found[:20]:
        print("many feeds: %s" % finding)
    end = sum(map(len, texts)), FEEDERS, wall, len(found)
    print("many feeds: %d filings of %d feeders, %.1f s, %d findings" % end)
    return 1 if found else 0


if __name__ == "__main__":
    sys.exit(main())
