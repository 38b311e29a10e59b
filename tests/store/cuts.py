#!/usr/bin/env python3
"""Cuts the power of a desk with a store: records its system calls, and tries what a cut at each may leave on the disk.

    tests/store/cuts.py PROGRAM TRIES [SEED]

What wasn't synced may be there whole, in part, as zeros or as any bytes. Each file that a cut leaves is opened: it holds a
beginning of what was filed, and all that was answered. Then the recorded calls are spoilt in five ways, as a careless desk
would make them, and a cut has to be found that loses an answer or leaves no store.
"""
import os
import random
import re
import shutil
import subprocess
import sys
import tempfile

import stores

WRITE = re.compile(r'pwrite64\(\d+, "((?:\\x..)*)", \d+, (\d+)\)')
GIVE = re.compile(r'write\(1, "((?:\\x..)*)"')


def unescaped(text):
    return bytes.fromhex(text.replace("\\x", ""))


def recorded(slotdesk, folder, sent):
    """The calls of a desk that gets these filings, some at a time, and is waited for."""
    path, log = os.path.join(folder, "recorded"), os.path.join(folder, "calls")
    subprocess.run([slotdesk, "--store", path, *stores.START], stdin=subprocess.DEVNULL, check=True)
    before = open(path, "rb").read()
    process = subprocess.Popen(["strace", "-o", log, "-s", "400000", "-xx", "-e", "trace=pwrite64,fdatasync,write",
                                slotdesk, "--store", path], stdin=subprocess.PIPE, stdout=subprocess.PIPE)
    for burst in sent:
        process.stdin.write(b"".join(burst))
        process.stdin.flush()
        stores.read_answers(process.stdout, len(burst))
    process.stdin.close()
    process.wait()
    calls = []
    for line in open(log):
        write, give = WRITE.match(line), GIVE.match(line)
        if write:
            calls.append(("write", int(write[2]), unescaped(write[1])))
        elif line.startswith("fdatasync"):
            calls.append(("sync",))
        elif give:
            calls.append(("give", unescaped(give[1])))
    return before, calls


def spoilt(calls, how):
    """The calls of each group, a write, a sync, the opened gate, a sync and the answers, in another order."""
    first = next(index for index, call in enumerate(calls) if call[0] == "write")
    made = calls[:first]
    groups = [calls[at:at + 5] for at in range(first, len(calls), 5)]
    for row, staged, gate, opened, answers in groups:
        assert (row[0], staged[0], gate[0], opened[0], answers[0]) == ("write", "sync", "write", "sync", "give"), calls
        made += {
            "no first sync": [row, gate, opened, answers],
            "no last sync": [row, staged, gate, answers],
            "answers before the sync": [answers, row, staged, gate, opened],
            "gate and group in one write": [("write", gate[1], gate[2] + row[2]), staged, opened, answers],
            "no gate": [("write", row[1], row[2][:-1]), staged, gate, opened, answers],
        }[how]
    return made


def torn(rnd, image, at, data):
    """What a write that wasn't synced may leave: of one byte over another the one or the other."""
    if len(data) == 1 and at < len(image):
        return rnd.choice([image, image[:at] + data + image[at + 1:]])
    kind = rnd.randrange(6)
    part = {
        0: lambda: data[:rnd.randrange(len(data) + 1)],
        1: lambda: bytes(rnd.choice(b"E-2 0\n\x00") for _ in data),
        2: lambda: bytes(byte if rnd.random() < 0.5 else 0 for byte in data),
        3: lambda: data,
        4: lambda: b"",
        5: lambda: (b"E 0 2 0\n\n" * len(data))[:rnd.randrange(len(data) + 1)],
    }[kind]()
    new = image[:at] + part + image[at + len(part):]
    return new if len(new) >= len(image) else image


def cut(rnd, before, calls, at):
    """What may be on the disk after a cut before this call or in its midst, and what had been handed on."""
    image, since, given = before, [], b""
    for call in calls[:at]:
        if call[0] == "write":
            since.append(call)
        elif call[0] == "sync":
            for _, offset, data in since:
                image = image[:offset] + data + image[offset + len(data):]
            since = []
        else:
            given += call[1]
    if at < len(calls) and rnd.random() < 0.5:
        if calls[at][0] == "write":
            since.append(calls[at])
        elif calls[at][0] == "give":
            given += calls[at][1][:rnd.randrange(len(calls[at][1]) + 1)]
    for _, offset, data in since:
        image = torn(rnd, image, offset, data)
    return image, given


def harm(slotdesk, image, given, sent, answers):
    """What is wrong with what a cut has left, if anything is. `answers` has the answers to the first n filings, for each n."""
    try:
        kept, _ = stores.entries(image)
    except (AssertionError, ValueError):
        return "no store"
    if [entry[2] for entry in kept] != sent[:len(kept)]:
        return "not a beginning of what was filed"
    if not answers[len(kept)].startswith(given):
        return "answered and lost"
    return None


def main():
    if not shutil.which("strace"):
        print("cuts: strace isn't here, so no power was cut")
        return
    slotdesk, tries = os.path.abspath(sys.argv[1]), int(sys.argv[2])
    rnd = random.Random(int(sys.argv[3]) if len(sys.argv) > 3 else 1)
    made = stores.filings(rnd.randrange(1 << 30), 36)
    bursts, rest = [], made
    for count in [1, 2, 1, 5, 1, 23, 3]:
        bursts, rest = bursts + [rest[:count]], rest[count:]
    sent = [filing.strip(b"\n") for filing in made]
    answers = [stores.told(slotdesk, [(0, 2, text) for text in sent[:count]]) for count in range(len(sent) + 1)]
    opened, tried = set(), 0
    with tempfile.TemporaryDirectory() as folder:
        before, calls = recorded(slotdesk, folder, bursts)
        while tried < tries:
            image, given = cut(rnd, before, calls, rnd.randrange(len(calls) + 1))
            tried += 1
            wrong = harm(slotdesk, image, given, sent, answers)
            assert wrong is None, wrong
            if image in opened or len(opened) > tries / 4:
                continue
            opened.add(image)
            path = os.path.join(folder, "image")
            open(path, "wb").write(image)
            kept, _ = stores.entries(image)
            again = stores.store(slotdesk, path, input=b"TIME 2409012300\n")
            assert again.returncode == 0 and again.stdout.startswith(b"%d " % (len(kept) + 1)), (again, image)
            after, _ = stores.entries(open(path, "rb").read())
            assert after == kept + [(0, 2, b"TIME 2409012300")]
        for how in ["no first sync", "no last sync", "answers before the sync", "gate and group in one write", "no gate"]:
            wrong_calls = spoilt(calls, how)
            found = any(harm(slotdesk, *cut(rnd, before, wrong_calls, rnd.randrange(len(wrong_calls) + 1)), sent, answers)
                        for _ in range(max(tries, 4000)))
            assert found, "no cut shows that this loses something: " + how
    print("cuts: %d cuts, %d files opened; each of five spoilt orders loses something" % (tried, len(opened)))


if __name__ == "__main__":
    main()
