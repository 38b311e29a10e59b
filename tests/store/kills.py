#!/usr/bin/env python3
"""Kills a desk at random moments, many lives over one store.

    tests/store/kills.py PROGRAM LIVES [SEED]

After each life the store holds all entries from before and a beginning of what was sent, and all that was answered. Half
of the lives have one feeder, and half have four, of which none is answered before all entries are kept.
"""
import os
import random
import signal
import subprocess
import sys
import tempfile
import threading
import time

import stores

MOST_ENTRIES = 3000


def kill_at(process, path, rnd, got):
    """Kills a desk after some time, soon after its store has grown, or soon after it has answered."""
    sooner, until = rnd.random(), time.monotonic() + 60
    kind = rnd.choice(["time", "grown", "answered"])
    size = os.path.getsize(path) if os.path.exists(path) else len(stores.HEAD) + 1
    if kind == "time":
        time.sleep(rnd.choice([0.002, 0.01, 0.03, 0.1]) * sooner)
    while kind != "time" and process.poll() is None and time.monotonic() < until:
        if got if kind == "answered" else os.path.exists(path) and os.path.getsize(path) > size:
            time.sleep(rnd.choice([0, 0.0003, 0.002]) * sooner)
            break
    process.send_signal(signal.SIGKILL)


def live(slotdesk, path, rnd, sent, feeders):
    """A life: what was answered before the kill."""
    process = stores.begin(slotdesk, path, "--feeders", str(feeders))
    got = bytearray()

    def take():
        while True:
            part = os.read(process.stdout.fileno(), 65536)
            if not part:
                return
            got.extend(part)

    taker = threading.Thread(target=take)
    killer = threading.Thread(target=kill_at, args=(process, path, rnd, got))
    taker.start()
    killer.start()
    waits = feeders == 1 and rnd.random() < 0.4
    try:
        while sent:
            count = rnd.choice([1, 1, 2, 7, 100, 900])
            burst, sent = sent[:count], sent[count:]
            before = len(got)
            process.stdin.write(b"".join(burst))
            process.stdin.flush()
            while waits and len(got) == before and process.poll() is None:
                time.sleep(0.0001)
        process.stdin.close()
    except BrokenPipeError:
        pass
    process.wait()
    killer.join()
    taker.join()
    return bytes(got)


def main():
    slotdesk, lives = os.path.abspath(sys.argv[1]), int(sys.argv[2])
    seed = int(sys.argv[3]) if len(sys.argv) > 3 else 1
    rnd = random.Random(seed)
    answered, kept, behind = {1: 0, 4: 0}, {1: 0, 4: 0}, 0
    with tempfile.TemporaryDirectory() as folder:
        path, held = os.path.join(folder, "store"), []
        for life in range(lives):
            feeders = 4 if life % 2 else 1
            sent = stores.filings(rnd.randrange(1 << 30), 1200)
            got = live(slotdesk, path, rnd, list(sent), feeders)
            if not os.path.exists(path):
                assert not got and not held, "answered without a store"
                continue
            data = open(path, "rb").read()
            now, gate = stores.entries(data)
            assert now[:len(held)] == held, "entries of an earlier life are lost"
            new = now[len(held):]
            stores.expect_front(new, sent, feeders)
            stores.expect_answered(slotdesk, held, now, got, sent, feeders)
            answered[feeders] += len(got.split(b"\n")) - 1
            kept[feeders] += len(new)
            behind += data[gate + 1:] != b""
            held = now
            if len(held) > MOST_ENTRIES:
                os.remove(path)
                held = []
    for feeders in (1, 4):
        print("kills: %d lives, feeders: %d, lines answered: %d, entries kept: %d" % (lives // 2, feeders, answered[feeders], kept[feeders]))
    print("kills: bytes after the gate in %d of all lives" % behind)


if __name__ == "__main__":
    main()
