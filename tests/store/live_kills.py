#!/usr/bin/env python3
"""Kills a desk whose feeders are answered as they file, at random moments, many lives over one store.

    tests/store/live_kills.py PROGRAM LIVES [SEED]

Four feeders file over named pipes: of some lives each waits for each answer, of the others they send many filings at once,
and of some nobody reads the answers of the last one. After each life the store holds all entries from before, of each feeder
a beginning of what it filed, and the entry of each answer of which a feeder or standard output got a byte.
"""
import os
import random
import sys
import tempfile
import threading

import kills
import pipes
import stores

MOST_ENTRIES = 3000


def live(slotdesk, path, feeds, rnd):
    """A life: its feeders, and what standard output had got before the kill."""
    waits, is_read = rnd.random() < 0.4, rnd.random() < 0.8
    feeders = []
    for at, name in enumerate(pipes.NAMES):
        filings = stores.filings(rnd.randrange(1 << 30), 400)
        feeders.append(pipes.Feeder(feeds, name, filings, waits, is_read or at < 3))
    killers = []

    def begun(process, answered):
        killers.append(threading.Thread(target=kills.kill_at, args=(process, path, random.Random(rnd.random()), answered)))
        killers[0].start()

    _, got, _ = pipes.run(slotdesk, path, feeds, feeders, rnd, begun)
    killers[0].join()
    return feeders, got


def main():
    slotdesk, lives = os.path.abspath(sys.argv[1]), int(sys.argv[2])
    rnd = random.Random(int(sys.argv[3]) if len(sys.argv) > 3 else 1)
    answered, kept, behind = 0, 0, 0
    with tempfile.TemporaryDirectory() as folder:
        path, feeds, held = os.path.join(folder, "store"), os.path.join(folder, "feeds"), []
        os.mkdir(feeds)
        for _ in range(lives):
            feeders, got = live(slotdesk, path, feeds, rnd)
            if not os.path.exists(path):
                assert not got and not any(feeder.got for feeder in feeders) and not held, "answered without a store"
                continue
            data = open(path, "rb").read()
            now, gate = stores.entries(data)
            answered += pipes.expect_kept(slotdesk, held, now, feeders, got)
            kept += len(now) - len(held)
            behind += data[gate + 1:] != b""
            held = now
            if len(held) > MOST_ENTRIES:
                os.remove(path)
                held = []
    print("live kills: %d lives, answers read: %d, entries kept: %d, bytes after the gate in %d lives" % (lives, answered, kept, behind))


if __name__ == "__main__":
    main()
