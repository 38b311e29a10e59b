#!/usr/bin/env python3
"""Two desks that make one store at the same time: one makes it, the other says so.

    tests/store/makers.py PROGRAM TIMES
"""
import os
import subprocess
import sys
import tempfile

import stores

TOLD = [b"slotdesk: store exists\n", b"slotdesk: store in use\n"]


def main():
    slotdesk, times = os.path.abspath(sys.argv[1]), int(sys.argv[2])
    told = {line: 0 for line in TOLD}
    with tempfile.TemporaryDirectory() as folder:
        path = os.path.join(folder, "store")
        for _ in range(times):
            both = [subprocess.Popen([slotdesk, "--store", path, *stores.START], stdin=subprocess.PIPE,
                                     stdout=subprocess.PIPE, stderr=subprocess.PIPE) for _ in range(2)]
            done = [process.communicate(b"TIME 2409010501\n") for process in both]
            won = [at for at in range(2) if both[at].returncode == 0]
            assert len(won) == 1, [(both[at].returncode, done[at]) for at in range(2)]
            lost = 1 - won[0]
            assert done[won[0]] == (b"1 OK TIME\n", b""), done
            assert both[lost].returncode == 2 and done[lost][0] == b"" and done[lost][1] in TOLD, done
            told[done[lost][1]] += 1
            kept, _ = stores.entries(open(path, "rb").read())
            assert kept == [(0, 2, b"TIME 2409010501")] and os.listdir(folder) == ["store"], (kept, os.listdir(folder))
            os.remove(path)
    print("makers: %d times one of two made the store; the other was told: %s"
          % (times, ", ".join("%s %d" % (line.decode().strip(), count) for line, count in told.items())))


if __name__ == "__main__":
    main()
