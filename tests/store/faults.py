#!/usr/bin/env python3
"""Lets each system call of a desk with a store fail in turn, and kills it at each, by strace.

    tests/store/faults.py PROGRAM [--long]

What was answered is in the store each time, and the store opens again. A call that fails while it is made leaves no store,
and the same words make it then, one without entries and one of a journal.
"""
import os
import shutil
import subprocess
import sys
import tempfile

import stores

CALLS = {
    "pwrite64": ["error=EIO", "error=ENOSPC", "signal=KILL"],
    "fdatasync": ["error=EIO", "signal=KILL"],
    "fsync": ["error=EIO", "signal=KILL"],
    "write": ["error=EIO", "signal=KILL"],
    "linkat,link": ["error=EIO", "error=EEXIST", "signal=KILL"],
    "unlinkat,unlink": ["error=EIO", "signal=KILL"],
    "ftruncate": ["error=EIO", "signal=KILL"],
    "flock": ["error=ENOLCK", "error=EAGAIN", "signal=KILL"],
    "pread64": ["error=EIO", "signal=KILL"],
}
LINES = [b"", b"slotdesk: store fault\n", b"slotdesk: write fault\n", b"slotdesk: store exists\n", b"slotdesk: store in use\n"]

# A journal of two entries, with which a store may begin.
KEPT = [(0, 2, b"TIME 2409010501"), (0, 2, b"OPEN RMZ01 ARR EDDF 2409011000 2409011200 20")]
JOURNAL = stores.HEAD.replace(b"STORE 1", b"JOURNAL 2") + b"".join(b"E 0 2 %d\n%s\n" % (len(text), text) for _, _, text in KEPT) + b"END 2\n"


def trial(slotdesk, path, call, how, when, journal):
    """One run in which the call fails or kills. Returns whether it was reached."""
    there = os.path.exists(path)
    held = stores.entries(open(path, "rb").read())[0] if there else KEPT if journal else []
    words = [] if there else ["--resume"] if journal else stores.START
    sent = stores.filings(when, 12)
    process = subprocess.Popen(
        ["strace", "-f", "-o", "/dev/null", "-e", "trace=" + call, "-e", "inject=%s:%s:when=%d" % (call, how, when),
         slotdesk, "--store", path, *words],
        stdin=subprocess.PIPE, stdout=subprocess.PIPE, stderr=subprocess.PIPE)
    if not there:
        try:
            process.stdin.write(journal)
        except BrokenPipeError:
            pass
    got = stores.file_by_threes(process, sent)
    line, status = process.stderr.read(), process.wait()
    if b"while loading shared libraries" in line:
        return True  # the call was the loader's, and the desk didn't begin
    assert line in LINES, (call, how, when, line)
    if not os.path.exists(path):
        assert not got, (call, how, when, "answered without a store")
        return status != 0
    now, _ = stores.entries(open(path, "rb").read())
    assert now[:len(held)] == held, (call, how, when, "entries are lost")
    assert [entry[2] for entry in now[len(held):]] == [filing.strip(b"\n") for filing in sent][:len(now) - len(held)]
    earlier = stores.told(slotdesk, held)
    assert stores.told(slotdesk, now)[len(earlier):].startswith(got), (call, how, when, "answered and not kept")
    return status != 0


def make_again(slotdesk, path, journal):
    """The same words make the store."""
    words = ["--resume"] if journal else stores.START
    done = subprocess.run([slotdesk, "--store", path, *words], input=journal, capture_output=True)
    assert done.returncode == 0 and os.listdir(os.path.dirname(path)) == ["store"], done
    assert stores.entries(open(path, "rb").read())[0] == (KEPT if journal else [])


def main():
    if not shutil.which("strace"):
        print("faults: strace isn't here, so no system call was made to fail")
        return
    slotdesk, most = os.path.abspath(sys.argv[1]), 40 if "--long" in sys.argv else 6
    count = 0
    rows = [(call, how, journal) for call, hows in CALLS.items() for how in hows for journal in (b"", JOURNAL)]
    with tempfile.TemporaryDirectory() as folder:
        path = os.path.join(folder, "store")
        for call, how, journal in rows:
            for when in range(1, most + 1):
                for old in (path, path + ".new"):
                    if os.path.exists(old):
                        os.remove(old)
                made = trial(slotdesk, path, call, how, when, journal)
                if not os.path.exists(path):
                    make_again(slotdesk, path, journal)
                gone_on = trial(slotdesk, path, call, how, when, journal)
                count += made + gone_on
                again = stores.store(slotdesk, path, input=b"TIME 2409010501\n")
                assert again.returncode == 0 and again.stdout, (call, how, when, again)
                if not made and not gone_on:
                    break
    print("faults: %d runs in which a system call failed or killed" % count)


if __name__ == "__main__":
    main()
