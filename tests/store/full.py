#!/usr/bin/env python3
"""A store that may not grow, and a full disk: what was answered is kept, and the store opens again.

    tests/store/full.py PROGRAM [--long]

The file is limited to each size in turn; with --long to each byte, and a file system of 64 KiB is filled, where one can be
mounted. With one feeder, and with four that are answered as they file.
"""
import os
import random
import resource
import signal
import subprocess
import sys
import tempfile

import pipes
import stores


def limited(size):
    def limit():
        signal.signal(signal.SIGXFSZ, signal.SIG_IGN)
        if size is not None:
            resource.setrlimit(resource.RLIMIT_FSIZE, (size, size))
    return limit


def fill(slotdesk, path, size):
    """Files until the store may not grow any more. Returns the status and how many lines were answered."""
    process = stores.begin(slotdesk, path, preexec_fn=limited(size))
    sent = stores.filings(size or 7, 2000)
    got = stores.file_by_threes(process, sent)
    status = process.wait()
    if not os.path.exists(path):
        assert not got, "answered without a store"
        return status
    kept, _ = stores.entries(open(path, "rb").read())
    assert [entry[2] for entry in kept] == [filing.strip(b"\n") for filing in sent][:len(kept)]
    assert stores.told(slotdesk, kept).startswith(got), "answered and not kept"
    return status


def fill_feeds(slotdesk, folder, path, size):
    """The same by four feeders that are answered as they file, and end with the line of a store."""
    feeds = os.path.join(folder, "feeds")
    os.mkdir(feeds)
    count = 100 if size else 500
    feeders = [pipes.Feeder(feeds, name, stores.filings(at, count), False, True) for at, name in enumerate(pipes.NAMES)]
    status, got, errors = pipes.run(slotdesk, path, feeds, feeders, random.Random(size), lambda *_: None, preexec_fn=limited(size))
    os.rmdir(feeds)
    assert errors == b"slotdesk: store fault\n", (size, errors)
    if not os.path.exists(path):
        assert not got and not any(feeder.got for feeder in feeders), "answered without a store"
        return status
    pipes.expect_kept(slotdesk, [], stores.entries(open(path, "rb").read())[0], feeders, got)
    return status


def main():
    slotdesk, is_long = os.path.abspath(sys.argv[1]), "--long" in sys.argv
    sizes = list(range(1, 400)) if is_long else list(range(1, 60, 7)) + [len(stores.HEAD) + 1, 100, 333]
    with tempfile.TemporaryDirectory() as folder:
        path = os.path.join(folder, "store")
        for size in sizes + [1000, 4096, 5000]:
            status = fill(slotdesk, path, size)
            assert status == 1, (size, status)
            again = stores.store(slotdesk, path, input=b"TIME 2409012300\n")
            assert again.returncode == 0 and again.stdout, (size, again)
            os.remove(path)
            fed = fill_feeds(slotdesk, folder, path, size)
            assert fed == 1, (size, fed)
            again = stores.store(slotdesk, path, input=b"TIME 2409012300\n")
            assert again.returncode == 0 and again.stdout, (size, again)
            os.remove(path)
        print("full: a file limited to each of %d sizes keeps what was answered" % (len(sizes) + 3))
        disk = os.path.join(folder, "disk")
        os.mkdir(disk)
        mounted = subprocess.run(["mount", "-t", "tmpfs", "-o", "size=64k", "tmpfs", disk], capture_output=True)
        if mounted.returncode != 0:
            print("full: no file system could be mounted, so none was filled")
            return
        try:
            status = fill(slotdesk, os.path.join(disk, "store"), None)
            assert status == 1, status
            os.remove(os.path.join(disk, "store"))
            status = fill_feeds(slotdesk, folder, os.path.join(disk, "store"), None)
            assert status == 1, status
            print("full: a file system of 64 KiB was filled, by one feeder and by four")
        finally:
            subprocess.run(["umount", disk], check=True)


if __name__ == "__main__":
    main()
