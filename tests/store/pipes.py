"""What the tests of stores over feeds share: feeders at named pipes, and what a store holds of what they filed."""
import os
import select
import selectors
import subprocess

import stores

NAMES = ["a", "b", "c", "d"]


class Feeder:
    """A feeder at its pipes: what it files, how much of that it has sent, and what it was answered."""

    def __init__(self, folder, name, filings, waits, is_read):
        self.filings, self.waits, self.got = filings, waits, bytearray()
        self.source, self.sink = (os.path.join(folder, name + end) for end in (".in", ".out"))
        for path in (self.source, self.sink):
            os.mkfifo(path)
        # Opened for both, so that neither waits for the desk.
        self.writer = os.open(self.source, os.O_RDWR | os.O_NONBLOCK)
        self.reader = os.open(self.sink, os.O_RDWR | os.O_NONBLOCK) if is_read else None
        self.sent, self.asked, self.rest = 0, 0, b""

    def send(self, count):
        """Sends what the pipe takes of the next filings, none before the last one is answered if it waits for that."""
        if not self.rest and (not self.waits or self.asked <= self.got.count(b"\n\n")):
            count = 1 if self.waits else count
            self.rest = b"".join(self.filings[self.asked:self.asked + count])
            self.asked = min(self.asked + count, len(self.filings))
        if self.rest:
            try:
                self.rest = self.rest[os.write(self.writer, self.rest):]
            except BlockingIOError:
                pass

    def has_filed(self):
        """Whether the desk has read all. The pipe of a desk that hasn't opened it yet would be lost if it were closed."""
        return self.asked == len(self.filings) and not self.rest and not select.select([self.writer], [], [], 0)[0]

    def receive(self):
        """Takes the answers that are there."""
        try:
            while True:
                self.got.extend(os.read(self.reader, 65536))
        except BlockingIOError:
            pass

    def end(self):
        """Closes the source: there is no more."""
        if self.writer is not None:
            os.close(self.writer)
            self.writer = None

    def leave(self):
        self.end()
        if self.reader is not None:
            self.receive()
            os.close(self.reader)
        os.remove(self.source)
        os.remove(self.sink)


def file_all(process, feeders, rnd, answered):
    """Files until the desk has ended. Returns what standard output got."""
    got, waiting = bytearray(), selectors.DefaultSelector()
    out = process.stdout.fileno()
    os.set_blocking(out, False)
    waiting.register(out, selectors.EVENT_READ)
    for feeder in feeders:
        if feeder.reader is not None:
            waiting.register(feeder.reader, selectors.EVENT_READ, feeder)
    is_open = True
    while is_open:
        for feeder in feeders:
            if feeder.writer is not None:
                feeder.send(rnd.choice([1, 1, 2, 7, 60]))
                if feeder.has_filed():
                    feeder.end()
        for key, _ in waiting.select(0.0005):
            if key.data:
                key.data.receive()
                answered.extend(key.data.got[:1])
                continue
            piece = os.read(out, 65536)
            got.extend(piece)
            is_open = bool(piece)
    waiting.close()
    return bytes(got)


def run(slotdesk, path, feeds, feeders, rnd, begun, **how):
    """A run of the desk with these feeders. Returns its status, and what standard output and standard error got.

    `begun` is called with the process and with bytes that are there as soon as anybody was answered.
    """
    start = [] if os.path.exists(path) else stores.START
    process = subprocess.Popen([slotdesk, "--feeds", feeds, "--store", path, *start], stdin=subprocess.DEVNULL,
                               stdout=subprocess.PIPE, stderr=subprocess.PIPE, **how)
    answered = bytearray()
    begun(process, answered)
    got = file_all(process, feeders, rnd, answered)
    errors = process.stderr.read()
    process.stdout.close()
    process.stderr.close()
    status = process.wait()
    for feeder in feeders:
        feeder.leave()
    return status, got, errors


def answers(told):
    """The answers in what a desk writes, each with its notices."""
    found = []
    for line in told.splitlines(keepends=True):
        if line.startswith(b"-TITLE"):
            found[-1] += line
        else:
            found.append(line)
    return found


def expect_kept(slotdesk, held, now, feeders, got):
    """What the store holds after a run over these entries, and what was answered in it. Returns how many answers were."""
    assert now[:len(held)] == held, "entries of an earlier life are lost"
    new = list(zip(now, answers(stores.told(slotdesk, now))))[len(held):]
    assert all(at < len(NAMES) for (at, _, _), _ in new), "an entry of no feeder"
    whole = b"".join(answer for _, answer in new)
    assert (whole + b"REPLAY OK\n").startswith(got), "on standard output and not kept, or answered otherwise"
    for at, feeder in enumerate(feeders):
        own = [(text, answer) for (number, _, text), answer in new if number == at]
        filed = [filing.strip(b"\n") for filing in feeder.filings]
        assert [text for text, _ in own] == filed[:len(own)], "not a beginning of what %s filed" % NAMES[at]
        told = b"".join(answer + b"\n" for _, answer in own)
        assert told.startswith(feeder.got), "answered to %s and not kept, or answered otherwise" % NAMES[at]
    return sum(feeder.got.count(b"\n\n") for feeder in feeders)
