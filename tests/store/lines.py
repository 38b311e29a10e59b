#!/usr/bin/env python3
"""The lines, statuses and files of a desk with a store, each in its order.

    tests/store/lines.py PROGRAM
"""
import fcntl
import os
import pathlib
import subprocess
import sys
import tempfile

START = ["--start", "2409010500"]
HEAD = b"SLOTDESK STORE 1\nSETUP 2409010500 10 1000 1000000\n"
FPL = b"(FPL-AAA1-IS-A320/M-SDFG/LB1-LIML0800-N0450F350 DCT-EDDF0150-0)"
ENTRY = b"E 0 2 63\n" + FPL + b"\n"
TIME = b"E 0 2 15\nTIME 2409010501\n"
JOURNAL = b"SLOTDESK JOURNAL 2\nSETUP 2409010500 10 1000 1000000\n" + ENTRY + b"END 1\n"


class Folder:
    """A folder of its own for one row."""

    def __init__(self, program, folder):
        self.program, self.folder, self.failed = program, pathlib.Path(folder), []

    def clear(self):
        for path in self.folder.iterdir():
            path.rmdir() if path.is_dir() else path.unlink()

    def files(self):
        return sorted(path.name for path in self.folder.iterdir())

    def run(self, words, given=b"", status=0, output=b"", line=b"", name="", **after):
        """One run, and what it has to leave: `files` that are there, and the bytes of `store`, or one of several."""
        done = subprocess.run([self.program, *words], input=given, capture_output=True, cwd=self.folder, timeout=60)
        told = (done.returncode, done.stdout, done.stderr)
        if told != (status, output, line):
            self.failed.append("%s: %r, wanted %r" % (name, told, (status, output, line)))
        for what, wanted in after.items():
            found = self.files() if what == "files" else (self.folder / "store").read_bytes()
            if found not in (wanted if isinstance(wanted, tuple) else (wanted,)):
                self.failed.append("%s: %s %r, wanted %r" % (name, what, found, wanted))


def makes_and_goes_on(f):
    """A new store, its bytes, going on, and its journal."""
    f.run(["--store", "store", *START], name="no filing", store=HEAD + b"-", files=["store"])
    f.run(["--store", "store"], FPL, output=b"1 OK FPL 1\n", name="goes on", store=HEAD + ENTRY + b"-")
    f.run(["--store", "store"], b"TIME 2409010501\n", output=b"2 OK TIME\n", name="numbers go on", store=HEAD + ENTRY + TIME + b"-")
    f.run(["--store", "store", "--journal"], name="the journal of a store",
          output=JOURNAL.replace(b"END 1\n", TIME + b"END 2\n"))
    f.run(["--store", "store", "--taxi", "5", "--plans", "7"], FPL, output=b"3 NO 20 AlreadyHeld\n",
          name="taxi and plans are those of the store", store=HEAD + ENTRY + TIME + ENTRY + b"-")
    f.run(["--store", "store"], b"x" * 2001 + b"\n", output=b"- NO 90 TooLong\n", name="a line without an entry",
          store=HEAD + ENTRY + TIME + ENTRY + b"-")


def resumes(f):
    """A store of a journal."""
    f.run(["--store", "store", "--resume"], JOURNAL + b"TIME 2409010501\n", output=b"2 OK TIME\n", name="of a journal",
          store=HEAD + ENTRY + TIME + b"-", files=["store"])
    path, new = f.folder / "store", f.folder / "store.new"
    path.unlink()
    f.run(["--store", "store", "--resume"], JOURNAL[:-1], 1, line=b"slotdesk: bad journal\n", name="bad journal", files=[])
    new.write_bytes(HEAD + ENTRY + b"-")
    f.run(["--store", "store", "--resume"], JOURNAL + b"TIME 2409010501\n", output=b"2 OK TIME\n", name="made but for the link",
          store=HEAD + ENTRY + TIME + b"-", files=["store"])
    path.unlink()
    for other in (HEAD + ENTRY + b"-\n", HEAD + ENTRY, HEAD + ENTRY[:30], HEAD + ENTRY + TIME + b"-", HEAD + TIME + b"-", HEAD + b"E" + ENTRY[1:-9] + b"-"):
        new.write_bytes(other)
        f.run(["--store", "store", "--resume"], JOURNAL, 2, line=b"slotdesk: store exists\n", name="made by others %r" % other, files=["store.new"])
        assert new.read_bytes() == other, other


def damaged(f):
    """A store cut off at each byte, what stands after its gate, and what is no store."""
    whole, path = HEAD + ENTRY + TIME + b"-", f.folder / "store"
    for size in range(len(whole)):
        path.write_bytes(whole[:size])
        f.run(["--store", "store"], b"X\n", 1, line=b"slotdesk: bad store\n", name="cut at %d" % size, store=whole[:size])
    for after in (b"\n", b"-", b"E 0 2 1\nX\n-", b"\0" * 70):
        path.write_bytes(whole + after)
        kept = whole[:-1] + b"E 0 2 1\nX\n-"
        f.run(["--store", "store"], b"X\n", output=b"3 NO 30 BadOrder\n", name="after the gate %r" % after,
              store=kept + (whole + after)[len(kept):])
    for text in (whole.replace(b"STORE 1", b"STORE 2"), JOURNAL, b"-", b"\n" + whole, whole.replace(b"E 0 2 63", b"E 0 3 63"),
                 whole.replace(b"2 63", b"2 64"), whole.replace(b"1000000", b"1"), whole.replace(b"E 0", b"E 64"),
                 whole.replace(b"2409010500", b"2409310500"), whole[:-1] + b"END 2\n"):
        path.write_bytes(text)
        f.run(["--store", "store"], b"X\n", 1, line=b"slotdesk: bad store\n", name="no store: %r" % text[:60], store=text)


def refused(f):
    """Each line in its order: the command line, the start, what is at the name, the journal."""
    path, new = f.folder / "store", f.folder / "store.new"
    f.run(["--store", "store"], b"X\n", 2, line=b"slotdesk: no store\n", name="no store", files=[])
    f.run(["--store", "none/store"], b"X\n", 2, line=b"slotdesk: no store\n", name="no folder", files=[])
    f.run(["--store", "none/store", *START], b"X\n", 1, line=b"slotdesk: store fault\n", name="no folder for a new one", files=[])
    f.run(["--store", "none/store", "--resume"], b"X\n", 1, line=b"slotdesk: store fault\n", name="before the journal", files=[])
    path.write_bytes(HEAD + b"-")
    f.run(["--store", "store", "--start", "2409310500"], b"", 2, line=b"slotdesk: bad start\n", name="the start is first")
    f.run(["--store", "store", "--start", ""], b"", 2, line=b"slotdesk: bad start\n", name="an empty start")
    f.run(["--store", "store", *START], b"X\n", 2, line=b"slotdesk: store exists\n", name="exists", store=HEAD + b"-", files=["store"])
    f.run(["--store", "store", "--resume"], b"X\n", 2, line=b"slotdesk: store exists\n", name="exists before the journal")
    with open(path, "rb") as held:
        fcntl.flock(held, fcntl.LOCK_EX)
        f.run(["--store", "store"], b"X\n", 2, line=b"slotdesk: store in use\n", name="in use", store=HEAD + b"-")
    path.unlink()
    path.mkdir()
    f.run(["--store", "store"], b"X\n", 1, line=b"slotdesk: bad store\n", name="a folder")
    path.rmdir()
    os.mkfifo(path)
    f.run(["--store", "store"], b"X\n", 1, line=b"slotdesk: bad store\n", name="a pipe")
    path.unlink()
    for begun in (b"", HEAD[:7], HEAD[:30], HEAD, HEAD + b"-", HEAD + b"-junk"):
        new.write_bytes(begun)
        f.run(["--store", "store", *START], b"", name="made anew after %r" % begun, store=HEAD + b"-", files=["store"])
        path.unlink()
    for other in (b"mine", HEAD + ENTRY + b"-", HEAD + b"E", b"SLOTDESK STORE 2\n", HEAD[:-2] + b"x\n-"):
        new.write_bytes(other)
        f.run(["--store", "store", *START], b"X\n", 2, line=b"slotdesk: store exists\n", name="FILE.new %r" % other, files=["store.new"])
        assert new.read_bytes() == other, other
    new.unlink()
    with open(new, "wb") as held:
        fcntl.flock(held, fcntl.LOCK_EX)
        f.run(["--store", "store", *START], b"X\n", 2, line=b"slotdesk: store in use\n", name="FILE.new in use", files=["store.new"])
    new.unlink()
    path.write_bytes(HEAD + b"-")
    os.link(path, new)
    f.run(["--store", "store"], b"X\n", output=b"1 NO 30 BadOrder\n", name="a name that a crash has left", files=["store"])


def many_feeders(f):
    """Two feeders and a store: its bytes, going on, what is refused and when."""
    path, two, replayed = f.folder / "store", ["--feeders", "2"], b"REPLAY OK\n"
    both = (HEAD + ENTRY + other(ENTRY, 1) + b"-", HEAD + other(ENTRY, 1) + ENTRY + b"-")
    f.run(["--store", "store", *START, *two], output=replayed, name="two feeders, no filing", store=HEAD + b"-", files=["store"])
    f.run(["--store", "store", *two], FPL, output=b"1 OK FPL 1\n" + replayed, name="one of two files", store=HEAD + ENTRY + b"-")
    f.run(["--store", "store", *two, "--journal"], b"x" * 2001 + b"\nTIME 2409010501\n",
          output=b"- NO 90 TooLong\n2 OK TIME\n" + JOURNAL.replace(b"END 1\n", TIME + b"END 2\n") + replayed,
          name="a line without an entry, and the journal", store=HEAD + ENTRY + TIME + b"-")
    f.run(["--store", "store"], FPL, output=b"3 NO 20 AlreadyHeld\n", name="one feeder after two", store=HEAD + ENTRY + TIME + ENTRY + b"-")
    path.unlink()
    f.run(["--store", "store", *START, *two], FPL + FPL, output=b"1 OK FPL 1\n2 NO 20 AlreadyHeld\n" + replayed,
          name="both file", store=both, files=["store"])
    path.unlink()
    f.run(["--store", "store", "--resume", *two], JOURNAL + b"TIME 2409010501\n", output=b"2 OK TIME\n" + replayed,
          name="two feeders of a journal", store=HEAD + ENTRY + TIME + b"-", files=["store"])
    path.unlink()
    full = HEAD.replace(b" 1000000\n", b" 1\n")
    f.run(["--store", "store", "--resume", *two], full.replace(b"STORE 1", b"JOURNAL 2") + b"END 0\n" + FPL + FPL,
          output=b"1 OK FPL 1\n- NO 91 JournalFull\n" + replayed, name="a full journal of two feeders",
          store=(full + ENTRY + b"-", full + other(ENTRY, 1) + b"-"))
    path.unlink()


def few_feeders(f):
    """Fewer feeders than an entry's, and what is told before and after that."""
    path, two = f.folder / "store", ["--feeders", "2"]
    third = HEAD + other(ENTRY, 2) + b"-"
    journal = JOURNAL.replace(b"E 0", b"E 2")
    f.run(["--store", "store", *two], FPL, 2, line=b"slotdesk: no store\n", name="no store for two", files=[])
    f.run(["--store", "store", *two, "--start", "2409310500"], FPL, 2, line=b"slotdesk: bad start\n", name="two with a bad start", files=[])
    f.run(["--store", "store", "--resume", *two], journal[:-1], 1, line=b"slotdesk: bad journal\n", name="the journal is before its feeders", files=[])
    f.run(["--store", "store", "--resume", *two], journal + b"x" * 2001, 2, line=b"slotdesk: bad feeders\n", name="a journal of a third", files=[])
    path.write_bytes(third)
    f.run(["--store", "store", "--resume", *two], journal, 2, line=b"slotdesk: store exists\n", name="exists before its feeders", store=third)
    f.run(["--store", "store", *two], b"x" * 2001, 2, line=b"slotdesk: bad feeders\n", name="a store of a third", store=third, files=["store"])
    with open(path, "rb") as held:
        fcntl.flock(held, fcntl.LOCK_EX)
        f.run(["--store", "store", *two], FPL, 2, line=b"slotdesk: store in use\n", name="in use before its feeders", store=third)
    f.run(["--store", "store", "--feeders", "3"], output=b"REPLAY OK\n", name="three suffice", store=third)
    f.run(["--store", "store"], b"TIME 2409010501\n", output=b"2 OK TIME\n", name="one always does", store=third[:-1] + TIME + b"-")
    path.write_bytes(third[:-1])
    f.run(["--store", "store", *two], FPL, 1, line=b"slotdesk: bad store\n", name="damage is before the feeders", store=third[:-1])


def feeds(f):
    """Feeders that are answered as they file and a store: what is refused and when, and going on in each way."""
    path, words, replayed = f.folder / "store", ["--feeds", "feeds", "--store", "store"], b"REPLAY OK\n"
    (f.folder / "feeds").mkdir()

    def pairs(*filed):
        for name, given in zip("ab", filed):
            (f.folder / "feeds" / (name + ".in")).write_bytes(given)
            (f.folder / "feeds" / (name + ".out")).write_bytes(b"")

    pairs(FPL, b"")
    f.run(["--feeds", "feeds", "--store", "none/store"], b"", 2, line=b"slotdesk: no store\n", name="feeds, no folder", files=["feeds"])
    f.run(["--feeds", "feeds", "--store", "none/store", *START], b"", 1, line=b"slotdesk: store fault\n", name="feeds, no folder for a new one",
          files=["feeds"])
    f.run(["--feeds", "none", "--store", "none/store", *START], b"", 2, line=b"slotdesk: bad feeds\n", name="feeds before the store")
    f.run([*words, *START], output=b"1 OK FPL 1\n" + replayed, name="a new store of feeds", store=HEAD + ENTRY + b"-", files=["feeds", "store"])
    f.run(["--store", "store", "--feeders", "2"], b"TIME 2409010501\n", output=b"2 OK TIME\n" + replayed, name="two feeders after feeds",
          store=HEAD + ENTRY + TIME + b"-")
    pairs(b"", FPL)
    with open(path, "rb") as held:
        fcntl.flock(held, fcntl.LOCK_EX)
        f.run(words, b"", 2, line=b"slotdesk: store in use\n", name="feeds, in use", store=HEAD + ENTRY + TIME + b"-")
    f.run(words, output=b"3 NO 20 AlreadyHeld\n" + replayed, name="feeds after two feeders", store=HEAD + ENTRY + TIME + other(ENTRY, 1) + b"-")
    pairs(b"", b"")
    f.run([*words, "--journal"], output=JOURNAL.replace(b"END 1\n", TIME + other(ENTRY, 1) + b"END 3\n") + replayed, name="their journal",
          store=HEAD + ENTRY + TIME + other(ENTRY, 1) + b"-", files=["feeds", "store"])
    for end in ("in", "out"):
        (f.folder / "feeds" / ("b." + end)).unlink()
    f.run(words, b"", 2, line=b"slotdesk: bad feeders\n", name="a pair taken away", store=HEAD + ENTRY + TIME + other(ENTRY, 1) + b"-")
    path.write_bytes(HEAD + other(ENTRY, 1))
    f.run(words, b"", 1, line=b"slotdesk: bad store\n", name="damage is before the pairs")


def other(entry, feeder):
    """The entry as that of another feeder."""
    return b"E %d" % feeder + entry[3:]


def main():
    program, failed, count = os.path.abspath(sys.argv[1]), [], 0
    for rows in (makes_and_goes_on, resumes, damaged, refused, many_feeders, few_feeders, feeds):
        with tempfile.TemporaryDirectory() as folder:
            f = Folder(program, folder)
            rows(f)
            failed += f.failed
            count += 1
    for line in failed:
        print(line)
    print("lines: %d kinds of rows, %d rows failed" % (count, len(failed)))
    return 1 if failed else 0


if __name__ == "__main__":
    sys.exit(main())
