"""Runs the samples by the program."""
import pathlib
import shutil
import subprocess
import tempfile

from checks.pages import ROOT, name_of


def wrong_run(program, folder):
    def read(name, absent=b""):
        path = folder / name
        return path.read_bytes() if path.exists() else absent

    words = read("args").decode().split("\n")[:-1]
    with tempfile.TemporaryDirectory() as place:
        if (folder / "store").exists():
            shutil.copyfile(folder / "store", pathlib.Path(place) / "store")
        try:
            done = subprocess.run([program, *words], input=read("stdin"), capture_output=True, timeout=60, cwd=place)
        except subprocess.TimeoutExpired:
            yield "%s: no end within 60 seconds" % name_of(folder)
            return
    if done.stdout != read("stdout"):
        yield "%s: stdout is %r" % (name_of(folder), done.stdout.decode(errors="replace"))
    if done.returncode != int(read("status", b"0")):
        yield "%s: status is %d, %r" % (name_of(folder), done.returncode, done.stderr[-200:])


def findings(program):
    if not pathlib.Path(program).is_file():
        yield "no program %s" % program
        return
    for folder in sorted(path for path in (ROOT / "samples").iterdir() if path.is_dir()):
        for name in ("args", "stdin", "stdout", "story.md"):
            if not (folder / name).exists():
                yield "%s: no %s" % (name_of(folder), name)
        yield from wrong_run(program, folder)
