"""Each module of specs begins with a comment that says what it defines.

`Lib.antt` has none, since it lists the modules of its crate and defines nothing; that is looked at instead."""
import re

from checks.code import CRATES
from checks.pages import name_of, text_of


def modules_of(crate):
    return sorted(file for file in (CRATES / crate / "specs").rglob("*.antt") if file.stem != "Lib")


def wrong_list(crate):
    """What is listed and isn't there, or isn't listed, and what the list has besides."""
    specs = CRATES / crate / "specs"
    for file in sorted(specs.rglob("Lib.antt")):
        lines = [line.strip() for line in text_of(file).split("\n")]
        listed = {line.removeprefix("pub mod ") for line in lines if line.startswith("pub mod ")}
        there = {path.stem for path in file.parent.iterdir() if path.stem != "Lib"}
        if listed != there:
            yield "%s: not both listed and there: %s" % (name_of(file), ", ".join(sorted(listed ^ there)))
        for line in lines:
            if line and not re.match(r"pub mod \w+$|--", line):
                yield "%s: defines something: %s" % (name_of(file), line)


def findings():
    for specs in sorted(CRATES.glob("*/specs")):
        crate = specs.parent.name
        yield from wrong_list(crate)
        for file in modules_of(crate):
            if not re.match(r"-- \w", text_of(file)):
                yield "%s:1: no word of what it defines" % name_of(file)
