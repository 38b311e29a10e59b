#!/usr/bin/env python3
"""Looks that the help of a built program, and of each of its commands, fits into 80 columns.

    tests/cli/help_width.py PROGRAM

The commands are those that the program's own help lists. Prints each line that is longer, and each help that isn't shown, then
'N helps, M findings'. The status is 1 where there are any.
"""
import re
import subprocess
import sys

COLUMNS = 80


def help_of(program, words):
    done = subprocess.run([program, *words, "--help"], stdin=subprocess.DEVNULL, capture_output=True, timeout=60)
    return done.returncode, done.stdout.decode()


def commands_in(text):
    """The names below the heading 'Commands:', up to the next blank line."""
    listed = re.search(r"^Commands:\n((?:  .*\n)*)", text, re.MULTILINE)
    return re.findall(r"^  (\w\S*)", listed.group(1), re.MULTILINE) if listed else []


def findings_in(words, status, text):
    shown = " ".join([*words, "--help"])
    if status != 0 or "Usage:" not in text:
        yield "%s: status %d, %d bytes" % (shown, status, len(text))
    for line in text.splitlines():
        if len(line) > COLUMNS:
            yield "%s: %d columns: %s" % (shown, len(line), line)


def main():
    if len(sys.argv) != 2:
        print(__doc__)
        return 2
    program = sys.argv[1]
    status, text = help_of(program, [])
    helps = [([], status, text)] + [([name], *help_of(program, [name])) for name in commands_in(text)]
    found = [finding for each in helps for finding in findings_in(*each)]
    for finding in found:
        print(finding)
    print("%d helps, %d findings" % (len(helps), len(found)))
    return 1 if found else 0


if __name__ == "__main__":
    sys.exit(main())
