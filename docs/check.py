#!/usr/bin/env python3
"""Checks the pages of this repository against its code, and the samples.

    docs/check.py [PROGRAM]

Looked at are README.md, docs/*.md, tests/README.md, the stories in samples/ and the sources of all crates. Each check is a file in checks/:
- links: each relative link leads to a file or folder, and to a heading of it if it names one; each file of code that a
  page names, as `name.rt` or `Name.antt`, perhaps with its folders, is there, and so is each `Type::function`;
- quotations: a block between fences below a line with a link and a colon at its end is found word for word in that file,
  and so are the names in that line; in docs/THEOREM.md each block has such a line;
- definitions: each module of crates/*/specs begins with a comment that says what it defines;
- proved: each row of docs/PROVED.md names calls that are in their file, that are `pub` and that their crate exports, and
  definitions that are in theirs; each public call of a crate that has a table there is in it;
- walks: in docs/ARCHITECTURE.md each function in a walk is in the file named before it, that file in the crate named
  before it, and what the diagram names is there;
- rings: no two modules of a crate import one another;
- unused: what a library exports has a user, in another crate or in a test;
- prose: no line has over 100 columns, outside tables and fences, and no page and no comment in src/ or specs/ has a word that
  docs/GLOSSARY.md replaces, as far as a script can tell;
- lists: docs/GUIDE.md has each refusal with its number, and README.md just the ported crates of crates.txt.
With a program, each folder of samples/ is run as well: args (a word a line), stdin, stdout and status (0 where absent).
Prints a line for each finding, then 'N findings'. The status is 1 if there are any.
"""
import pathlib
import sys

sys.dont_write_bytecode = True

from checks import definitions, links, lists, prose, proved, quotations, rings, samples, unused, walks  # noqa: E402

CHECKS = (links, quotations, definitions, proved, walks, rings, unused, prose, lists)


def main():
    found = [finding for check in CHECKS for finding in check.findings()]
    if len(sys.argv) > 1:
        found += samples.findings(str(pathlib.Path(sys.argv[1]).resolve()))
    for finding in found:
        print(finding)
    print("%d findings" % len(found))
    return 1 if found else 0


if __name__ == "__main__":
    sys.exit(main())
