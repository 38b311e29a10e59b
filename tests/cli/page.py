#!/usr/bin/env python3
"""Looks at the page that a built slotview makes of each journal of its worked runs, and of the samples.

    tests/cli/page.py PROGRAM

A page must be well-formed XML without scripts and without anything from elsewhere; each id is there once, each link leads to
one, each table has headings and a caption outside the box in which it scrolls, each such box a name, each picture a title.
The counts of a point have the periods of all its regulations, in hours.
Where a sample has a page.html, it is the page of its stdout, and each of its pictures is drawn from
that by the command that the guide gives.
Prints each fault, then 'N pages, M findings'. The status is 1 where there are any.
"""
import datetime
import pathlib
import re
import subprocess
import sys
import xml.etree.ElementTree as tree

HOME = pathlib.Path(__file__).resolve().parent
SAMPLES = HOME.parent.parent / "samples"
GUIDE = HOME.parent.parent / "docs" / "GUIDE.md"
DRAWN = re.compile(r"^bin/slotview (.*) \$DAY > (\w+\.svg)$", re.M)
HTML = "{http://www.w3.org/1999/xhtml}"
SVG = "{http://www.w3.org/2000/svg}"
PERIOD = re.compile(r"(DEP|ARR|VIA) (\w+), (\S+) (\S+) to (?:(\S+) )?(\S+) UTC$")
HOUR = datetime.timedelta(hours=1)
OURS = ("http://www.w3.org/1999/xhtml", "http://www.w3.org/2000/svg")


def journals():
    """Each input that a summary is shown of, once."""
    seen = set()
    for folder in sorted([*(HOME / "slotview").iterdir(), *SAMPLES.iterdir()]):
        for name in ("stdin", "stdout"):
            path = folder / name
            if path.exists() and path.read_bytes() not in seen:
                seen.add(path.read_bytes())
                yield path


def page_of(program, path):
    done = subprocess.run([program, "page", str(path)], capture_output=True, timeout=60)
    return done.stdout.decode() if done.returncode == 0 else None


def ids_in(element):
    return [inner.get("id") for inner in element.iter() if inner.get("id")]


def findings_in_boxes(root, ids):
    for box in root.iter(HTML + "div"):
        if box.get("tabindex") is None:
            continue
        named = box.get("aria-label") or box.get("aria-labelledby") in ids
        if box.get("role") != "region" or not named:
            yield "a box that scrolls without a name"
        if box.find(".//%scaption" % HTML) is not None or box.get("aria-labelledby") in ids_in(box):
            yield "a caption in the box that scrolls"


def findings_in_tables(root, ids):
    for table in root.iter(HTML + "table"):
        if table.get("aria-labelledby") not in ids:
            yield "a table without a caption"
        heads = table.findall("%sthead/%str/%sth" % (HTML, HTML, HTML))
        if not heads or any(head.get("scope") != "col" for head in heads):
            yield "a table without headings"
        columns = len(heads)
        for row in table.iter(HTML + "tr"):
            if sum(int(cell.get("colspan", 1)) for cell in row) != columns:
                yield "a row of another length than its headings: %s" % "".join(row.itertext())


def findings_in_pictures(root, ids):
    for picture in root.iter(SVG + "svg"):
        named = (picture.get("aria-labelledby") or "").split()
        if picture.get("role") != "img" or not named or any(name not in ids for name in named):
            yield "a picture without a name"
        title = picture.find(SVG + "title")
        if title is None or not title.text:
            yield "a picture without a title"


def periods_in(section):
    """The point and the period of each picture of a section, by its title."""
    for picture in section.iter(SVG + "svg"):
        found = PERIOD.search(picture.findtext(SVG + "title", ""))
        if found:
            kind, place, day, start, last, end = found.groups()
            yield (kind, place), moment(day, start), moment(last or day, end)


def moment(day, time):
    return datetime.datetime.fromisoformat("%s %s" % (day, time))


def findings_in_counts(root):
    regulations, counts = (root.find(".//%ssection[@id='%s']" % (HTML, name)) for name in ("regulations", "counts"))
    counted = list(periods_in(counts))
    for (kind, place), start, end in periods_in(regulations):
        if not any(point == (kind, place) and first <= start and end <= last for point, first, last in counted):
            yield "no counts of %s %s from %s to %s" % (kind, place, start, end)
    rows = [len(table.findall("%stbody/%str" % (HTML, HTML))) for table in counts.iter(HTML + "table")]
    if rows != [-((first - last) // HOUR) for _, first, last in counted]:
        yield "counts of other hours than their pictures"


def findings_in(text):
    try:
        root = tree.fromstring(text)
    except tree.ParseError as fault:
        yield "not well-formed: %s" % fault
        return
    ids = ids_in(root)
    for twice in sorted({name for name in ids if ids.count(name) > 1}):
        yield "the id %s more than once" % twice
    for element in root.iter():
        if element.tag in (HTML + "script", HTML + "link", HTML + "img", HTML + "iframe") or element.get("src"):
            yield "the element %s" % element.tag
        link = element.get("href")
        if link and link[1:] not in ids:
            yield "a link to %s, which isn't there" % link
    for address in re.findall(r"\w+://[^\"' )]*|@import|url\(", text):
        if address not in OURS:
            yield "something from elsewhere: %s" % address
    yield from findings_in_boxes(root, set(ids))
    yield from findings_in_tables(root, set(ids))
    yield from findings_in_pictures(root, set(ids))
    yield from findings_in_counts(root)


def pictures(program):
    """The pictures of the guide's day that are otherwise than kept, or aren't kept."""
    day = SAMPLES / "a-morning-with-its-page"
    drawn = DRAWN.findall(GUIDE.read_text())
    for words, name in drawn:
        command = [program, *words.split(), str(day / "stdout")]
        if subprocess.run(command, capture_output=True, text=True).stdout != (day / name).read_text():
            yield "%s: another picture" % name
    if sorted(name for _, name in drawn) != sorted(path.name for path in day.glob("*.svg")):
        yield "%s: other pictures than the guide draws" % day.name


def main():
    if len(sys.argv) != 2:
        print(__doc__)
        return 2
    program = str(pathlib.Path(sys.argv[1]).resolve())
    pages = findings = 0
    for path in journals():
        text = page_of(program, path)
        if text is None:
            continue
        pages += 1
        kept = path.with_name("page.html")
        if path.name == "stdout" and kept.exists() and kept.read_text() != text:
            findings += 1
            print("%s: another page" % kept.relative_to(HOME.parent.parent))
        for finding in findings_in(text):
            findings += 1
            print("%s: %s" % (path.relative_to(HOME.parent.parent), finding))
    for finding in pictures(program):
        findings += 1
        print(finding)
    print("%d pages, %d findings" % (pages, findings))
    return 1 if findings or not pages else 0


if __name__ == "__main__":
    sys.exit(main())
