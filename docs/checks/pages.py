"""Reads pages: their lines, links, tables and blocks between fences."""
import pathlib
import re

ROOT = pathlib.Path(__file__).resolve().parent.parent.parent
DOCS = ROOT / "docs"
LINK = re.compile(r"\[(?:[^\[\]]*)\]\(([^()\s]+)\)")
FENCE = re.compile(r"^```")
CODE = re.compile(r"`([^`]+)`")


def pages():
    more = [*sorted(DOCS.glob("*.md")), *sorted((ROOT / "samples").glob("**/*.md"))]
    return [ROOT / "README.md", *more, ROOT / "tests" / "README.md"]


def text_of(file):
    return file.read_text() if file.is_file() else ""


def name_of(file):
    return str(file.relative_to(ROOT))


def lines_outside_fences(text):
    """The lines of a page with their numbers from 1, without those between fences."""
    inside = False
    for number, line in enumerate(text.split("\n"), 1):
        if FENCE.match(line):
            inside = not inside
        elif not inside:
            yield number, line


def blocks(text):
    """The blocks between fences: the last line with text before each, and its own text."""
    head, block = "", None
    for line in text.split("\n"):
        if FENCE.match(line):
            if block is None:
                block = []
            else:
                yield head, "\n".join(block)
                head, block = "", None
        elif block is not None:
            block.append(line)
        elif line.strip():
            head = line.strip()


def rows(text):
    """The rows of the tables below each heading, without heads and rules: the heading, the line's number, the cells."""
    heading, head = "", None
    for number, line in lines_outside_fences(text):
        if line.startswith("#"):
            heading = line.lstrip("# ").strip()
        if not line.startswith("|"):
            head = None
        elif head is None:
            head = number
        elif number > head + 1:
            yield heading, number, [cell.strip() for cell in line.strip().strip("|").split("|")]


def anchor_of(title):
    words = re.sub(r"[^\w\- ]", "", LINK.sub(lambda m: m.group(0)[1:].split("]")[0], title).lower())
    return words.strip().replace(" ", "-")


def anchors(page):
    return {anchor_of(line.lstrip("#")) for _, line in lines_outside_fences(text_of(page)) if line.startswith("#")}


def crate_of(heading):
    """The crate that a heading names, perhaps by a link."""
    return LINK.sub("", heading).strip() or anchor_of(heading)


def target_of(page, link):
    """The file that a link of a page leads to, and the heading in it, which may be empty."""
    path, _, heading = link.partition("#")
    return (page.parent / path).resolve() if path else page, heading


def has_name(text, name):
    return re.search(r"(?<![\w'])%s(?![\w'])" % re.escape(name), text) is not None
