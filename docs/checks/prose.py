"""Pages and comments are written in lines of at most 100 columns, and in the words of the field.

Lines of tables and between fences may be longer. What is between fences, in inline code or the target of a link is quoted,
and may have any word. Of the crates the comments in src/ and specs/ are looked at, and the length of all lines in src/
but those of a `tactic`, which `rt fmt` doesn't break."""
import re

from checks.code import CRATES
from checks.pages import CODE, LINK, lines_outside_fences, name_of, pages, text_of

LONGEST = 100

# Words of the code that docs/GLOSSARY.md replaces, as far as a script can tell their sense, and what pages and comments say.
REPLACED = {
    r"behind": "after, appended to",
    r"rooms?": "capacity, buffer",
    r"(?:is|are|was|were|be|been) told(?! apart)": "is notified, is issued",
    r"tells? (?:a|the|each|its) (?:plan|flight)": "issues a slot or a notice to",
    r"wants? of memory|memory (?:is|was) refused|where memory": "a failed allocation, if allocation fails",
    r"(?:takes?|took) (?:no )?memory": "allocates (nothing)",
    r"(?:stands|stood)(?! for)": "is, precedes",
    r"(?:take|takes|taken|took) back": "undo, roll back",
    r"(?:go|goes|going|went) on from": "resume",
    r"(?:hands|handed|to hand) (?:\w+ ){0,3}on": "flush",
    r"lets? go|gives? up|gave up": "release, discard",
    r"answers (?:None|Some|Ok|Err|true|false|whether|an? (?:number|value|list|row))": "returns",
    r"(?:is|are|was|were|be|been) noted|notes (?:the|that|what|its|a|how)": "is recorded, is collected",
    r"nothing is owed": "no notice is pending",
    r"(?:is|are|was|were|be|been) let in": "is inserted into the slot list",
    r"comes? to (?:a|the|its|that) place": "enters, is planned over",
    r"looks? again at": "reallocates",
    r"off-block moments?": "off-block date and time",
    r"(?<![\[/])moments?(?!\.antt)": "time",
    r"a front": "a prefix",
    r"places? (?:of|on) the way": "route point",
    r"(?:comes?|came) to the same": "has the same state",
    r"so (?:many|long)": "the count, or the length, by its name",
    r"where (?:no|nobody|nothing|none)": "if",
    r"dearest": "slowest",
}

def long_lines(lines):
    for number, line in lines.items():
        if len(line) > LONGEST and not line.startswith("|"):
            yield number, "a line of %d columns, over %d" % (len(line), LONGEST)


def without_quotations(text):
    """A text without inline code and without what links lead to, with as many lines."""
    text = LINK.sub(lambda found: found.group(0).replace(found.group(1), ""), text)
    return CODE.sub(lambda found: "\n" * found.group(0).count("\n"), text)


def replaced_words(lines):
    # Words may go over the end of a line, so they are looked for in the whole page, with blank lines for its blocks.
    text = without_quotations("\n".join(lines.get(number, "") for number in range(1, max(lines, default=0) + 1)))
    for pattern, instead in REPLACED.items():
        for found in re.finditer(r"\b(?:%s)\b" % pattern.replace(" ", r"(?: |\n(?:> *| *))"), text, re.I):
            words = " ".join(found.group(0).split())
            yield text.count("\n", 0, found.start()) + 1, "'%s', for which to say: %s" % (words, instead)


def comments_of(file):
    """The comment lines of a file of code by number, without their marks, and blank lines for the others."""
    mark = re.compile(r"\s*--(.*)" if file.suffix == ".antt" else r"\s*//[/!]?(.*)")
    found = (mark.fullmatch(line) for line in text_of(file).split("\n"))
    return {number: comment.group(1).strip() if comment else "" for number, comment in enumerate(found, 1)}


def bounded_lines(file):
    """The lines of a file of code that have a bound: of definitions the comments, of other code all but tactics."""
    mark = re.compile(r"\s*--" if file.suffix == ".antt" else r"(?!\s*#\[tactic)")
    return {number: line for number, line in enumerate(text_of(file).split("\n"), 1) if mark.match(line)}


def findings_in_crate(crate):
    for file in [*sorted(crate.glob("src/**/*.rt")), *sorted(crate.glob("specs/**/*.antt"))]:
        for number, what in sorted([*long_lines(bounded_lines(file)), *replaced_words(comments_of(file))]):
            yield "%s:%d: %s" % (name_of(file), number, what)


def findings():
    for crate in sorted(CRATES.iterdir()):
        yield from findings_in_crate(crate)
    for page in pages():
        lines = dict(lines_outside_fences(text_of(page)))
        for number, what in sorted([*long_lines(lines), *replaced_words(lines)]):
            yield "%s:%d: %s" % (name_of(page), number, what)
