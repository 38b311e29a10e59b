"""Links lead somewhere, and the files and functions of code that a page names are there."""
import re

from checks.code import CRATES, crates, functions_of, sources
from checks.pages import CODE, LINK, anchors, lines_outside_fences, name_of, pages, target_of, text_of


def broken_links(page):
    # A link may go over the end of a line, so it is looked for in the whole page, with blank lines for its blocks.
    lines = dict(lines_outside_fences(text_of(page)))
    text = "\n".join(lines.get(number, "") for number in range(1, max(lines, default=0) + 1))
    for found in LINK.finditer(text):
        link = found.group(1)
        where = "%s:%d" % (name_of(page), text.count("\n", 0, found.start()) + 1)
        if re.match(r"[a-z]+:", link):
            continue
        target, heading = target_of(page, link)
        if not target.exists():
            yield "%s: no file %s" % (where, link)
        elif heading and heading not in anchors(target):
            yield "%s: no heading %s" % (where, link)


def code_files():
    """All files of code, each by its path in crates/."""
    patterns = ("*/src/**/*.rt", "*/specs/**/*.antt", "*/proofs/**/*.antt")
    return ["/" + str(file.relative_to(CRATES)) for pattern in patterns for file in CRATES.glob(pattern)]


def missing_files(page, files):
    for number, line in lines_outside_fences(text_of(page)):
        for named in re.findall(r"`(?:crates/)?([\w/]+\.(?:rt|antt))`", line):
            stands_for_any = "module" in named.lower()
            if not stands_for_any and not any(file.endswith("/" + named) for file in files):
                yield "%s:%d: no file %s" % (name_of(page), number, named)


def all_functions():
    """The functions of all types, as pages name them."""
    files = [file for crate in crates() for file in sources(crate)]
    return {"%s::%s" % (function.holder, function.name) for file in files for function in functions_of(file)}


def missing_functions(page, functions):
    for number, line in lines_outside_fences(text_of(page)):
        for word in CODE.findall(line):
            if re.fullmatch(r"[A-Z]\w*::[a-z]\w*", word) and word not in functions:
                yield "%s:%d: no function %s" % (name_of(page), number, word)


def findings():
    files, functions = code_files(), all_functions()
    for page in pages():
        yield from broken_links(page)
        yield from missing_files(page, files)
        yield from missing_functions(page, functions)
