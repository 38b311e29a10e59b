"""docs/ARCHITECTURE.md names what is there.

In the tables of its walks each file is of the crate named before it, and each function is defined in the file named
before it. In its diagram `crate::name` is exported from the crate, and a function is one of its type."""
import re

from checks.code import CRATES, crates, exports, functions_of, public_functions, sources
from checks.pages import CODE, DOCS, blocks, rows, text_of

PAGE = DOCS / "ARCHITECTURE.md"


def has_function(file, name):
    """Whether a source defines a function, by its name or by those of its type and its own."""
    holder, _, last = name.rpartition("::")
    return any(function.name == last and holder in ("", function.holder) for function in functions_of(file))


def wrong_names(where, text):
    """What a cell names that isn't there. It has the form: crate: `file.rt` (`function`, `Type::other`), `more.rt`"""
    crate, file = None, None
    for named, word in re.findall(r"(\w+): |`([^`]+)`", text):
        if named:
            crate, file = named, None
            if crate not in crates():
                yield "%s: no crate %s" % (where, crate)
        elif word.endswith(".rt"):
            file = CRATES / str(crate) / "src" / word
            if not file.is_file():
                yield "%s: no file %s in %s" % (where, word, crate)
        elif file is None:
            yield "%s: %s has no file before it" % (where, word)
        elif not has_function(file, word):
            yield "%s: no function %s in %s of %s" % (where, word, file.name, crate)


def wrong_walks():
    walks = set()
    for heading, number, cells in rows(text_of(PAGE)):
        if heading.startswith("The walk of "):
            walks.add(heading)
            yield from wrong_names("docs/ARCHITECTURE.md:%d" % number, cells[-1])
    if len(walks) < 2:
        yield "docs/ARCHITECTURE.md: %d walks, and not two" % len(walks)


def has_exported(crate, names):
    """Whether a crate exports a name, or a function of a type. Of a program, which exports nothing, whether it has it."""
    if (CRATES / crate / "src/main.rt").is_file():
        return any(has_function(file, "::".join(names)) for file in sources(crate))
    if len(names) == 1:
        return names[0] in {name for _, name in exports(crate)[1]}
    return tuple(names) in {(function.holder, function.name) for _, function in public_functions(crate)}


def is_there(path):
    """Whether there is what a path names: `crate::name`, `crate::Type::function`, or `Type::function` of any crate."""
    first, *names = path.split("::")
    if first in crates():
        return has_exported(first, names)
    return any(has_function(file, path) for crate in crates() for file in sources(crate))


def wrong_diagrams():
    found = "\n".join(block for head, block in blocks(text_of(PAGE)) if not head.endswith(":"))
    paths = re.findall(r"\b\w+(?:::\w+)+", found)
    for path in sorted(set(paths)):
        if not is_there(path):
            yield "docs/ARCHITECTURE.md: the diagram names %s, which isn't there or isn't exported" % path
    if not paths:
        yield "docs/ARCHITECTURE.md: no diagram"


def findings():
    yield from wrong_walks()
    yield from wrong_diagrams()
