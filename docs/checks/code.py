"""Reads the sources of the crates: their modules, what these import and export, and the functions in them."""
import functools
import re
from typing import NamedTuple

from checks.pages import ROOT, text_of

CRATES = ROOT / "crates"
USE = re.compile(r"^ *(pub(?:\([^)]*\))? )?use ([^;]+);", re.M)
FUNCTION = re.compile(r" *(pub(?:\([^)]*\))? )?(?:const )?fn (\w+)")


class Function(NamedTuple):
    # the type, or the trait, whose function it is; empty for a free one
    holder: str
    name: str
    is_public: bool


@functools.cache
def crates():
    """The names of the crates of this repository."""
    return sorted(folder.name for folder in CRATES.iterdir() if (folder / "src").is_dir())


def sources(crate):
    return sorted((CRATES / crate / "src").rglob("*.rt"))


def module_of(file):
    """The path of a module in its crate, empty for the root."""
    parts = file.relative_to(CRATES).with_suffix("").parts[2:]
    return () if parts in (("lib",), ("main",)) else parts


@functools.cache
def code_of(file):
    """The text of a source without its comments, its attributes and what contracts use."""
    text = re.sub(r"//.*", "", text_of(file))
    return re.sub(r"^ *(#!?\[[^\]]*\]|ghost .*)", "", text, flags=re.M)


def split_outside_braces(text):
    """The parts of a text between those commas that aren't in braces."""
    depth, part = 0, ""
    for letter in text:
        depth += (letter == "{") - (letter == "}")
        if letter == "," and depth == 0:
            yield part
            part = ""
        else:
            part += letter
    yield part


def paths_in(tree):
    """The paths of a use: `a::{b, c::{d, e}}` has a::b, a::c::d and a::c::e."""
    head, brace, rest = tree.strip().partition("{")
    if not brace:
        yield tuple(re.split(r"\s+as\s+", head.strip())[0].split("::"))
        return
    for part in split_outside_braces(rest[: rest.rindex("}")]):
        if part.strip():
            yield from paths_in(head + part.strip())


def uses(file):
    """The paths that a source uses, each with whether it exports what they lead to."""
    for visible, tree in USE.findall(code_of(file)):
        for path in paths_in(tree):
            yield path, visible == "pub "


def without_generics(text):
    """A text without what stands between angle brackets."""
    depth, kept = 0, ""
    for letter in text.replace("->", ""):
        depth -= letter == ">"
        kept += letter if depth == 0 and letter != ">" else ""
        depth += letter == "<"
    return kept.replace("<", "")


def holder_of(head):
    """The type of an impl, or the trait of a declaration, by its head."""
    words = without_generics(head).partition(" where ")[0].partition("{")[0].partition(":")[0].split()
    if "for" in words:
        return words[words.index("for") + 1]
    return words[-1]


@functools.cache
def functions_of(file):
    """The functions of a source, in order."""
    found, holder, head = [], "", ""
    for line in code_of(file).split("\n"):
        begins = re.match(r"(impl\b|(pub )?trait )", line)
        if begins or head:
            head += line + " "
            if line.rstrip().endswith(("{", "{}")):
                holder = "" if line.rstrip().endswith("}") else holder_of(head)
                head = ""
        elif line.startswith("}"):
            holder = ""
        function = FUNCTION.match(line)
        if function:
            found.append(Function(holder, function.group(2), function.group(1) == "pub "))
    return found


@functools.cache
def exports(crate):
    """What a crate exports: its public modules, and the names of others, each with its module."""
    root = CRATES / crate / "src" / "lib.rt"
    modules = {(name,) for name in re.findall(r"^pub mod (\w+);", text_of(root), re.M)}
    return modules, {(path[:-1], path[-1]) for path, is_public in uses(root) if is_public}


def is_exported(crate, file, function):
    """Whether other crates can call a function: it is public, and its type, or itself, is exported."""
    modules, names = exports(crate)
    module = module_of(file)
    if not function.is_public:
        return False
    if function.holder:
        return module in modules or any(name == function.holder for _, name in names)
    return module in modules or (module, function.name) in names


def public_functions(crate):
    """The functions that other crates can call, each with its file."""
    for file in sources(crate):
        for function in functions_of(file):
            if is_exported(crate, file, function):
                yield file, function
