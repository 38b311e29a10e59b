"""What a library exports has a user: a crate that stands on it, or a unit test.

A type may also be that of an argument, a result or a field of what is exported, and the proofs above may name a type or a
constant. Laws are for readers. Of methods of one name no script can tell which is called, so a few may escape it."""
import functools
import re

from checks.code import CRATES, code_of, crates, exports, module_of, public_functions, sources
from checks.pages import ROOT, name_of, text_of

TYPE = re.compile(r"^pub (?:struct|enum|trait|type|const|static) (\w+)", re.M)
# What a call takes and gives, and the public fields and the variants of a type.
SIGNATURE = re.compile(r"^ *pub (?:const )?fn (\w+)(.*?)(?=\{|\n *(?:requires|ensures)\b)", re.M | re.S)
FIELD = re.compile(r"^    (?:pub \w+: (.*)|[A-Z]\w*[ ({](.*))$", re.M)

# Calls that a user of the library needs.
NEEDED = {}


@functools.cache
def users():
    """The crates that stand on each crate."""
    lines = [line.partition("#")[0].partition(":") for line in text_of(ROOT / "crates.txt").splitlines()]
    needs = {name.strip(): below.split() for name, _, below in lines if name.strip()}
    return {crate: [user for user in needs if crate in needs[user]] for crate in needs}


@functools.cache
def code_above(crate):
    """The code of the crates that stand on this one, and of the unit tests."""
    files = [file for user in users()[crate] for file in sources(user)] + sorted(ROOT.glob("tests/**/*.rt.in"))
    return "\n".join(code_of(file) for file in files)


@functools.cache
def texts_above(crate):
    """The same with what contracts, definitions and proofs name."""
    files = [file for user in users()[crate] for folder in ("specs", "proofs")
             for file in (CRATES / user / folder).rglob("*.antt")]
    files += [file for user in users()[crate] for file in sources(user)]
    return code_above(crate) + "\n".join(text_of(file) for file in files)


@functools.cache
def signatures(crate):
    """What the public calls of a crate and the fields of its types name."""
    found = []
    for file in sources(crate):
        called = {function.name for other, function in public_functions(crate) if other == file}
        found += [rest for name, rest in SIGNATURE.findall(code_of(file)) if name in called]
        found += [field or variant for field, variant in FIELD.findall(code_of(file))]
    return "\n".join(found)


def exported_types(crate):
    """The types and constants that other crates can name, each with its file."""
    modules, names = exports(crate)
    for file in sources(crate):
        for name in TYPE.findall(code_of(file)):
            if module_of(file) in modules or (module_of(file), name) in names:
                yield file, name


def is_law(file):
    return any(module.endswith("laws") for module in module_of(file))


def is_named(name, text):
    return re.search(r"\b%s\b" % name, text) is not None


def is_called(crate, function):
    """Whether a function of this name is called; which type's method it is no script can tell."""
    before = r"(?:\.|\b%s(?:::<[^>]*>)?::)" % function.holder if function.holder else r"\b"
    return re.search(before + function.name + r"\b", code_above(crate)) is not None


def unused():
    for crate in crates():
        if not (CRATES / crate / "src/lib.rt").exists() or crate == "examples":
            continue
        for file, function in public_functions(crate):
            if not is_law(file) and not is_called(crate, function):
                yield crate, file, "::".join(filter(None, (function.holder, function.name)))
        for file, name in exported_types(crate):
            if not is_named(name, texts_above(crate)) and not is_named(name, signatures(crate)):
                yield crate, file, name


def findings():
    found = list(unused())
    for crate, file, name in found:
        if name not in NEEDED.get(crate, ()):
            yield "%s: nobody outside uses %s" % (name_of(file), name)
    for crate, names in NEEDED.items():
        for name in sorted(names - {name for other, _, name in found if other == crate}):
            yield "docs/checks/unused.py: %s of %s has a user, or is gone" % (name, crate)
