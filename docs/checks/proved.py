"""docs/PROVED.md and the crates agree.

The calls of each row are in the files that it links, public and exported; its definitions are in theirs; and each call that a crate
exports is in its table, if it has one."""
from checks.code import CRATES, functions_of, is_exported, public_functions
from checks.pages import CODE, DOCS, LINK, crate_of, has_name, name_of, rows, target_of, text_of

PAGE = DOCS / "PROVED.md"


def definition_file(crate, path):
    """`Module.name` is of the crate of the heading, `crate/Module.name` of another."""
    crate, _, module = path.rpartition("/") if "/" in path else (crate, "", path)
    return CRATES / crate / "specs" / (module + ".antt")


def missing_definition(crate, where, word):
    path, _, name = word.rpartition(".")
    file = definition_file(crate, path)
    if not path or not file.is_file():
        yield "%s: no module %s" % (where, word)
    elif not has_name(file.read_text(), name):
        yield "%s: no %s in %s" % (where, name, name_of(file))


def wrong_call(crate, where, call, files):
    holder, _, name = call.rpartition("::")
    found = [(file, function) for file in files for function in functions_of(file)
             if function.name == name and function.holder == holder]
    if not found:
        yield "%s: %s isn't in its file" % (where, call)
    elif not any(function.is_public for _, function in found):
        yield "%s: %s isn't pub" % (where, call)
    elif not any(is_exported(crate, file, function) for file, function in found):
        yield "%s: %s isn't exported from %s" % (where, call, crate)


def wrong_row(crate, number, cells):
    where = "docs/PROVED.md:%d" % number
    files = [target_of(PAGE, link)[0] for link in LINK.findall(cells[0])]
    for call in CODE.findall(cells[0]):
        yield from wrong_call(crate, where, call, [file for file in files if file.is_file()])
    for word in CODE.findall(cells[2]):
        yield from missing_definition(crate, where, word)


def findings():
    named = {}
    for heading, number, cells in rows(text_of(PAGE)):
        crate = crate_of(heading)
        if len(cells) != 3 or not (CRATES / crate / "src").is_dir():
            yield "docs/PROVED.md:%d: no row of a crate: %s" % (number, heading)
            continue
        named.setdefault(crate, set()).update(CODE.findall(cells[0]))
        yield from wrong_row(crate, number, cells)
    for crate, calls in named.items():
        for file, function in public_functions(crate):
            call = "%s::%s" % (function.holder, function.name) if function.holder else function.name
            if call not in calls:
                yield "docs/PROVED.md: no row for %s of %s" % (call, name_of(file))
