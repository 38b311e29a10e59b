"""No two modules of a crate import one another, be it at once or by way of others."""
import re

from checks.code import code_of, crates, module_of, sources, uses

# Rings that are there, and are to go. Whoever breaks one up takes it off this list.
KNOWN = set()


def paths_of(file):
    """The paths that a source uses, and those that stand in its code."""
    for path, _ in uses(file):
        yield path
    for path in re.findall(r"\b((?:crate|super|self)(?:::\w+)+)", code_of(file)):
        yield tuple(path.split("::"))


def resolved(module, path):
    """A path from the root of the crate. One that leads out of the crate stays as it is."""
    if path[0] == "crate":
        return path[1:]
    here = module
    while path and path[0] in ("self", "super"):
        here = here[:-1] if path[0] == "super" else here
        path = path[1:]
    return here + path


def imports(file, modules):
    """The other modules that a source imports from."""
    module = module_of(file)
    for path in paths_of(file):
        whole = resolved(module, path)
        is_of_crate = path[0] in ("crate", "self", "super") or whole[: len(module) + 1] in modules
        while whole not in modules:
            whole = whole[:-1]
        if is_of_crate and whole != module:
            yield whole


def reached(imported, module):
    """The modules to which imports lead from this one."""
    found, ahead = set(), [module]
    while ahead:
        for other in imported[ahead.pop()] - found:
            found.add(other)
            ahead.append(other)
    return found


def rings_of(crate):
    """The rings of a crate: the names of the modules in each."""
    files = sources(crate)
    modules = {module_of(file) for file in files} | {()}
    imported = {module: set() for module in modules}
    for file in files:
        imported[module_of(file)].update(imports(file, modules))
    reach = {module: reached(imported, module) for module in modules}
    rings = {frozenset(other for other in reach[module] if module in reach[other])
             for module in modules if module in reach[module]}
    return {tuple(sorted("::".join(module) or "lib" for module in ring)) for ring in rings}


def findings():
    found = {(crate, ring) for crate in crates() for ring in rings_of(crate)}
    for crate, ring in sorted(found - KNOWN):
        yield "crates/%s: these modules import one another: %s" % (crate, ", ".join(ring))
    for crate, ring in sorted(KNOWN - found):
        yield "docs/checks/rings.py: no ring of %s any more: %s" % (crate, ", ".join(ring))
