"""A copy of the workspace with one crate more, which the gate doesn't prove.

The crate's files end in .in here, since the gate takes no source outside a crate of the workspace.
"""
import os
import pathlib
import shutil

ROOT = pathlib.Path(__file__).resolve().parent.parent

# The crates of tests/unit, each with the crates that it calls.
UNIT_TESTS = {
    "command_line": ["command_line"],
    "message": ["fpl_text", "fpl_items", "fpl_message", "jiff", "linked_list_allocator"],
    "flow": ["fpl_text", "fpl_message", "flow_plans", "flow_slots", "flow_regulations", "linked_list_allocator"],
    "log": ["flow_log"],
    "desk": ["fpl_text", "fpl_message", "flow_plans", "flow_input", "flow_core", "linked_list_allocator"],
    "store": ["fpl_text", "flow_plans", "flow_input", "flow_log", "flow_core", "flow_store", "linked_list_allocator"],
    "slotdesk": ["command_line", "fpl_text", "flow_plans", "flow_core", "flow_log", "flow_store", "flow_runs", "flow_live", "clap"],
    "live": ["fpl_text", "fpl_message", "flow_plans", "flow_input", "flow_log", "flow_core", "flow_store", "flow_desk", "flow_live"],
    "feeder": ["fpl_text", "fpl_message", "flow_plans", "flow_input", "flow_core", "flow_desk", "linked_list_allocator"],
}

# Modules of other tests that the tests of a crate use too.
SHARED = {"store": ["log/src/disk.rt.in"]}


def workspace():
    """The crates that each crate of the workspace stands on, by its name."""
    lines = [line.partition("#")[0].partition(":") for line in (ROOT / "crates.txt").read_text().splitlines()]
    return {name.strip(): needs.split() for name, _, needs in lines if name.strip()}


def link(source, target):
    """A file in two places, or a copy of it where one file system can't hold both."""
    try:
        os.link(source, target)
    except OSError:
        shutil.copy2(source, target)


def placed(folder, name, stands_on, kept, proofs=True):
    """The folder of the crate `name` in a copy of the workspace in `folder`, with the sources in `kept`.

    With `proofs` what earlier checks kept of the crates below comes along, so that they aren't proved again.
    """
    needs, wanted = workspace(), set(stands_on)
    while not wanted >= {below for above in wanted for below in needs.get(above, [])}:
        wanted |= {below for above in wanted for below in needs.get(above, [])}
    listed = {crate: needs[crate] for crate in needs if crate in wanted} | {name: stands_on}
    shutil.copy2(ROOT / "HANDLES", folder)
    (folder / "crates.txt").write_text("".join("%s: %s\n" % (crate, " ".join(below)) for crate, below in listed.items()))
    unwanted = None if proofs else shutil.ignore_patterns("out")
    for crate in listed:
        if crate != name and not (folder / "crates" / crate).exists():
            shutil.copytree(ROOT / "crates" / crate, folder / "crates" / crate, copy_function=link, ignore=unwanted)
    for source in kept.rglob("*.in"):
        target = folder / "crates" / name / source.relative_to(kept).with_suffix("")
        target.parent.mkdir(parents=True, exist_ok=True)
        shutil.copyfile(source, target)
    for shared in SHARED.get(kept.name, []):
        source = kept.parent / shared
        shutil.copyfile(source, folder / "crates" / name / "src" / source.with_suffix("").name)
    # A program exports nothing, so its modules are placed beside the tests of them.
    program = ROOT / "crates" / kept.name / "src"
    if (program / "main.rt").exists():
        for source in program.glob("*.rt"):
            target = folder / "crates" / name / "src" / source.name
            if source.name != "main.rt" and not target.exists():
                shutil.copyfile(source, target)
    return folder / "crates" / name
