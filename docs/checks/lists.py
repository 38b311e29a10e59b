"""Lists that pages give whole: refusals with their numbers, and the crates that this repository takes from elsewhere."""
import re

from checks.code import CRATES
from checks.pages import CODE, DOCS, ROOT, text_of


def refusals():
    """The number and the name of each refusal of an entry, as specs tell them."""
    text = text_of(CRATES / "fpl_message/specs/Numbers.antt")
    return re.findall(r"^number_of \(?refusal\.(\w+)[^=\n]*= (\d+)", text, re.M)


def missing_refusals(page):
    for name, number in refusals():
        if not re.search(r"\| *%s *\| *`?%s\b" % (number, name), text_of(page)):
            yield "docs/%s: no row for %s %s" % (page.name, number, name)


def ported_crates():
    """The crates that those of this repository stand on, and that aren't of it."""
    lines = [line.partition("#")[0].partition(":") for line in text_of(ROOT / "crates.txt").split("\n")]
    return {word for _, _, below in lines for word in below.split()} - {name.strip() for name, _, _ in lines}


def listed_crates():
    """The ported crates that README lists, without those of the tests."""
    listed = re.search(r"the ported crates (.*?) and, in tests, ", " ".join(text_of(ROOT / "README.md").split()))
    return set(CODE.findall(listed.group(1))) if listed else set()


def wrong_crates():
    for crate in sorted(ported_crates() - listed_crates()):
        yield "README.md: %s isn't among the ported crates" % crate
    for crate in sorted(listed_crates() - ported_crates()):
        yield "README.md: no crate stands on the ported crate %s" % crate


def findings():
    yield from missing_refusals(DOCS / "GUIDE.md")
    yield from wrong_crates()
