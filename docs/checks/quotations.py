"""Blocks between fences below a line with a link are found word for word in the file that it leads to."""
from checks.pages import CODE, LINK, blocks, has_name, name_of, pages, target_of, text_of


def squeezed(text):
    return " ".join(text.split())


def wrong_block(page, head, block):
    file = target_of(page, LINK.findall(head)[0])[0]
    if not file.is_file():
        return
    if squeezed(block) not in squeezed(file.read_text()):
        yield "%s: not word for word in %s: %s" % (name_of(page), name_of(file), squeezed(block)[:60])
    for name in CODE.findall(LINK.sub("", head)):
        if not has_name(block, name):
            yield "%s: no %s in the block of %s" % (name_of(page), name, name_of(file))


def findings():
    for page in pages():
        for head, block in blocks(text_of(page)):
            if LINK.search(head) and head.endswith(":"):
                yield from wrong_block(page, head, block)
            elif page.name == "THEOREM.md":
                yield "%s: a block without its file: %s" % (name_of(page), squeezed(block)[:60])
