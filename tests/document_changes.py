"""Changes of documents at random: of bytes, of lines, and of members and items of the tree that a line is."""
import json

from document_rules import NOTHING, Object, Spelt, is_number, is_text, parsed, written
from document_samples import TEXTS, some_form

def places(tree, wanted, found):
    """All lists or objects within that are wanted."""
    if isinstance(tree, list):
        if wanted(tree):
            found.append(tree)
        for it in tree:
            places(it[1] if isinstance(tree, Object) else it, wanted, found)
    return found


def exchanged(choose, it):
    first, then = choose.randrange(len(it)), choose.randrange(len(it))
    it[first], it[then] = it[then], it[first]


def doubled(choose, it):
    it.insert(choose.randrange(len(it) + 1), choose.choice(it))


def dropped(choose, it):
    del it[choose.randrange(len(it))]


def respelled(choose, it):
    if is_number(it, -(2**70), 2**70):
        others = [f"{it}.0", f"{it}e0", f"{it}E0", f"0{it}", f"-{it}", f"+{it}", f"{it}0e-1", "-0", f" {it}"]
        return Spelt(choose.choice([*others, f"{it + 2**64}", f"{it + 1}", f"{it - 1}"]))
    if is_text(it):
        hard, numbered = json.dumps(it), "".join(f"\\u{ord(c):04x}" for c in it if ord(c) < 65536)
        return Spelt(choose.choice([hard, hard.replace("/", "\\/"), hard.upper(), f'"{numbered}"', hard + " "]))
    return choose.choice([None, True, False, 0, "a", [], Object(), it])


def replaced(choose, it):
    at = choose.randrange(len(it))
    with_one = respelled if choose.random() < 0.6 else lambda choose, old: some_form(choose, 2)
    if isinstance(it, Object):
        key, value = it[at]
        it[at] = (choose.choice([key, key, key, choose.choice(TEXTS)]), with_one(choose, value))
    else:
        it[at] = with_one(choose, it[at])


def buried(choose, it):
    """Puts something below so many lists that it stands at the limit, or one level past it."""
    at = choose.randrange(len(it))
    value = it[at][1] if isinstance(it, Object) else it[at]
    for _ in range(choose.randrange(118, 128)):
        value = [value]
    it[at] = (it[at][0], value) if isinstance(it, Object) else value


def in_tree(change):
    def changed(choose, text):
        lines = text.split("\n")
        at = choose.randrange(max(1, len(lines) - 1))
        tree = parsed(lines[at])
        found = [] if tree is NOTHING else places(tree, len, [])
        if found:
            change(choose, choose.choice(found))
            lines[at] = written(tree)
        return "\n".join(lines)

    return changed


def another_byte(choose, text):
    at = choose.randrange(len(text)) if text else 0
    return text[:at] + choose.choice('{}[]",:0123456789.-+eE\\/ \t\r\nabtruefalsnul\u0000é') + text[at + 1:]


def one_more_byte(choose, text):
    at = choose.randrange(len(text) + 1)
    return text[:at] + choose.choice(' \t\r\n{}[]",:0a\\') + text[at:]


def one_byte_less(choose, text):
    at = choose.randrange(len(text)) if text else 0
    return text[:at] + text[at + 1:]


def blank(choose, text):
    ends = [at for at, it in enumerate(text) if it in "{}[],:\n"]
    at = choose.choice(ends) + choose.randrange(2) if ends else 0
    return text[:at] + choose.choice(" \t\r\n") + text[at:]


def cut(choose, text):
    return text[: choose.randrange(len(text) + 1)]


def end_changed(choose, text):
    return text[:-1] + choose.choice(["", "\r\n", "\n\n", "\n ", "\nx\n", "\n" + text, " \n"])


def lines_changed(choose, text):
    lines = text.splitlines(keepends=True)
    if lines:
        choose.choice([exchanged, doubled, dropped])(choose, lines)
    return "".join(lines)


def as_it_stands(choose, text):
    return text


CHANGES = [in_tree(it) for it in (exchanged, doubled, dropped, replaced, replaced, buried)] + [
    another_byte, one_more_byte, one_byte_less, blank, cut, end_changed, lines_changed, as_it_stands]


def changed(choose, text):
    for _ in range(choose.choice([1, 1, 1, 2])):
        text = choose.choice(CHANGES)(choose, text)
    return text
