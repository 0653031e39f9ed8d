"""What documents are: a reckoning of its own, by which tests judge what the readers of documents say.

A document is lawful where its lines are compact JSON as it is written, nested no deeper than a reader goes, and its members are what
its kind asks for. Of any other text the first line is told with which no document begins so.
"""
import json

MOST_LEVELS = 127
# What a text that is no JSON is parsed as.
NOTHING = object()


# ---- JSON: objects are lists of members, so that their order and their doubles are seen

class Object(list):
    pass


class Spelt(str):
    """A text of JSON that is written as it stands."""


class NotJson(Exception):
    pass


def no_number(_):
    raise NotJson


def parsed(text):
    try:
        return json.loads(text, object_pairs_hook=Object, parse_float=no_number, parse_constant=no_number)
    except (ValueError, RecursionError, NotJson):
        return NOTHING


def written(tree):
    if isinstance(tree, Spelt):
        return str(tree)
    if isinstance(tree, Object):
        return "{" + ",".join(json.dumps(key, ensure_ascii=False) + ":" + written(it) for key, it in tree) + "}"
    if isinstance(tree, list):
        return "[" + ",".join(map(written, tree)) + "]"
    return json.dumps(tree, ensure_ascii=False)


def levels(tree):
    if isinstance(tree, Object):
        return 1 + max((levels(it) for _, it in tree), default=0)
    return 1 + max(map(levels, tree), default=0) if isinstance(tree, list) else 0


def rise(texts):
    return all(a < b for a, b in zip(texts, texts[1:]))


def is_number(it, least, most):
    return isinstance(it, int) and not isinstance(it, bool) and least <= it <= most


def is_text(it):
    return isinstance(it, str)


def has_members(it, names):
    return isinstance(it, Object) and [key for key, _ in it] == names


# ---- what documents are

def is_kind(text):
    return text != "" and "[" not in text and not any("A" <= it <= "Z" for it in text)


def lowered(text):
    return "".join(it.lower() if it.isascii() else it for it in text)


def is_printed_kind(text):
    kind = lowered(text)
    shown = "".join(it.upper() if it.isascii() and before == ":" else it for before, it in zip(":" + kind, kind))
    return is_kind(kind) and shown == text


def is_plain(keys):
    return all(is_text(it) and not it.startswith("__p") for it in keys) and rise(keys)


def is_form(it):
    """The form of some value."""
    if isinstance(it, Object):
        keys, values = [key for key, _ in it], [value for _, value in it]
        if is_plain(keys):
            return all(map(is_form, values))
        if keys == ["__ptype", "__pvalue"] and values[0] == "Hash" and type(values[1]) is list:
            inner, held = values[1][::2], values[1][1::2]
            told = {(type(key), key) for key in inner if is_text(key) or is_number(key, -(2**63), 2**63 - 1)}
            return len(inner) == len(held) == len(told) and not is_plain(inner) and all(map(is_form, held))
        is_named = keys == ["__ptype", "kind", "title"] and values[0] == "Ref" and is_text(values[1]) and is_text(values[2])
        return is_named and is_kind(values[1])
    if isinstance(it, list):
        return all(map(is_form, it))
    return it is None or isinstance(it, (bool, str)) or is_number(it, -(2**63), 2**63 - 1)


def are_forms(it):
    return isinstance(it, Object) and rise([key for key, _ in it]) and all(is_form(value) for _, value in it)


def are_texts(it):
    return type(it) is list and all(map(is_text, it))


def are_indexes(it, count):
    return type(it) is list and all(is_number(at, 0, count - 1) for at in it) and rise(it)


def is_item(attrs, tags, title, kind):
    """The attributes, tags, title and printed kind of a resource."""
    return are_forms(attrs) and are_texts(tags) and rise(tags) and is_text(title) and is_text(kind) and is_printed_kind(kind)


def is_held(it, count):
    if not has_members(it, ["attrs", "in", "tags", "title", "type"]):
        return False
    attrs, inside, *rest = (value for _, value in it)
    return are_indexes(inside, count) and is_item(attrs, *rest)


def is_edge(it, count):
    return type(it) is list and len(it) == 3 and all(is_number(at, 0, count - 1) for at in it[:2]) and isinstance(it[2], bool)


def is_catalog(it):
    if not has_members(it, ["catalog", "edges", "node", "resources"]):
        return False
    version, edges, node, resources = (value for _, value in it)
    if not (is_number(version, 1, 1) and type(edges) is list and is_text(node) and type(resources) is list):
        return False
    count = len(resources)
    if not (all(is_held(held, count) for held in resources) and all(is_edge(edge, count) for edge in edges)):
        return False
    return rise([edge[:2] for edge in edges]) and len({(held[3][1], held[4][1]) for held in resources}) == count


def is_reference(text):
    kind, bracket, title = text.partition("[")
    return is_printed_kind(kind) and bracket != "" and title.endswith("]")


def is_line(it):
    if not has_members(it, ["changes", "fault", "ref", "refreshed", "status"]):
        return False
    changes, fault, ref, refreshed, status = (value for _, value in it)
    told = ("unchanged", "changed", "failed", "skipped", "noop")
    is_told = are_texts(changes) and (fault is None or is_text(fault)) and isinstance(refreshed, bool) and status in told
    return is_told and is_text(ref) and is_reference(ref)


def report_of(node, lines):
    told = [(line[4][1], bool(line[0][1] or line[3][1])) for line in lines]
    changed = sum(status != "noop" and does for status, does in told)
    failed, noop = (sum(status == it for status, _ in told) for it in ("failed", "noop"))
    return Object([("changed", changed), ("failed", failed), ("node", node), ("noop", noop), ("report", 2), ("resources", lines)])


def report_again(it):
    """The report as it is written, in the second version; None where this is none."""
    if not (isinstance(it, Object) and len(it) > 1 and type(it[-1][1]) is list and all(map(is_line, it[-1][1]))):
        return None
    told = dict(it)
    if not is_text(told.get("node")):
        return None
    again = report_of(told["node"], it[-1][1])
    first = Object([("report", 1) if key == "report" else (key, value) for key, value in again if key != "noop"])
    return again if written(it) in ([written(again)] + [written(first)] * (dict(again)["noop"] == 0)) else None


def is_machine(it):
    if not has_members(it, ["failing", "machine", "state"]):
        return False
    failing, version, state = (value for _, value in it)
    are_records = isinstance(state, Object) and rise([key for key, _ in state]) and all(are_forms(it) for _, it in state)
    return are_texts(failing) and is_number(version, 1, 1) and are_records


def is_fact(it):
    """The form of a fact: names rise at each level, and nothing within is a reference."""
    if isinstance(it, Object):
        keys, values = [key for key, _ in it], [value for _, value in it]
        if is_plain(keys):
            return all(map(is_fact, values))
        if keys != ["__ptype", "__pvalue"] or values[0] != "Hash" or type(values[1]) is not list:
            return False
        inner, held = values[1][::2], values[1][1::2]
        return len(inner) == len(held) and all(map(is_text, inner)) and rise(inner) and not is_plain(inner) and all(map(is_fact, held))
    return all(map(is_fact, it)) if isinstance(it, list) else is_form(it)


def are_facts(it):
    return isinstance(it, Object) and is_fact(it)


def is_site(it):
    if not has_members(it, ["files", "nodes"]) or not all(isinstance(value, Object) for _, value in it):
        return False
    files, nodes = dict(it)["files"], dict(it)["nodes"]
    paths, names = [path for path, _ in files], [name for name, _ in nodes]
    are_files = rise(paths) and "manifests/site.pp" in paths and are_texts([text for _, text in files])
    return are_files and rise(names) and all(are_facts(value) for _, value in nodes)


def is_export(it):
    if not has_members(it, ["at", "attrs", "tags", "title", "type"]):
        return False
    at, *rest = (value for _, value in it)
    if not is_text(at) or not at.rpartition(":")[1]:
        return False
    line = at.rpartition(":")[2]
    is_place = line.isascii() and line.isdigit() and len(line) < 11 and str(int(line)) == line and int(line) < 2**32
    return is_place and is_item(*rest)


def is_number_of_32(it):
    return is_number(it, 0, 2**32 - 1)


def are_exports(it):
    return type(it) is list and all(map(is_export, it))


ENTRIES = {
    "publish": [("facts", are_facts), ("k", is_number_of_32), ("node", is_text), ("set", are_exports)],
    "deactivate": [("node", is_text)],
    "deploy": [("site", is_site)],
    "report": [("node", is_text), ("report", lambda it: report_again(it) is not None and dict(it)["report"] == 2)],
}


def is_entry(it, number, version):
    told = dict(it) if isinstance(it, Object) else {}
    kind = told.get("kind")
    if not is_text(kind) or kind not in ENTRIES or (kind, version) == ("report", 1):
        return False
    own = [("author", is_number_of_32), ("call", is_number_of_32), ("entry", lambda at: is_number(at, number, number)), ("kind", is_text)]
    members = sorted(own + ENTRIES[kind], key=lambda member: member[0])
    return has_members(it, [name for name, _ in members]) and all(holds(told[name]) for name, holds in members)


def is_opening(it):
    told = dict(it) if has_members(it, ["entry", "journal", "kind", "site"]) else {}
    is_first = told != {} and is_number(told["entry"], 0, 0) and is_number(told["journal"], 1, 2) and told["kind"] == "open"
    return is_first and is_site(told["site"])


def line_tree(line):
    """The tree of a line that is written so; nothing where it is spelt otherwise, or too deep."""
    tree = parsed(line)
    return NOTHING if tree is NOTHING or written(tree) != line or levels(tree) > MOST_LEVELS else tree


def of_one_line(again):
    """What is said of a text, where `again` gives the tree that is written for a tree, if it is a document."""

    def said(text):
        line, feed, behind = text.partition("\n")
        tree = line_tree(line) if feed else NOTHING
        found = None if tree is NOTHING else again(tree)
        return "bad 1" if found is None else "bad 2" if behind else ("ok", written(found) + "\n")

    return said


def of_journal(text):
    *lines, behind = text.split("\n")
    version = None
    for number, line in enumerate(lines):
        tree = line_tree(line)
        if number > 0 and has_members(tree, ["entries"]) and is_number(tree[0][1], number, number):
            if number + 1 == len(lines) and not behind:
                return "ok", text.replace('"journal":1', '"journal":2', version == 1)
            return f"bad {number + 2}"
        if not (is_entry(tree, number, version) if number else is_opening(tree)):
            return f"bad {number + 1}"
        version = version or dict(tree)["journal"]
    return f"bad {len(lines) + 1}"


def same(is_document):
    return lambda tree: tree if is_document(tree) else None


# What is said of a text, by the kind of document that it is to be.
KINDS = {
    "catalog": of_one_line(same(is_catalog)),
    "report": of_one_line(report_again),
    "machine": of_one_line(same(is_machine)),
    "journal": of_journal,
}
