"""Documents for tests that read documents or change them: lawful ones, made at random, and those that stand in files."""
import os
import re

from document_rules import Object, is_plain, lowered, report_of, written


# ---- what stands in files

def texts_of(folders):
    for folder in folders:
        for at, _, names in os.walk(folder):
            for name in names:
                try:
                    with open(os.path.join(at, name), encoding="utf-8") as file:
                        yield file.read()
                except (UnicodeDecodeError, OSError):
                    pass


def journals_in(text):
    """The journals that stand in a text, from the line that opens a site to the one with the number of entries."""
    return re.findall(r'^\{"entry":0,"journal":[^\n]*\n(?:\{[^\n]*\n)*?\{"entries":\d+\}\n', text, re.M)


# ---- what is made

TEXTS = ["a", "b", "web", "/etc/x", "é", "𝄞", "", "a\nb", "\"q\"", "\\", "\u0001", "\u007f", "__p", "__ptype", "a[0]", "A", "z:1", "\b\f\r\t"]
KINDS_PRINTED = ["File", "Notify", "Class", "Web::Vhost", "Exec", "Ünit", "A::", "_x"]
NUMBERS = [0, 1, -1, 7, 10, 2**31, 2**32 - 1, 2**32, 2**63 - 1, -(2**63), 1024]


def some_texts(choose, most):
    return sorted(set(choose.choices(TEXTS, k=choose.randrange(most + 1))))


def some_form(choose, deep=3):
    what = choose.randrange(12 if deep else 7)
    if what < 7:
        return choose.choice([None, True, False, choose.choice(NUMBERS), choose.choice(TEXTS), choose.choice(TEXTS), 5])
    if what < 9:
        return [some_form(choose, deep - 1) for _ in range(choose.randrange(4))]
    if what < 10:
        keys = [key for key in some_texts(choose, 4) if not key.startswith("__p")]
        return Object((key, some_form(choose, deep - 1)) for key in keys)
    if what < 11:
        return Object([("__ptype", "Ref"), ("kind", lowered(choose.choice(KINDS_PRINTED))), ("title", choose.choice(TEXTS))])
    keys = choose.choice([[1, 2], ["b", "a"], [1, "1"], ["__p"], [0], ["a", 3, "A"]])
    return Object([("__ptype", "Hash"), ("__pvalue", [it for key in keys for it in (key, some_form(choose, deep - 1))])])


def some_forms(choose):
    return Object((key, some_form(choose)) for key in some_texts(choose, 4))


def some_catalog(choose):
    count = choose.choice([0, 1, 1, 2, 3, 5, 12])
    names = choose.sample([(title, kind) for title in TEXTS for kind in KINDS_PRINTED], count)
    resources = [Object([("attrs", some_forms(choose)), ("in", sorted(set(choose.choices(range(count), k=choose.randrange(3))))),
                         ("tags", some_texts(choose, 4)), ("title", title), ("type", kind)]) for title, kind in names]
    pairs = sorted({(choose.randrange(count), choose.randrange(count)) for _ in range(choose.randrange(6))}) if count else []
    edges = [[first, then, choose.random() < 0.5] for first, then in pairs]
    return Object([("catalog", 1), ("edges", edges), ("node", choose.choice(TEXTS)), ("resources", resources)])


def some_lines(choose):
    told = ["unchanged", "changed", "failed", "skipped", "noop", "changed"]
    return [Object([("changes", [choose.choice(TEXTS) for _ in range(choose.randrange(3))]), ("fault", choose.choice([None, "write mode", ""])),
                    ("ref", f"{choose.choice(KINDS_PRINTED)}[{choose.choice(TEXTS)}]"), ("refreshed", choose.random() < 0.3),
                    ("status", choose.choice(told))]) for _ in range(choose.randrange(5))]


def some_report(choose):
    report = report_of(choose.choice(TEXTS), some_lines(choose))
    if dict(report)["noop"] == 0 and choose.random() < 0.4:
        return Object([("report", 1) if key == "report" else (key, value) for key, value in report if key != "noop"])
    return report


def some_machine(choose):
    state = Object((key, some_forms(choose)) for key in some_texts(choose, 4))
    return Object([("failing", [choose.choice(TEXTS) for _ in range(choose.randrange(3))]), ("machine", 1), ("state", state)])


def some_facts(choose, deep=2):
    keys = some_texts(choose, 3)
    values = [some_facts(choose, deep - 1) if deep and choose.random() < 0.3 else choose.choice([None, True, 7, "x", [1, "y"]]) for _ in keys]
    if is_plain(keys):
        return Object(zip(keys, values))
    return Object([("__ptype", "Hash"), ("__pvalue", [it for pair in zip(keys, values) for it in pair])])


def some_site(choose):
    others = choose.sample(["data/a.json", "hiera.yaml", "modules/m/manifests/init.pp", "x"], choose.randrange(3))
    paths = sorted({"manifests/site.pp", *others})
    return Object([("files", Object((path, choose.choice(TEXTS)) for path in paths)),
                   ("nodes", Object((name, some_facts(choose)) for name in some_texts(choose, 3)))])


def some_export(choose):
    return Object([("at", f"{choose.choice(TEXTS)}:{choose.choice([0, 1, 12, 2**32 - 1])}"), ("attrs", some_forms(choose)),
                   ("tags", some_texts(choose, 3)), ("title", choose.choice(TEXTS)), ("type", choose.choice(KINDS_PRINTED))])


def some_entry(choose, number, version):
    told = {"author": choose.randrange(3), "call": choose.randrange(4), "entry": number, "node": choose.choice(TEXTS)}
    kind = choose.choice(["publish", "publish", "deactivate", "deploy", "report"][: 4 if version == 1 else 5])
    if kind == "publish":
        exports = [some_export(choose) for _ in range(choose.randrange(3))]
        told |= {"facts": some_facts(choose), "k": choose.randrange(number + 1), "set": exports}
    elif kind == "deploy":
        del told["node"]
        told["site"] = some_site(choose)
    elif kind == "report":
        told["report"] = report_of(told["node"], some_lines(choose))
    return Object(sorted((told | {"kind": kind}).items()))


def some_journal(choose):
    count, version = choose.choice([1, 1, 2, 3, 5]), choose.choice([1, 2, 2])
    opening = Object([("entry", 0), ("journal", version), ("kind", "open"), ("site", some_site(choose))])
    entries = [some_entry(choose, number, version) for number in range(1, count)]
    return "\n".join(map(written, [opening, *entries, Object([("entries", count)])]))


def one_line(some):
    return lambda choose: written(some(choose))


# A text without its last line feed, by its kind.
MADE = {"catalog": one_line(some_catalog), "report": one_line(some_report), "machine": one_line(some_machine), "journal": some_journal}
