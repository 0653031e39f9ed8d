"""What an audit of a journal comes to: a reckoning of its own, by which tests judge what `audit` says.

The rules on numbers are reckoned here. What a publication's first entries mean is taken from what `sequence` wrote: from legal journals
that are known, or from a run of `sequence` on the site in force, with requests that bring every other node to the set that it had.
Where no such run comes to these sets, nothing is known of the entry.
"""
import json
import subprocess
from collections import OrderedDict

from document_rules import Object, parsed, written

# The parts of an entry that a rule speaks of, in their order, and what is said of an entry of which nothing is known.
CALL, K, FAULT, SET, UNKNOWN = "call", "k", "fault", "set", "?"


def bundled(facts):
    """Facts as a bundle spells them, of the form in which a journal does."""
    if not isinstance(facts, Object):
        return list(map(bundled, facts)) if isinstance(facts, list) else facts
    keys = [key for key, _ in facts]
    if keys == ["__ptype", "__pvalue"]:
        told = facts[1][1]
        return Object((key, bundled(it)) for key, it in zip(told[::2], told[1::2]))
    return Object((key, bundled(it)) for key, it in facts)


class Entry:
    """An entry of a journal, with texts for all that is compared."""

    def __init__(self, tree):
        told = dict(tree)
        self.kind, self.author, self.call, self.node = told["kind"], told.get("author"), told.get("call"), told.get("node")
        self.k, self.facts = told.get("k"), told.get("facts")
        self.set = written(told["set"]) if "set" in told else None
        self.site = written(told["site"]) if "site" in told else None


def entries_of(journal):
    """The entries of a journal that is one."""
    return [Entry(parsed(line)) for line in journal.split("\n")[:-2]]


class Views:
    """The site in force behind each number of entries, and the set of each node, in the order of their publications."""

    def __init__(self, entries):
        self.sites, self.sets, self.entries = [None], [OrderedDict()], entries
        for it in entries:
            sets = self.sets[-1].copy()
            if it.kind in ("publish", "deactivate"):
                sets.pop(it.node, None)
            if it.kind == "publish":
                sets[it.node] = it
            self.sites.append(it.site or self.sites[-1])
            self.sets.append(sets)

    def meant_by(self, entry):
        """All that the set of a publication depends on."""
        return self.sites[entry.k], entry.node, written(entry.facts), self.others(entry.k, entry.node)

    def others(self, k, node):
        """What nodes but this one had exported by then."""
        return frozenset((name, it.set) for name, it in self.sets[k].items() if name != node and it.set != "[]")


class Meanings:
    """The sets that publications come to, or `FAULT`, by what they depend on."""

    def __init__(self, program):
        self.program, self.known, self.runs = program, {}, 0

    def learn(self, journal):
        """Takes the sets of a journal that `sequence` or its like wrote."""
        entries = entries_of(journal)
        views = Views(entries)
        for it in entries:
            if it.kind == "publish":
                self.known.setdefault(views.meant_by(it), it.set)

    def of(self, views, entry):
        key = views.meant_by(entry)
        if key not in self.known:
            self.known[key] = self.found(views, entry, key)
        return self.known[key]

    def found(self, views, entry, key):
        """The same, by runs of `sequence` that come to these sets in the end, if one does."""
        asked = {"node": entry.node, "facts": entry.facts}
        before = [{"node": it.node, "facts": it.facts} if it.kind == "publish" else {"deactivate": it.node}
                  for it in views.entries[1:entry.k] if it.kind in ("publish", "deactivate")]
        latest = [{"node": node, "facts": it.facts} for node, it in views.sets[entry.k].items() if node != entry.node]
        for requests in ([], latest, before, latest + latest):
            meant = self.run(key, [*requests, asked])
            if meant != UNKNOWN:
                return meant
        return UNKNOWN

    def run(self, key, requests):
        """What the last request's publication comes to, where the run has this site, these facts and sets."""
        site, node, facts, others = key
        told = dict(parsed(site))
        spelt = [Object((name, bundled(it) if name == "facts" else it) for name, it in asked.items()) for asked in requests]
        nodes = Object((name, bundled(it)) for name, it in told["nodes"])
        bundle = Object([("bundle", 1), ("files", told["files"]), ("nodes", nodes), ("requests", spelt)])
        self.runs += 1
        ran = subprocess.run([self.program, "sequence"], input=written(bundle).encode(), capture_output=True, timeout=120)
        if ran.returncode not in (0, 1):
            return UNKNOWN
        lines = ran.stdout.decode().split("\n")
        count = next(at for at, line in enumerate(lines) if line.startswith('{"entries":'))
        entries = [Entry(parsed(line)) for line in lines[:count]]
        is_refused = json.loads(lines[-2]).get("fault") is not None
        views = Views(entries)
        seen = count if is_refused else count - 1
        if entries[0].site != site or views.others(seen, node) != others:
            return UNKNOWN
        if is_refused:
            return FAULT
        return entries[-1].set if (entries[-1].node, written(entries[-1].facts)) == (node, facts) else UNKNOWN


def audited(journal, meanings):
    """What is said of a journal, and the first entry of which nothing is known, if no earlier one breaks a rule."""
    entries = entries_of(journal)
    views, calls = Views(entries), {}
    for place, it in enumerate(entries):
        if place == 0:
            continue
        broken = CALL if it.call != calls.get(it.author, 0) else None
        calls[it.author] = calls.get(it.author, 0) + 1
        if not broken and it.kind == "publish":
            broken = K if not 1 <= it.k <= place else None
            meant = broken or meanings.of(views, it)
            if meant == UNKNOWN:
                return None, place
            broken = broken or (FAULT if meant == FAULT else None if meant == it.set else SET)
        if broken:
            return f"entry {place} {broken}\n", None
    return f"legal {len(entries)}\n", None
