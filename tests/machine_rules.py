"""What catalogs come to on a machine: a reckoning of the rules for `tests/runs` and `tests/waves`, which shares nothing with the program.

Catalogs are those of their JSON. Resources are told by their indexes; of a container no turn is told.
"""
import json

PROPERTIES = {
    "File": ["ensure", "content", "target", "owner", "group", "mode"], "Service": ["ensure", "enable"], "Package": ["ensure"],
    "User": ["ensure", "uid", "gid", "home", "shell", "comment", "groups"], "Group": ["ensure", "gid"]}
NATIVE = [*PROPERTIES, "Exec", "Notify"]
COUNTS_AS = {"installed": "present", True: "running", False: "stopped"}


class Failed(Exception):
    pass


class Machine:
    def __init__(self, state, failing):
        self.state, self.failing, self.calls = {ref: dict(record) for ref, record in state.items()}, failing, []

    def call(self, text):
        self.calls.append(text)
        if text in self.failing:
            raise Failed

    def holds(self, ref, name, value):
        self.call(f"holds {ref} {name}")
        record = self.state.get(ref)
        if name != "ensure":
            return record is not None and name in record and record[name] == value
        current = "absent" if record is None else record.get("ensure", "present")
        return current != "absent" if value == "present" else current == value

    def write(self, ref, name, value):
        self.call(f"write {ref} {name}")
        if name == "ensure" and value == "absent":
            self.state.pop(ref, None)
        else:
            self.state.setdefault(ref, {})[name] = value

    def refresh(self, ref):
        self.call(f"refresh {ref}")


class Catalog:
    """Of each resource what comes before it, near or far, and whose changes are signalled to it; within containers too."""

    def __init__(self, document):
        self.resources = document["resources"]
        self.refs = [f"{it['type']}[{it['title']}]" for it in self.resources]
        self.inside = [{n} for n in range(len(self.refs))]    # of each all that stands in it, itself too
        for n in range(len(self.refs)):
            for container in self.containers(n):
                self.inside[container].add(n)
        self.near, self.signals, self.before = ([set() for _ in self.refs] for _ in range(3))
        for edge in document["edges"]:
            self.relate(*edge)

    def containers(self, n):
        left, found = list(self.resources[n]["in"]), set()
        while left:
            near = left.pop()
            if near not in found:
                found.add(near)
                left += self.resources[near]["in"]
        return found

    def closes(self, first, then):
        """Whether something would come before itself."""
        return any(n == late or late in self.before[n] for n in self.inside[first] for late in self.inside[then])

    def relate(self, first, then, signal):
        for n in self.inside[then]:
            self.near[n] |= self.inside[first]
            if signal:
                self.signals[n] |= self.inside[first]
        earlier = self.inside[first].union(*(self.before[n] for n in self.inside[first]))
        for n, before in enumerate(self.before):
            if n in self.inside[then] or not before.isdisjoint(self.inside[then]):
                before |= earlier

    def has_turn(self, n):
        return self.resources[n]["type"] in NATIVE

    def creates(self, n):
        """The file that the turn of this resource asks for."""
        it = self.resources[n]
        path = it["attrs"].get("creates")
        return f"File[{path}]" if it["type"] == "Exec" and it["attrs"].get("refreshonly") is not True and isinstance(path, str) else None

    def order(self):
        """Each behind those that come before it, and of those that are ready the one with the least index next."""
        done = []
        while len(done) < len(self.refs):
            ready = [n for n in range(len(self.refs)) if n not in done and self.near[n] <= set(done)]
            done.append(ready[0])
        return done

    def waves(self):
        """In the first wave those that nothing with a turn comes before, in each later one those whose predecessors all had theirs."""
        left, had, waves = [n for n in range(len(self.refs)) if self.has_turn(n)], set(), []
        while left:
            wave = [n for n in left if all(it in had for it in self.before[n] if self.has_turn(it))]
            waves.append(wave)
            had |= set(wave)
            left = [n for n in left if n not in had]
        return waves


def work(machine, ref, it, signalled, line):
    """Takes the resource's turn, as far as no call fails."""
    kind, attrs = it["type"], it["attrs"]
    noop = attrs.get("noop") is True
    for name in PROPERTIES.get(kind, []):
        if name not in attrs:
            continue
        value = attrs[name]
        if name == "ensure" and (isinstance(value, bool) and kind == "Service" or value == "installed"):
            value = COUNTS_AS[value]
        line["fault"] = f"holds {name}"
        if not machine.holds(ref, name, value):
            line["fault"] = f"write {name}"
            if not noop:
                machine.write(ref, name, value)
            line["changes"].append(name)
        if name == "ensure" and value == "absent":
            break
    runs = kind == "Notify" or kind == "Exec" and attrs.get("refreshonly") is not True
    if runs and kind == "Exec" and isinstance(attrs.get("creates"), str):
        line["fault"] = "holds ensure"
        runs = not machine.holds(f"File[{attrs['creates']}]", "ensure", "present")
    line["fault"] = "refresh"
    if runs:
        if not noop:
            machine.refresh(ref)
        line["changes"].append("run")
    if kind in ("Service", "Exec") and signalled and not noop:
        machine.refresh(ref)
        line["refreshed"] = True
    line["fault"] = None


def turn(catalog, machine, n, told):
    """The line of this resource's turn, which knows of these lines of others."""
    ref, it = catalog.refs[n], catalog.resources[n]
    line = {"changes": [], "fault": None, "ref": ref, "refreshed": False, "status": "skipped"}
    if any(told[other]["status"] == "failed" for other in catalog.before[n] if other in told):
        return line
    signalled = any(told[other]["status"] == "changed" or told[other]["refreshed"] for other in catalog.signals[n] if other in told)
    try:
        work(machine, ref, it, signalled, line)
        line["status"] = "unchanged" if not line["changes"] else "noop" if it["attrs"].get("noop") is True else "changed"
    except Failed:
        line["status"] = "failed"
    return line


def one_by_one(catalog, machine):
    """The lines of one turn after another, in their order; the machine is as they leave it."""
    told = {}
    for n in catalog.order():
        if catalog.has_turn(n):
            told[n] = turn(catalog, machine, n, told)
    return list(told.values())


def by_waves(catalog, machine):
    """The lines by rising index: each turn finds the records that its wave found, and its own record alone comes back."""
    told = {}
    for wave in catalog.waves():
        parts = {n: Machine({ref: record for ref, record in machine.state.items() if ref in (catalog.refs[n], catalog.creates(n))},
                            machine.failing) for n in wave}
        lines = {n: turn(catalog, part, n, told) for n, part in parts.items()}
        for n, part in parts.items():
            machine.state.pop(catalog.refs[n], None)
            if catalog.refs[n] in part.state:
                machine.state[catalog.refs[n]] = part.state[catalog.refs[n]]
        told |= lines
    return [told[n] for n in sorted(told)]


def output(lines, machine):
    """What `apply` writes for these lines and this machine, and its status."""
    changed = sum(it["status"] != "noop" and bool(it["changes"] or it["refreshed"]) for it in lines)
    failed = sum(it["status"] == "failed" for it in lines)
    noop = sum(it["status"] == "noop" for it in lines)
    report = {"changed": changed, "failed": failed, "node": "n", "noop": noop, "report": 2, "resources": lines}
    document = {"failing": machine.failing, "machine": 1, "state": machine.state}
    text = "".join(json.dumps(it, sort_keys=True, separators=(",", ":")) + "\n" for it in (report, document))
    return text, (2 if changed else 0) + (4 if failed else 0)
