"""Sites at random for `tests/random`: trees of parts, so that a site that shows a difference can be reduced part by part.

All names are few and in lower case, titles are told apart by a count, and most of what is declared, read or called is there: so
most sites compile. What is wrong in the others comes from a part in a hundred that is not minded.
"""
import json
import random

TYPES = {"int": "Integer", "str": "String", "bool": "Boolean", "list": "Array[String]", "hash": "Hash[String, String]"}
LOOSE = {
    "int": ["Integer[0]", "Optional[Integer]", "Variant[Integer, String]", "Scalar", "Any", "Numeric", "Data", "NotUndef"],
    "str": ["String[0]", "Optional[String]", "Variant[Integer, String]", "Scalar", "Any", "Data", "NotUndef[String]"],
    "bool": ["Optional[Boolean]", "Any", "Scalar", "Variant[Undef, Boolean]"],
    "list": ["Array", "Array[Any]", "Optional[Array]", "Collection", "Data", "Array[Variant[Integer, String]]"],
    "hash": ["Hash", "Hash[String, Any]", "Collection", "Data", "Variant[Array, Hash]"],
}
WORDS = ["red", "green", "blue", "teal", "pink"]


class Part:
    """A piece of a text, with pieces within it, each of which may be dropped."""

    def __init__(self, head, parts=None, tail="", joint="\n"):
        self.head, self.parts, self.tail, self.joint = head, parts or [], tail, joint

    def text(self):
        return self.head + self.joint.join(part.text() for part in self.parts) + self.tail


def block(head, parts):
    return Part(head + " {\n", parts, "\n}")


class Class:
    """What is known of a class while a site is made."""

    def __init__(self, name, module, parent):
        self.name, self.module, self.parent = name, module, parent
        self.params, self.needs, self.vars, self.titles, self.virtual = [], [], {}, [], []

    def line(self):
        """The class and its parents."""
        one, seen = self, []
        while one:
            seen.append(one)
            one = one.parent
        return seen


class Scope:
    """What can be read at a place, and what stands there."""

    def __init__(self, kind, names=(), owner=None, outer=None):
        self.kind, self.owner, self.outer = kind, owner, outer
        self.vars = dict(names)
        self.titles = outer.titles if outer else []
        self.taken = outer.taken if kind == "block" else set()


class Maker:
    def __init__(self, seed):
        self.any = random.Random(seed)
        self.count = 0
        self.classes, self.defines, self.functions, self.templates = [], [], [], []
        self.virtual, self.exported, self.declared = [], [], []
        self.files, self.data, self.top = {}, {}, {}

    # ---- chances

    def odds(self, percent):
        return self.any.random() * 100 < percent

    def one(self, options):
        return self.any.choice(list(options))

    def some(self, most, make, least=0):
        return [make() for _ in range(self.any.randint(least, most))]

    def number(self):
        self.count += 1
        return self.count

    # ---- values

    def readable(self, scope, kind):
        """How variables of this kind can be read at a place."""
        found, at, nearest = [], scope, {}
        while at:
            nearest = {**at.vars, **nearest}
            at = at.outer
        owner = scope.owner
        if owner:
            for one in owner.line()[1:]:
                nearest = {**one.vars, **nearest}
                found += [f"${one.name}::{name}" for name, its in one.vars.items() if its == kind]
        found += [f"${name}" for name, its in {**self.top, **nearest}.items() if its == kind]
        found += [f"$::{name}" for name, its in self.top.items() if its == kind]
        if scope.kind in ("class", "define", "instance") and kind == "str":
            found += ["$title", "$name", "$module_name"]
        for one in self.declared:
            if one is not owner and self.odds(60):
                found += [f"${one.name}::{name}" for name, its in one.vars.items() if its == kind]
        return found

    def value(self, scope, kind, depth=0):
        """An expression of this kind."""
        if depth < 3 and self.odds(45):
            found = self.readable(scope, kind)
            if found:
                return self.one(found)
        if depth > 2 or self.odds(35):
            return self.plain(kind)
        return getattr(self, f"some_{kind}")(scope, depth + 1)

    def plain(self, kind):
        if kind == "int":
            return str(self.any.randint(0, 9))
        if kind == "str":
            return f"'{self.one(WORDS)}'"
        if kind == "bool":
            return self.one(["true", "false"])
        if kind == "list":
            return "[" + ", ".join(self.some(3, lambda: self.plain("str"))) + "]"
        return "({" + ", ".join(f"'{word}' => {self.plain('str')}" for word in self.any.sample(WORDS, self.any.randint(0, 3))) + "})"

    def chosen(self, scope, kind, depth):
        """Expressions that any kind has."""
        form, value = self.any.randint(0, 9), lambda its: self.value(scope, its, depth)
        if form == 0:
            return f"if {value('bool')} {{ {value(kind)} }} else {{ {value(kind)} }}"
        if form == 1:
            return f"(({value('str')}) ? {{ {self.plain('str')} => {value(kind)}, default => {value(kind)} }})"
        if form == 2:
            return f"case {value('str')} {{ {self.plain('str')}, {self.plain('str')}: {{ {value(kind)} }} default: {{ {value(kind)} }} }}"
        if form == 3:
            name = f"w{self.number()}"
            inner = Scope("lambda", {name: kind}, scope.owner, scope)
            return f"with({value(kind)}) |{self.one([TYPES[kind] + ' ', ''])}${name}| {{ {self.value(inner, kind, depth)} }}"
        if form in (4, 5):
            fitting = [it for it in self.functions if it[2] == kind]
            if fitting and scope.kind not in ("function", "template"):
                name, params, _, _ = self.one(fitting)
                return f"{name}({', '.join(value(its) for its in params)})"
        if form in (6, 7) and scope.kind not in ("function", "template") and kind in self.data_kinds():
            key = self.one(key for key, its in self.data.items() if its == kind)
            return self.one([f"lookup('{key}')", f"lookup('{key}', {TYPES[kind]})",
                             f"lookup('none::{key}', {{ 'default_value' => {self.plain(kind)} }})",
                             f"lookup('absent', {TYPES[kind]}, 'first', {self.plain(kind)})"])
        if form == 8:
            return f"({value(kind)})"
        return self.plain(kind)

    def data_kinds(self):
        return set(self.data.values())

    def some_int(self, scope, depth):
        value = lambda kind: self.value(scope, kind, depth)
        form = self.any.randint(0, 8)
        if form == 0:
            return f"({value('int')} {self.one('+-*')} {value('int')})"
        if form == 1:
            return f"{self.one(['length', 'size'])}({value(self.one(['str', 'list', 'hash']))})"
        if form == 2:
            return f"{self.one(['min', 'max'])}({value('int')}, {value('int')})"
        if form == 3:
            return f"abs(-{self.any.randint(0, 9)})"
        if form == 4:
            inner = Scope("lambda", {"m": "int", "e": "str"}, scope.owner, scope)
            return f"{value('list')}.reduce({value('int')}) |$m, $e| {{ {self.value(inner, 'int', depth)} }}"
        return self.chosen(scope, "int", depth)

    def some_str(self, scope, depth):
        value = lambda kind: self.value(scope, kind, depth)
        form = self.any.randint(0, 12)
        if form in (0, 1, 2):
            return self.interpolated(scope, depth)
        if form == 3:
            return f"join({value('list')}, {self.one([chr(39) + '-' + chr(39), chr(39) * 2])})"
        if form == 4:
            return f"{self.one(['upcase', 'downcase', 'strip'])}({value('str')})"
        if form == 5:
            return self.one(["$facts['role']", "$trusted['certname']", "$environment", "$facts['os']['name']"])
        if form in (6, 7) and self.templates and scope.kind not in ("function", "template"):
            return self.rendered(scope, depth)
        if form in (8, 9):
            return self.inline(scope, depth)
        if form == 10:
            return f"\"${{dig({value('hash')}, {value('str')})}}\""
        return self.chosen(scope, "str", depth)

    def interpolated(self, scope, depth):
        pieces = []
        for _ in range(self.any.randint(1, 3)):
            kind = self.one(["str", "int", "list", "bool", "str"])
            found = [name for name in self.readable(scope, kind) if name[1:].replace("_", "a").isalnum()]
            if found and self.odds(50):
                pieces.append("${" + self.one(found)[1:] + "}")
            else:
                pieces.append("${" + "(" + self.value(scope, kind, depth + 1) + ")}")
        return '"' + self.one(["", "x", "-"]).join(pieces) + '"'

    def some_bool(self, scope, depth):
        value = lambda kind: self.value(scope, kind, depth)
        form = self.any.randint(0, 9)
        if form == 0:
            return f"({value('int')} {self.one(['<', '>', '<=', '>=', '==', '!='])} {value('int')})"
        if form == 1:
            return f"({value('str')} {self.one(['==', '!=', 'in'])} {value('str')})"
        if form == 2:
            return f"({value('str')} in {value('list')})"
        if form == 3:
            return f"({value('bool')} {self.one(['and', 'or'])} {value('bool')})"
        if form == 4:
            return f"!({value('bool')})"
        if form == 5:
            kind = self.one(TYPES)
            return f"({value(kind)} =~ {self.one([TYPES[self.one(TYPES)], *LOOSE[kind]])})"
        if form == 6:
            return f"empty({value(self.one(['str', 'list', 'hash']))})"
        if form == 7:
            inner = Scope("lambda", {"e": "str"}, scope.owner, scope)
            return f"{value('list')}.{self.one(['any', 'all'])} |$e| {{ {self.value(inner, 'bool', depth)} }}"
        return self.chosen(scope, "bool", depth)

    def some_list(self, scope, depth):
        value = lambda kind: self.value(scope, kind, depth)
        form = self.any.randint(0, 8)
        if form == 0:
            return f"({value('list')} {self.one('+-')} {value('list')})"
        if form == 1:
            return f"{self.one(['unique', 'flatten'])}({value('list')})"
        if form == 2:
            return f"{self.one(['keys', 'values'])}({value('hash')})"
        if form == 3:
            inner = Scope("lambda", {"e": "str"}, scope.owner, scope)
            return f"{value('list')}.map |$e| {{ {self.value(inner, 'str', depth)} }}"
        if form == 4:
            inner = Scope("lambda", {"e": "str"}, scope.owner, scope)
            return f"filter({value('list')}) |$e| {{ {self.value(inner, 'bool', depth)} }}"
        if form == 5:
            inner = Scope("lambda", {"k": "str", "e": "str"}, scope.owner, scope)
            return f"{value('hash')}.map |$k, $e| {{ {self.value(inner, 'str', depth)} }}"
        return self.chosen(scope, "list", depth)

    def some_hash(self, scope, depth):
        value = lambda kind: self.value(scope, kind, depth)
        form = self.any.randint(0, 5)
        if form == 0:
            return f"({value('hash')} + {value('hash')})"
        if form == 1:
            return f"({value('hash')} - {value(self.one(['str', 'list']))})"
        if form == 2:
            inner = Scope("lambda", {"k": "str", "e": "str"}, scope.owner, scope)
            return f"{value('hash')}.filter |$k, $e| {{ {self.value(inner, 'bool', depth)} }}"
        if form == 3:
            return "({" + ", ".join(f"'{word}' => {value('str')}" for word in self.any.sample(WORDS, 2)) + "})"
        return self.chosen(scope, "hash", depth)

    # ---- templates and functions

    def rendered(self, scope, depth):
        """A template of a file, with what it takes."""
        path, params = self.one(self.templates)
        if not params:
            return f"epp('{path}')"
        return f"epp('{path}', {{ {', '.join(f'{chr(39)}{name}{chr(39)} => {self.value(scope, kind, depth + 1)}' for name, kind, _ in params)} }})"

    def inline(self, scope, depth):
        """A template within a text in single quotes: what it says has none, but where another one stands within it."""
        if scope.kind == "template":
            return "inline_epp('y')"
        if self.odds(30):
            return "inline_epp('<%= inline_epp(\\'y\\') %>')"
        name = f"q{self.number()}"
        kind = self.one(["int", "bool"])
        if self.odds(40):
            return f"inline_epp('<%- | ${name} | -%>i<%= ${name} %>', {{ '{name}' => {self.value(scope, kind, depth + 1)} }})"
        if self.odds(50):
            return f"inline_epp('i<%= ${name} %>', {{ '{name}' => {self.value(scope, kind, depth + 1)} }})"
        found = self.readable(scope, "str") + self.readable(scope, "int")
        return f"inline_epp('<% if {self.plain('bool')} {{ -%> a <% }} -%>\n<%= {self.one(found) if found else 3} %>')"

    def make_function(self, name, path):
        kinds = self.some(2, lambda: self.one(["int", "str", "list"]))
        gives = self.one(["int", "str", "str", "list"])
        params = {f"p{at}": kind for at, kind in enumerate(kinds)}
        scope = Scope("function", params)
        takes = ", ".join(self.one([TYPES[kind] + " ", "", self.one(LOOSE[kind]) + " "]) + f"${at}" for at, kind in params.items())
        body = []
        if self.odds(40):
            body.append(Part(f"$v = {self.value(scope, 'str', 1)}"))
            scope.vars["v"] = "str"
        if self.odds(15):
            body.append(Part(f"notice({self.value(scope, 'str', 1)})"))
        body.append(Part(self.value(scope, gives, 1)))
        head = f"function {name}({takes})" + self.one([f" >> {TYPES[gives]}", "", ""])
        self.files.setdefault(path, []).append(block(head, body))
        self.functions.append((name, kinds, gives, 0))

    def make_template(self, module, name):
        params = [(f"p{at}", self.one(["int", "str", "list"]), self.odds(30)) for at in range(self.any.randint(0, 2))]
        scope = Scope("template", {its: kind for its, kind, _ in params})
        parts = [Part(f"of {name}\n")]
        if params:
            parts.insert(0, Part("<%- | " + ", ".join(self.one(["", TYPES[kind] + " "]) + f"${its}" for its, kind, _ in params) + " | -%>\n"))
        for _ in range(self.any.randint(1, 3)):
            form = self.any.randint(0, 3)
            if form == 0:
                parts.append(Part("some text\n"))
            elif form == 1:
                parts.append(Part(f"<%= {self.value(scope, self.one(['str', 'int']), 1)} %>\n"))
            elif form == 2:
                parts.append(Part(f"<% if {self.value(scope, 'bool', 1)} {{ -%>\nyes\n<% }} -%>\nend\n"))
            else:
                inner = Scope("template", {"e": "str"}, None, scope)
                parts.append(Part(f"<% flatten({self.value(scope, 'list', 1)}).each |$e| {{ -%>\n- <%= {self.value(inner, 'str', 2)} %>\n<% }} -%>\nend\n"))
        self.files[f"modules/{module}/templates/{name}"] = [Part("", parts, "", "")]
        self.templates.append((f"{module}/{name}", params))

    # ---- resources

    def title(self, scope, kind):
        number = self.number()
        word = f"/t{number}" if kind in ("file",) else f"t{number}"
        return word

    def attributes(self, scope, kind):
        """Attributes of a native kind by their names."""
        forms = {
            "notify": {"message": ("str", "int", "list", "bool", "hash")},
            "file": {"content": ("str",), "mode": ("str",), "owner": ("str",), "group": ("str",)},
            "user": {"groups": ("list",), "shell": ("str",), "comment": ("str",), "home": ("str",)},
            "service": {"ensure": ("str",), "enable": ("bool",)},
            "package": {"ensure": ("str",)},
            "exec": {"command": ("str",), "refreshonly": ("bool",)},
        }[kind]
        names = [name for name in forms if self.odds(60)]
        self.any.shuffle(names)
        return [(name, self.value(scope, self.one(forms[name]), 1)) for name in names]

    def metaparameters(self, scope):
        found = []
        if self.odds(15):
            found.append(("tag", self.one([self.plain("str"), f"['{self.one(WORDS)}', '{self.one(WORDS)}']"])))
        if scope.titles and self.odds(12):
            ref = self.one(scope.titles)
            found.append((self.one(["require", "subscribe", "require", "before"]), self.one([ref, f"[{ref}]"])))
        return found

    def native(self):
        return self.one(["notify", "notify", "notify", "file", "user", "service", "package", "exec"])

    def resource(self, scope, form=""):
        kind = self.native()
        title = self.title(scope, kind)
        lines = self.attributes(scope, kind) + self.metaparameters(scope)
        shown = f"'{title}'"
        if scope.kind == "instance":
            shown, title = f'"{title}-${{title}}"', None
            if kind == "file":
                shown = '"/' + shown[2:]
        elif scope.kind == "lambda" and scope.each:
            shown, title = f'"{title}-${{{scope.each}}}"', None
        elif self.odds(8):
            shown = f'"{title}"'
        refs = []
        if title:
            refs.append(f"{kind.capitalize()}['{title}']")
        parts = [Part(f"{name} => {value}") for name, value in lines]
        if title and self.odds(8):
            second = self.title(scope, kind)
            shown = f"['{title}', '{second}']"
            refs.append(f"{kind.capitalize()}['{second}']")
        if self.odds(8) and kind == "notify":
            parts = [Part(f"* => {{ 'message' => {self.value(scope, 'str', 1)} }}")] + [it for it in parts if not it.head.startswith("message")]
        made = Part(f"{form}{kind} {{ {shown}: ", parts, " }", ", ")
        if self.odds(5) and kind == "notify" and not any(it.head.startswith("*") for it in parts):
            made = Part(f"{form}{kind} {{ default: message => {self.value(scope, 'str', 1)}; {shown}: ", parts, " }", ", ")
        return made, refs

    def plain_resource(self, scope):
        made, refs = self.resource(scope)
        self.note(scope, refs)
        if refs and self.odds(6) and scope.titles:
            arrow = self.one(["->", "~>", "<-", "<~"])
            return Part("", [made, Part(self.one(scope.titles))], "", f" {arrow} ")
        return made

    def note(self, scope, refs):
        if not getattr(scope, "unsure", False):
            scope.titles.extend(refs)
            if scope.owner and scope.kind == "class":
                scope.owner.titles.extend(refs)

    def virtual_resource(self, scope):
        made, refs = self.resource(scope, "@")
        self.virtual.extend(refs)
        if scope.owner and scope.kind == "class":
            scope.owner.virtual.extend(refs)
        return made

    def exported_resource(self, scope):
        kind = self.one(["notify", "file", "user"])
        title = self.title(scope, kind)
        shown = f'"{title}-${{trusted[\'certname\']}}"'
        lines = [(name, value) for name, value in self.attributes(scope, kind)]
        if self.odds(50):
            lines.append(("tag", self.plain("str")))
        return Part(f"@@{kind} {{ {shown}: ", [Part(f"{name} => {value}") for name, value in lines], " }", ", ")

    # ---- statements

    def many_calls(self, scope):
        """Functions or templates that are called several times."""
        calls = [f"{name}({', '.join(self.plain(its) for its in params)})" for name, params, _, _ in self.functions]
        calls += [f"epp('{path}')" for path, params in self.templates if not params]
        calls += ["inline_epp('y')", self.inline(scope, 2), self.one(["'q'", "inline_epp('<%= inline_epp(\\'y\\') %>')"])]
        if self.odds(70):
            return [Part(f"$v{self.number()} = {self.one(calls)}") for _ in range(self.any.randint(1, 4))]
        name = f"e{self.number()}"
        listed = "[" + ", ".join(self.some(8, lambda: self.plain("str"), 2)) + "]"
        return [ Part(f"$v{self.number()} = {listed}.map |${name}| {{ ", [Part(f"{self.one(calls)}")], " }")]

    def of_parent(self, scope):
        """What a class reads of its parents."""
        found = [f"${{{name}}}" for one in scope.owner.line()[1:] for name in one.vars]
        if not found:
            return self.plain_resource(scope)
        return Part(f"notify {{ 't{self.number()}': message => \"{self.one(found)}\" }}")

    def assignment(self, scope):
        kind = self.one(["int", "str", "str", "list", "hash", "bool"])
        name = f"v{self.number()}" if self.odds(60) else self.one(["x", "y", "z"])
        if name in scope.taken:
            name = f"v{self.number()}"
        made = Part(f"${name} = {self.value(scope, kind)}")
        scope.taken.add(name)
        if getattr(scope, "unsure", False):
            return made
        scope.vars[name] = kind
        if scope.kind == "class":
            scope.owner.vars[name] = kind
        if scope.kind == "top":
            self.top[name] = kind
        return made

    def given(self, scope, one):
        """The parameters of a class or define, with values for those that have none."""
        found = []
        for name, kind, has_default in one.params if isinstance(one, Class) else one[1]:
            if not has_default or self.odds(50):
                found.append(Part(f"{name} => {self.value(scope, kind, 1)}"))
        return found

    def inclusion(self, scope):
        if not self.classes:
            return self.plain_resource(scope)
        barred = [scope.owner] if scope.owner else []
        options = [one for one in self.classes if one not in barred and (one not in self.declared or self.odds(30))]
        if scope.owner:  # a class declares earlier ones alone, but for a few
            at = self.classes.index(scope.owner)
            options = [one for one in options if self.classes.index(one) < at or self.odds(10)]
        if not options:
            return self.plain_resource(scope)
        one = self.one(options)
        is_sure = not getattr(scope, "unsure", False)
        if one not in self.started and (one.needs or self.odds(20)):
            if is_sure:
                self.started.add(one)
            made = Part(f"class {{ '{self.spelled(one.name)}': ", self.given(scope, one), " }", ", ")
        else:
            word = self.one(["include", "include", "include", "contain", "require"])
            if word in ("contain", "require") and scope.kind in ("top", "node") and self.odds(50):
                word = "include"
            made = Part(self.one([f"{word} {one.name}", f"{word}('{self.spelled(one.name)}')", f"{word} Class['{one.name}']"]))
        if is_sure and scope.kind in ("top", "node"):
            self.declared.extend(it for it in one.line() if it not in self.declared)
        if is_sure:
            self.started.add(one)
            self.note(scope, [f"Class['{one.name}']"])
        return made

    def spelled(self, name):
        return f"::{name}" if self.odds(10) else name

    def instance(self, scope):
        if not self.defines:
            return self.plain_resource(scope)
        options = self.defines
        if scope.kind == "instance":
            options = [it for it in options if it[2] < scope.rank]
        if not options:
            return self.plain_resource(scope)
        one = self.one(options)
        name = one[0]
        title = f"i{self.number()}"
        shown = f'"{title}-${{title}}"' if scope.kind == "instance" else f"'{title}'"
        if scope.kind == "lambda" and scope.each:
            shown = f'"{title}-${{{scope.each}}}"'
        kind = "::".join(it.capitalize() for it in name.split("::"))
        form = self.one(["", "", "", "@"]) if scope.kind != "function" else ""
        if shown.startswith("'"):
            ref = f"{kind}['{title}']"
            if form:
                self.virtual.append(ref)
            else:
                self.note(scope, [ref])
        parts = self.given(scope, one) + [Part(f"{its} => {value}") for its, value in self.metaparameters(scope)]
        return Part(f"{form}{name} {{ {shown}: ", parts, " }", ", ")

    def override(self, scope):
        """A line on a resource of a parent, or on one that the scope declares."""
        owner = scope.owner
        options = [ref for one in owner.line()[1:] for ref in one.titles + one.virtual if ref[0] in "NFUSPE"] if owner else []
        options = [ref for ref in options if ref.split("[")[0] in ("Notify", "File", "User", "Service", "Package", "Exec")]
        if not options or scope.kind != "class":
            return self.plain_resource(scope)
        ref = self.one(options)
        kind = ref.split("[")[0].lower()
        lines = [(name, value, self.one(["=>", "=>", "+>"]) if name == "groups" or self.odds(10) else "=>") for name, value in self.attributes(scope, kind)]
        if self.odds(10):
            lines.append((self.one(["require", "subscribe"]), self.one(scope.titles) if scope.titles else "undef", self.one(["=>", "+>"])))
        if self.odds(10) and lines:
            lines[0] = (lines[0][0], "undef", "=>")
        return Part(f"{ref} {{ ", [Part(f"{name} {arrow} {value}") for name, value, arrow in lines], " }", ", ")

    def query(self, scope, kind):
        form = self.any.randint(0, 6)
        if form == 0:
            return ""
        if form in (1, 2):
            return f" tag {self.one(['==', '=='])} {self.one([self.plain('str'), self.plain('str')])} "
        if form == 3:
            refs = [ref for ref in self.virtual if ref.lower().startswith(kind + "[")]
            title = self.one(refs).split("'")[1] if refs else "t1"
            return f" title == '{title}' "
        if form == 4:
            name = {"notify": "message", "file": "mode", "user": "groups", "service": "ensure", "package": "ensure", "exec": "command"}.get(kind, "p0")
            return f" {name} {self.one(['==', '!=']) if name != 'groups' else '=='} {self.plain('str')} "
        return f"{self.query(scope, kind) or ' title != tt '}{self.one(['and', 'or'])}{self.query(scope, kind) or ' title == tt '}"

    def collector(self, scope):
        kind = self.native()
        if self.defines and self.odds(20):
            kind = self.one(self.defines)[0]
        shown = "::".join(it.capitalize() for it in kind.split("::"))
        made = f"{shown} <|{self.query(scope, kind)}|>"
        if self.odds(35) and "::" not in kind and kind in ("notify", "file", "user", "service", "package", "exec"):
            lines = [(name, value) for name, value in self.attributes(scope, kind)]
            if lines:
                return Part(made + " { ", [Part(f"{name} => {value}") for name, value in lines], " }", ", ")
        if scope.titles and self.odds(20):
            return Part("", [Part(made), Part(self.one(scope.titles))], "", self.one([" -> ", " ~> ", " <- "]))
        return Part(made)

    def import_collector(self, scope):
        kind = self.one(["notify", "file", "user"])
        query = self.one(["", f" tag == {self.plain('str')} ", f" tag == {self.plain('str')} or tag == {self.plain('str')} "])
        made = f"{kind.capitalize()} <<|{query}|>>"
        if self.odds(30):
            lines = self.attributes(scope, kind)
            if lines:
                return Part(made + " { ", [Part(f"{name} => {value}") for name, value in lines], " }", ", ")
        return Part(made)

    def realization(self, scope):
        if not self.virtual:
            return self.plain_resource(scope)
        refs = self.any.sample(self.virtual, min(len(self.virtual), self.any.randint(1, 2)))
        return Part("realize(", [Part(ref) for ref in refs], ")", ", ")

    def chain(self, scope):
        if len(scope.titles) < 2:
            return self.plain_resource(scope)
        refs = self.any.sample(scope.titles, min(len(scope.titles), self.any.randint(2, 3)))
        if self.odds(90):
            refs.sort(key=scope.titles.index)
        arrow = self.one([" -> ", " ~> "])
        parts = [Part(ref) for ref in refs]
        if self.odds(15):
            parts[0] = Part("[", [Part(refs[0]), Part(self.one(scope.titles[:scope.titles.index(refs[0]) + 1]))], "]", ", ")
        return Part("", parts, "", arrow)

    def log(self, scope):
        return Part(f"{self.one(['notice', 'notice', 'info', 'warning', 'err'])}(", [Part(self.value(scope, self.one(["str", "int", "list", "hash"])))], ")", ", ")

    def condition(self, scope):
        inner = Scope("block", {}, scope.owner, scope)
        inner.kind, inner.taken, inner.unsure = scope.kind, scope.taken, True
        for name in ("each", "rank"):
            if hasattr(scope, name):
                setattr(inner, name, getattr(scope, name))
        body = self.some(2, lambda: self.statement(inner), 1)
        form = self.any.randint(0, 3)
        if form == 0:
            return block(f"unless {self.value(scope, 'bool')}", body)
        if form == 1:
            return Part(f"case {self.value(scope, 'str')} {{\n{self.plain('str')}: {{\n", body, "\n}\ndefault: { }\n}")
        return block(f"if {self.value(scope, 'bool')}", body)

    def loop(self, scope):
        if scope.kind == "instance":
            return self.plain_resource(scope)
        name = f"e{self.number()}"
        inner = Scope("lambda", {name: "str"}, scope.owner, scope)
        inner.titles, inner.unsure = list(scope.titles), True
        inner.each = name
        listed = "[" + ", ".join(f"'{word}'" for word in self.any.sample(WORDS, self.any.randint(1, 2))) + "]"
        body = self.some(3, lambda: self.statement(inner), 1)
        return Part(f"{listed}.each |{self.one(['', 'String '])}${name}| {{\n", body, "\n}")

    def defaults(self, scope):
        kind = self.native()
        lines = self.attributes(scope, kind)
        if not lines:
            return self.plain_resource(scope)
        return Part(f"{kind.capitalize()} {{ ", [Part(f"{name} => {value}") for name, value in lines], " }", ", ")

    def statement(self, scope):
        weights = {
            "plain_resource": 20, "assignment": 14, "inclusion": 12, "instance": 8, "virtual_resource": 6, "collector": 5, "realization": 4,
            "chain": 5, "log": 5, "condition": 7, "loop": 4, "override": 14 if scope.owner and scope.owner.parent else 0,
            "exported_resource": 3 if self.exports else 0, "import_collector": 3 if self.exports else 0,
        }
        if scope.kind == "lambda":
            weights["inclusion"] = 3
        form = self.any.choices(list(weights), list(weights.values()))[0]
        return getattr(self, form)(scope)

    def body(self, scope, most, least=1, is_late=False):
        # default statements stand first: in Puppet they count for what is declared behind them alone
        parts = []
        if self.odds(12) and not (scope.kind == "top" and is_late) and not (scope.owner and (scope.owner.parent or scope.owner.is_parent)):
            parts.append(self.defaults(scope))
            if scope.owner:
                scope.owner.has_defaults = True
        if scope.owner and scope.owner.parent and self.odds(50):
            parts.append(self.of_parent(scope))
        return parts + self.some(most, lambda: self.statement(scope), least)

    # ---- definitions

    def parameter(self, scope, name, kind, default):
        typed = self.one([TYPES[kind] + " ", TYPES[kind] + " ", "", self.one(LOOSE[kind]) + " "])
        return f"{typed}${name}" + (f" = {default}" if default is not None else "")

    def make_class(self, name, module, path):
        # the default statements of a class reach what inherits from it in Puppet alone
        options = [one for one in self.classes if not one.needs and not any(it.has_defaults for it in one.line())]
        parent = self.one(options) if options and self.odds(60) else None
        made = Class(name, module, parent)
        made.is_parent = False
        if parent:
            parent.is_parent = True
        made.has_defaults = False
        scope = Scope("class", {}, made)
        shown = []
        for at in range(self.any.choice([0, 0, 1, 1, 2, 3])):
            its, kind = f"p{at}", self.one(TYPES)
            default = self.value(scope, kind, 1) if self.odds(70) else None
            in_data = self.odds(30)
            shown.append(Part(self.parameter(scope, its, kind, default)))
            if in_data:
                self.parameter_data[f"{name}::{its}"] = kind
            made.params.append((its, kind, default is not None or in_data))
            if default is None and not in_data:
                made.needs.append(its)
            scope.vars[its] = kind
            made.vars[its] = kind
        self.classes.append(made)
        head = Part(f"class {name}" + ("(" if shown else ""), shown, ")" if shown else "", ", ")
        parts = self.body(scope, 5)
        inherits = f" inherits {self.spelled(parent.name)}" if parent else ""
        self.files.setdefault(path, []).append(Part("", [head, Part(f"{inherits} {{\n", parts, "\n}")], "", ""))

    def make_define(self, name, path):
        scope = Scope("instance")
        scope.rank = len(self.defines)
        params, shown = [], []
        for at in range(self.any.choice([0, 1, 1, 2])):
            its, kind = f"p{at}", self.one(TYPES)
            default = self.value(scope, kind, 1) if self.odds(60) else None
            shown.append(Part(self.parameter(scope, its, kind, default)))
            params.append((its, kind, default is not None))
            scope.vars[its] = kind
        head = Part(f"define {name}(", shown, ")", ", ")
        parts = self.body(scope, 3)
        self.files.setdefault(path, []).append(Part("", [head, block("", parts)], "", ""))
        self.defines.append((name, params, scope.rank))

    # ---- data

    def make_data(self):
        levels = ["role/%{facts.role}.json", "os/%{os.name}.json", "common.json"][-self.any.randint(1, 3):]
        keys = {**self.data, **self.parameter_data}
        options = {}
        for key, kind in keys.items():
            if kind in ("list", "hash") and self.odds(30):
                options[key] = {"merge": self.one(["unique"] if kind == "list" else ["hash", "deep"])}
        texts = {"role/%{facts.role}.json": ["role/web.json", "role/db.json"], "os/%{os.name}.json": ["os/debian.json"], "common.json": ["common.json"]}
        for level in levels:
            for path in texts[level]:
                lines = []
                for key, kind in keys.items():
                    if level == "common.json" or self.odds(40):
                        lines.append(Part(f"{json.dumps(key)}: {json.dumps(self.datum(kind))}"))
                if level == "common.json" and options:
                    lines.append(Part('"lookup_options": {', [Part(f"{json.dumps(key)}: {json.dumps(value)}") for key, value in options.items()], "}", ", "))
                self.files[f"data/{path}"] = [Part("{", lines, "}", ",\n")]
        self.files["hiera.yaml"] = [Part(json.dumps({
            "version": 5, "defaults": {"datadir": "data", "data_hash": "json_data"}, "hierarchy": [{"name": "all", "paths": levels}],
        }))]

    def datum(self, kind):
        if kind == "int":
            return self.any.randint(10, 99)
        if kind == "bool":
            return self.odds(50)
        if kind == "str":
            return self.one([self.one(WORDS), "%{facts.role}", "a-%{os.name}", "%{::role}", "%{literal('l')}"])
        if kind == "list":
            return self.some(3, lambda: self.one(WORDS))
        return {word: self.one(WORDS) for word in sorted(self.any.sample(WORDS, self.any.randint(0, 3)))}

    # ---- the site

    def make(self):
        self.parameter_data, self.started = {}, set()
        self.exports = self.odds(35)
        self.any_nodes = self.odds(35)
        main = "manifests/site.pp"
        self.files[main] = []
        self.top = {"role": "str"}
        for kind in self.any.sample(list(TYPES), self.any.randint(0, 4)):
            self.data[f"k_{kind}"] = kind
        # what top scope has before all else
        early = Scope("top")
        tops = self.some(3, lambda: self.assignment(early))
        is_busy = self.odds(40)
        for name in self.any.sample(["f", "g", "m::f", "k::g"], self.any.randint(0, 3)):
            self.make_function(name, main if "::" not in name else f"modules/{name.split('::')[0]}/functions/{name.split('::')[1]}.pp")
        for module, name in self.any.sample([("m", "t.epp"), ("k", "u.epp")], self.any.randint(0, 2)):
            self.make_template(module, name)
        defines, classes = ["d", "e", "m::d", "k::d"], ["a", "b", "c", "m", "m::x", "m::y", "k", "k::p", "h"]
        for name in sorted(self.any.sample(defines, self.any.randint(0, 3)), key=lambda _: self.any.random()):
            self.make_define(name, self.path(name, main))
        for name in self.any.sample(classes, self.any.randint(1, 6)):
            module = name.split("::")[0] if name[0] in "mk" else None
            self.make_class(name, module, self.path(name, main))
        scope = Scope("top")
        scope.vars, scope.taken, scope.titles = early.vars, early.taken, early.titles
        if is_busy:
            tops += self.many_calls(scope)
            for one in [it for it in self.classes if it.parent and not it.needs][:1]:
                tops += [Part(f"include {it.name}") for it in (one.parent, one)]
                self.started.update(one.line())
                self.declared += one.line()
        statements = tops + self.body(scope, 7, 2, is_busy)
        nodes = {"web1.example.org": self.facts("web"), "db1": self.facts("db")}
        if self.any_nodes:
            declared = list(self.declared)
            inner = Scope("node", {}, None, None)
            # what top scope has set is read by instances and children alike in Puppet, and here where the node hasn't set it
            inner.titles, inner.taken = scope.titles, set(self.top)
            statements.append(block("node default", self.body(inner, 5, 2)))
            self.declared = declared
            if self.odds(40):
                inner = Scope("node", {}, None, None)
                inner.titles, inner.taken = list(scope.titles), set(self.top)
                statements.append(block("node 'db1'", self.body(inner, 4, 1)))
        if self.data or self.parameter_data:
            self.make_data()
        own = self.files[main]
        split = self.any.randint(0, len(own))
        # definitions stand before and behind what runs
        self.files[main] = own[:split] + statements + own[split:]
        requests = ["web1.example.org"]
        if self.exports:
            requests = self.one([["web1.example.org", "db1"], ["web1.example.org", "db1", "web1.example.org"], ["db1", "web1.example.org", "db1"]])
        elif self.odds(30):
            requests = [self.one(["web1.example.org", "db1"])]
        return Site(self.files, nodes, requests)

    def path(self, name, main):
        if name[0] not in "mk":
            return main
        module, *rest = name.split("::")
        return f"modules/{module}/manifests/{'/'.join(rest) or 'init'}.pp"

    def facts(self, role):
        return {"num": self.any.randint(1, 9), "os": {"name": "debian"}, "role": role}


class Site:
    def __init__(self, files, nodes, requests):
        self.files, self.nodes, self.requests = files, nodes, requests

    def texts(self):
        return {path: "\n".join(part.text() for part in parts) + ("" if path.endswith(".epp") else "\n") for path, parts in self.files.items()}

    def bundle(self):
        return {"bundle": 1, "files": self.texts(), "nodes": self.nodes, "requests": [{"node": node} for node in self.requests]}

    def places(self):
        """Each list of parts with an index in it, larger parts first."""
        found = []

        def go(parts):
            for at, part in enumerate(parts):
                found.append((len(part.text()), parts, at))
                go(part.parts)
        for parts in self.files.values():
            go(parts)
        return [(parts, parts[at]) for _, parts, at in sorted(found, key=lambda it: -it[0])]


def site(seed, number):
    return Maker(f"{seed}/{number}").make()
