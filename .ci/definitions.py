"""Reads definitions: those of specs/*.antt, the types and traits of src/*.rt that they speak of, and clauses. Of each
definition it knows which names it leaves to others: a name that it binds itself (an argument, a pattern, a field, the
argument of a λ) is none of these. Paths are those from the top.
"""
import functools
import glob
import os
import re

HEAD = re.compile(r"(?:(?:abbrev|unfoldable|opaque|pub) )*(?:(record|data) (\S+)|(mutual)\b|(\S+) :(?: |$))")
TOKEN = re.compile(r'--(?=[\s-]|$)[^\n]*|"(?:[^"\\]|\\.)*"|\.[^\s(){}.,;"]+|[(){},;.]|[^\s(){}.,;"]+')
USE = re.compile(r" *(?:ghost )?(?:pub )?use ([\w.]+?)(?:\.\{(.*)\}| as (\w+))?;?$")
CONSTRUCTORS = {"zero", "suc", "true", "false", "tt"}  # those of std that begin with a small letter


class Definition:
    """Some lines of a file that define names, from the English above them on."""

    def __init__(self, file, first, lines, kind, names):
        self.file, self.first, self.lines, self.kind = file, first, lines, kind
        variants = {"enum": r"^ +(\w+)(?: = |,|\(| \{)", "data": r"^ +(\S+) : ", "mutual": r"^ +(\S+) : "}
        self.constructors = set(re.findall(variants[kind], "\n".join(lines), re.M)) if kind in variants else set()
        self.names = names | self.constructors

    @functools.cached_property
    def stands_on(self):
        """The definitions and the names of libraries that it leaves its own names to."""
        found = [item for name in self.file.names_left(self) for item in self.file.find(*name)]
        return [item for item in dict.fromkeys(found) if item is not self]


class Library:
    """A name of one of the toolchain's libraries."""

    def __init__(self, module, name):
        self.crate, self.name = module.removeprefix("Rattle.").split(".")[0], name


@functools.cache
def lines_of(path):
    with open(path, encoding="utf-8") as file:
        return file.read().splitlines()


def used_names(lines):
    """What `use` lines call by which name: items, and whole modules."""
    items, modules = {}, {}
    for module, names, other in (use.groups() for use in map(USE.match, lines) if use):
        items.update({name: (module, name) for name in names.split(", ")} if names else {})
        modules.update({} if names else {other or module.split(".")[-1]: module})
    return items, modules


class Statement:
    """The tokens of a type, of an equation or of a record, and which names are bound inside which brackets."""

    def __init__(self, text, is_constructor=None):
        self.tokens = [token for token in TOKEN.findall(text) if not token.startswith(("--", '"'))]
        self.at, self.is_constructor = 0, is_constructor
        self.scopes, self.waiting, self.left = [set()], [], []
        self.is_equation = is_constructor and "=" in self.tokens and not HEAD.match(text.lstrip())

    def names_left(self):
        """The names that it doesn't bind, each with the one behind its dot."""
        if self.is_equation:
            self.read_patterns()
        while self.at < len(self.tokens):
            token = self.tokens[self.at]
            if token in "({":
                self.open()
            elif token in ")}":
                self.scopes.pop()
                self.scopes[-1].update(self.waiting.pop())
            elif token == "λ":
                self.read_arguments()
            elif token[0] not in ".,;":
                self.read_name()
            self.at += 1
        return self.left

    def next(self):
        return self.tokens[self.at + 1] if self.at + 1 < len(self.tokens) else ""

    def leave(self):
        self.left.append((self.tokens[self.at], self.next()[1:] if self.next().startswith(".") else ""))

    def read_patterns(self):
        """Of an equation: names of constructors are left to others, all others are bound."""
        depth = 0
        while self.tokens[self.at] != "=" or depth:
            token = self.tokens[self.at]
            depth += (token in "({") - (token in ")}")
            if len(self.next()) > 1 and self.next()[0] == "." or self.is_constructor(token):
                self.leave()
            elif self.at and token[0] not in "(){}.,;=":
                self.scopes[-1].add(token)
            self.at += 1

    def open(self):
        """A bracket; names that stand in it before their type are bound behind it too."""
        ahead = self.at + 1
        while ahead < len(self.tokens) and self.tokens[ahead][0] not in "(){}.,;:=λ":
            ahead += 1
        names = self.tokens[self.at + 1:ahead] if self.tokens[ahead:ahead + 1] == [":"] else []
        self.scopes.append(self.scopes[-1] | set(names))
        self.waiting.append(names)
        self.at += len(names)

    def read_arguments(self):
        """The arguments of a λ, up to its dot; they are bound up to the bracket around it."""
        depth, typed = 0, False
        while self.tokens[self.at] != "." or depth:
            token = self.tokens[self.at]
            depth += (token in "({") - (token in ")}")
            typed = depth > 0 and (typed or token == ":")
            if typed:
                self.read_name()
            elif token[0] not in "(){}.,;λ":
                self.scopes[-1].add(token)
            self.at += 1

    def read_name(self):
        """A name: bound here, a field's label, bound before, or left to others."""
        token, before = self.tokens[self.at], self.tokens[self.at - 1] if self.at else ""
        if self.next() in ("←", ":") or before == "let":
            self.scopes[-1].add(token)
        elif token not in self.scopes[-1] and not (self.next() == "=" and before in ("{", ";")):
            self.leave()


class Specs:
    """A file of definitions."""

    def __init__(self, path):
        self.path, self.lines, self.own = path, lines_of(path), {}
        self.items, self.modules = used_names(self.lines)
        self.definitions = [self.defined(first, self.lines[first:last]) for first, last in self.spans()]
        for definition in self.definitions:
            self.own.update({name: definition for name in definition.names})
        known = [*self.own, *self.items]
        self.parts = {part: name for name in known if "◌" in name for part in name.split("◌") if part}
        self.parts.update({"do": "◌>>=◌"} if "◌>>=◌" in known else {})

    def spans(self):
        """Where each definition begins, with the English above it, and where it ends."""
        heads = [i for i, line in enumerate(self.lines) if HEAD.match(line)]
        for first, last in zip(heads, heads[1:] + [len(self.lines)]):
            while first and self.lines[first - 1].startswith("--"):
                first -= 1
            while not self.lines[last - 1].strip() or self.lines[last - 1].startswith(("--", "infix")):
                last -= 1
            yield first, last

    def defined(self, first, lines):
        heads = [head for head in map(HEAD.match, lines) if head]
        kind = heads[0].group(1) or heads[0].group(3) or "function"
        if kind == "mutual":
            heads = [head for head in (HEAD.match(line[2:]) for line in lines if line[:2] == "  ") if head]
        return Definition(self, first + 1, lines, kind, {head.group(2) or head.group(4) for head in heads})

    def find(self, token, behind=""):
        """What a name stands for here, or a module's name with the one behind its dot; nothing for built-in words."""
        name = self.parts.get(token, token)
        if name in self.own:
            return [self.own[name]]
        if name in self.items:
            return items_of(*self.items[name])
        return items_of(self.modules[name], behind) if name in self.modules else []

    def narrowed(self, name, fields):
        """The record of this name with these of its fields alone, each with the English above it."""
        whole = self.own[name]
        head, parts = re.match(r"((?:.*\n)*?.* where\n)((?:.*\n)*)", "\n".join([*whole.lines, ""])).groups()
        parts = re.finditer(r"(?:  --.*\n)*  pub (\S+) : .*\n(?:   .*\n)*", parts)
        kept = head + "".join(part.group() for part in parts if part.group(1) in fields)
        return Definition(self, whole.first, kept.splitlines(), "record", {name})

    def is_constructor(self, token):
        return any(token in found.constructors if isinstance(found, Definition)
                   else token in CONSTRUCTORS or not token[0].islower() for found in self.find(token))

    def names_left(self, definition):
        return [name for text in self.statements(definition)
                for name in Statement(text, self.is_constructor).names_left()]

    @staticmethod
    def statements(definition):
        """Of a function its type and its equations, else the definition as one."""
        lines = [line for line in definition.lines if not line.lstrip().startswith("--")]
        if definition.kind in ("record", "data"):
            return ["\n".join(lines)]
        column = 2 if definition.kind == "mutual" else 0
        starts = [i for i, line in enumerate(lines) if re.match(rf" {{0,{column}}}[^ )}}]", line)]
        return ["\n".join(lines[i:j]) for i, j in zip(starts, starts[1:] + [len(lines)])]


class Code:
    """A file of the code: its types and traits, and the clauses of its calls."""

    def __init__(self, crate, path):
        self.crate, self.path, self.lines = crate, path, lines_of(path)
        self.items, self.modules = used_names(self.lines)
        self.crates = {}
        uses = re.findall(r"^use (\w+)[\w:]*?::(?:\{([^}]*)\}|(\w+));", "\n".join(self.lines), re.M)
        for source, names, name in uses:
            self.crates.update(dict.fromkeys(re.findall(r"\w+", names or name), source.replace("crate", crate)))

    @functools.cache
    def item(self, kind, name):
        """The struct, enum, model or trait of this name: of the last two the members that contracts see."""
        if not any(name in line for line in self.lines):
            return None
        form = rf"impl\b.*\bModel for {name}\b" if kind == "Model" else rf"pub(?:\(crate\))? {kind} {name}\b"
        heads = [i for i, line in enumerate(self.lines) if re.match(form, line)]
        if not heads:
            return None
        first = last = heads[0]
        while self.lines[first - 1].startswith(("///", "#[")):
            first -= 1
        while not self.lines[last].startswith("}") and not self.lines[heads[0]].endswith(("}", ";")):
            last += 1
        lines = self.lines[first:last + 1]
        if kind in ("Model", "trait"):
            members = re.findall(r"(?:^ *///.*\n)*^ *ghost (?:Value|view|seen)\b[\s\S]*?\};$", "\n".join(lines), re.M)
            lines = self.lines[first:heads[0] + 1] + "\n".join(members).splitlines()
        return Definition(self, first + 1, lines, kind, {name})

    def clause(self, name):
        """A clause of a call, with the English above it."""
        last = first = next(i for i, line in enumerate(self.lines) if re.match(rf" *ensures {name} \{{", line))
        while self.lines[first - 1].lstrip().startswith("//"):
            first -= 1
        while not self.lines[last].endswith(("}", "};")):
            last += 1
        return Definition(self, first + 1, self.lines[first:last + 1], "clause", {name})

    def names_left(self, definition):
        """Of a type the types of its fields; else what the ghost members or the clause name."""
        text = re.sub(r"//.*|#\[.*\]", "", "\n".join(definition.lines))
        if definition.kind in ("struct", "enum"):
            fields = re.sub(r"^(?:pub|    [A-Z]\w*\b).*?(?=[({]|$)", "", text, flags=re.M)
            return [(name, "") for name in re.findall(r"\b[A-Z]\w*", fields)]
        bodies = " ".join(re.findall(r"^ *(?:ghost|ensures) \w+(?: =|:)? \{([\s\S]*?)\};?$", text, re.M))
        return Statement(bodies).names_left()

    def find(self, token, behind=""):
        if token in self.items:
            return items_of(*self.items[token])
        bound = re.findall(rf"\b{token}: (\w+)", "\n".join(self.lines)) if behind == "seen" else [token]
        return [item for name in dict.fromkeys(bound)
                for item in types_in(self.crates.get(name, self.crate), name, "" if name in self.crates else self.path)]


specs_of = functools.cache(Specs)
library_of = functools.cache(Library)


@functools.cache
def codes_of(crate):
    return [Code(crate, path) for path in sorted(glob.glob(f"crates/{crate}/src/**/*.rt", recursive=True))]


@functools.cache
def types_in(crate, name, place=""):
    """A type or a trait of the code; of a type that has a model, its model: it is all that contracts see."""
    for code in codes_of(crate):
        found = [code.item(kind, name) for kind in ("Model", "struct", "enum", "trait")]
        if any(found) and code.path.endswith(place):
            return [item for item in found if item][:1]
    return []


@functools.cache
def items_of(module, name):
    """What a name of a module is."""
    root, crate, *parts = module.split(".")
    if root != "Rattle" or not os.path.isdir(f"crates/{crate}") or parts[1] == "contracts":
        return [library_of(module, name)]
    if parts[1] == "declared":
        kind = next(part for part in parts if part[0].isupper())
        return types_in(crate, kind, f"/src/{'/'.join(parts[2:parts.index(kind)]) or 'lib'}.rt")
    return specs_of(f"crates/{crate}/{'/'.join(parts)}.antt").find(name)
