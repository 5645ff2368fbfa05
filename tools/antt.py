"""Reads definitions of specs/ (a small part of antt) and computes with them, for the scripts that make tables.

What is read: data types by their constructors, and functions by clauses over names, numbers, texts, lists, application and infix operators. Types are skipped."""
import pathlib
import re
import sys

ROOT = pathlib.Path(__file__).resolve().parent.parent
TOKEN = re.compile(r'"((?:[^"\\]|\\.)*)"|(0x[0-9A-Fa-f]+|\d+)|([()])|([^\s()"]+)')
# operators: how close they bind; all of them group to the right
OPERATORS = {"∷": 4, "||": 5, "or": 5, "&&": 6, "then": 6, "==": 6.5, "+": 7, "-": 7, "%": 8}
SKIPPED = ("use ", "abbrev ", "unfoldable ", "pub ", "infixr ", "--")


class Missing(Exception):
    """A name that no definition has."""


def logical_lines(path):
    """The lines of a file, each with the indented lines below it."""
    joined = []
    for line in path.read_text(encoding="utf-8").split("\n"):
        if not line.strip() or line.strip().startswith("--"):
            continue
        if line[0].isspace() and joined:
            joined[-1] += "\n" + line.strip()
        else:
            joined.append(line)
    return joined


def tokens(text):
    for found in TOKEN.finditer(text):
        string, number, bracket, name = found.groups()
        if string is not None:
            yield ("text", re.sub(r"\\(.)", r"\1", string))
        elif number:
            yield ("number", int(number, 0))
        else:
            yield ("mark", bracket) if bracket else ("name", name)


class Reader:
    """An expression by its tokens."""

    def __init__(self, text):
        self.rest = list(tokens(text))

    def ahead(self):
        return self.rest[0] if self.rest else ("end", None)

    def infix(self, low=0):
        left = self.applied()
        while self.ahead()[0] == "name" and OPERATORS.get(self.ahead()[1], -1) >= low:
            name = self.rest.pop(0)[1]
            left = ("apply", ("name", name), [left, self.infix(OPERATORS[name])])
        return left

    def starts_part(self):
        sort, what = self.ahead()
        return sort in ("text", "number") or sort == "name" and what not in OPERATORS or (sort, what) == ("mark", "(")

    def applied(self):
        parts = []
        while self.starts_part():
            token = self.rest.pop(0)
            if token == ("mark", "("):
                token = self.infix()
                if self.rest.pop(0) != ("mark", ")"):
                    raise SyntaxError("a bracket is left open")
            parts.append(token)
        return parts[0] if len(parts) == 1 else ("apply", parts[0], parts[1:])


def arguments(expression):
    """The name and the patterns of a clause's left side."""
    return (expression[1][1], expression[2]) if expression[0] == "apply" else (expression[1], [])


class Module:
    """The definitions of one file of specs/."""
    known = {}

    def __init__(self, path):
        Module.known[path] = self
        self.imports, self.aliases, self.constructors, self.clauses = {}, {}, {}, {}
        for line in logical_lines(path):
            if line.startswith("use "):
                self.add_import(line)
            elif line.startswith("pub data "):
                self.add_data(line)
            elif not line.startswith(SKIPPED) and " = " in line.replace("\n", " "):
                left, right = re.split(r"\s=\s", line, maxsplit=1)
                self.clauses.setdefault(left.split()[0], []).append((left, right))

    def add_import(self, line):
        variants = re.match(r"use Rattle\.\w+\.specs\.declared\.\w+\.TheVariants\.\{(.*)\}$", line)
        if variants:
            self.constructors.update({name: 0 for name in variants.group(1).split(", ")})
            return
        found = re.match(r"use Rattle\.(\w+)\.specs\.(\w+)(?: as (\w+)|\.\{(.*)\})$", line)
        if not found:
            return
        crate, file, alias, names = found.groups()
        path = ROOT / "crates" / crate / "specs" / (file + ".antt")
        if not path.exists():  # a file of the kit
            return
        if alias:
            self.aliases[alias] = path
            return
        for item in names.split(", "):
            name, _, other = item.partition(" as ")
            self.imports[other or name] = (path, name)

    def add_data(self, line):
        for part in line.split("\n")[1:]:
            names, _, of = part.partition(" : ")
            for name in names.split():
                self.constructors[name.strip("◌")] = of.count("→")

    def value(self, name, given=()):
        """The value of a definition at these arguments."""
        if name in self.constructors:
            return (name, *given) if len(given) == self.constructors[name] else lambda *more: self.value(name, (*given, *more))
        if name in self.clauses:
            return self.choose(name, given)
        if name.strip("◌") in self.imports or f"◌{name}◌" in self.imports:
            path, there = self.imports.get(name) or self.imports[f"◌{name}◌"]
            return module(path).value(there.strip("◌"), given)
        alias, dot, inner = name.partition(".")
        if dot and alias in self.aliases:
            return module(self.aliases[alias]).value(inner, given)
        if name in BUILT_IN:
            return BUILT_IN[name](*given) if given else BUILT_IN[name]
        raise Missing(name)

    def read(self, name):
        """The clauses of a definition, patterns and right side of each; they are read at the first use."""
        clauses = self.clauses[name]
        if isinstance(clauses[0][0], str):
            clauses = [(arguments(Reader(left).infix())[1], Reader(right).infix()) for left, right in clauses]
            self.clauses[name] = clauses
        return clauses

    def choose(self, name, given):
        clauses = self.read(name)
        wanted = len(clauses[0][0])
        if len(given) < wanted:
            return lambda *more: self.value(name, (*given, *more))
        for patterns, right in clauses:
            names = {}
            if all(self.fits(pattern, value, names) for pattern, value in zip(patterns, given)):
                result = self.compute(right, names)
                return result(*given[wanted:]) if len(given) > wanted else result
        raise Missing(f"{name} at {given}")

    def fits(self, pattern, value, names):
        """Whether a value has the pattern's form; the names of the pattern are noted."""
        if pattern[0] == "number":
            return value == pattern[1]
        name, inner = arguments(pattern)
        if name in ("true", "false"):
            return value == (name == "true")
        if name == "zero":
            return value == 0
        if name == "suc":
            return value > 0 and self.fits(inner[0], value - 1, names)
        if name == "[]":
            return value == []
        if name == "∷":
            return value != [] and self.fits(inner[0], value[0], names) and self.fits(inner[1], value[1:], names)
        home = self.constructors if name in self.constructors else {}
        if name in self.imports or f"◌{name}◌" in self.imports:
            path, there = self.imports.get(name) or self.imports[f"◌{name}◌"]
            home = module(path).constructors
        if name in home or inner:
            return isinstance(value, tuple) and value[0] == name and all(self.fits(p, v, names) for p, v in zip(inner, value[1:]))
        names[name] = value
        return True

    def compute(self, expression, names):
        sort, what = expression[0], expression[1]
        if sort in ("text", "number"):
            return what
        if sort == "name":
            return names[what] if what in names else self.value(what)
        function, given = what, expression[2]
        if function == ("name", "pick"):
            return self.compute(given[1] if self.compute(given[0], names) else given[2], names)
        values = tuple(self.compute(part, names) for part in given)
        if function[0] == "name" and function[1] not in names:
            return self.value(function[1], values)
        return self.compute(function, names)(*values)


BUILT_IN = {
    "true": True, "false": False, "[]": [],
    "not": lambda a: not a, "&&": lambda a, b: a and b, "||": lambda a, b: a or b,
    "eqb": lambda a, b: a == b, "==": lambda a, b: a == b, "leb": lambda a, b: a <= b, "ltb": lambda a, b: a < b,
    "+": lambda a, b: a + b, "-": lambda a, b: max(a - b, 0), "%": lambda a, b: a % b, "suc": lambda a: a + 1, "∷": lambda a, b: [a] + b, "code": ord,
    "get_or": lambda items, at, other: items[at] if at < len(items) else other,
}


def module(path):
    return Module.known.get(path) or Module(path)


def load(crate, file):
    return module(ROOT / "crates" / crate / "specs" / (file + ".antt"))


def byte_string(octets, width):
    """The octets as lines of a byte string, so many in a line."""
    lines = [octets[at:at + width] for at in range(0, len(octets), width)]
    return "\\\n".join("    " + "".join(f"\\x{octet:02x}" for octet in line) for line in lines)


def settle(path, text):
    """Writes a made file, or with --check says whether it is as it would be written; answers the exit status."""
    target = ROOT / path
    if sys.argv[1:] == ["--check"]:
        if target.exists() and target.read_text(encoding="utf-8") == text:
            return 0
        print(f"{path} is not as {pathlib.Path(sys.argv[0]).name} makes it")
        return 1
    if sys.argv[1:]:
        print(f"usage: {sys.argv[0]} [--check]")
        return 2
    target.write_text(text, encoding="utf-8")
    return 0
