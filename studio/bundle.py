"""Joins modules of JavaScript into one script, for a page that is one file: each module becomes a function that is
called once and returns what the module exports, in an order in which each stands behind those that it imports.
"""
import pathlib
import re

from refusal import Refusal

PATH = r'"(?P<path>\.{1,2}/[^"\n]+)";[^\S\n]*(?://[^\n]*)?\n'
IMPORT = re.compile(r"^import\s+(?:\{(?P<names>[^}]*)\}|\*\s+as\s+(?P<whole>\w+))\s+from\s+" + PATH, re.MULTILINE)
EXPORT = re.compile(r"^export\s+(?=(?:(?:async\s+)?function\*?|class|const)\s+(?P<name>\w+))", re.MULTILINE)
LIST = re.compile(r"^export\s*\{(?P<names>[^}]*)\};\n", re.MULTILINE)
OTHER = re.compile(r"^(?:import\b(?!\s*[(.])|export\b).*", re.MULTILINE)


def pairs(names):
    """Names of a list `a, b as c`: each with what it is called behind the word `as`."""
    for part in filter(None, (part.strip() for part in names.split(","))):
        name, _, other = part.partition(" as ")
        yield name.strip(), (other or name).strip()


class Bundle:
    """The modules that a script needs, each once."""

    def __init__(self):
        self.names = {}  # of each module's exports, by its path
        self.texts = []
        self.open = []  # modules whose imports are being read

    def add(self, path):
        """Adds a module behind those that it imports; the name that its exports have."""
        path = path.resolve()
        if path in self.open:
            raise Refusal(f"{path}: modules that import one another can't be joined")
        if path not in self.names:
            self.open.append(path)
            text = self.joined(path, path.read_text(encoding="utf-8"))
            self.open.pop()
            self.names[path] = f"module_{len(self.names)}_{re.sub(r'[^0-9A-Za-z]', '_', path.stem)}"
            self.texts.append(f"const {self.names[path]} = (() => {{\n{text}}})();\n")
        return self.names[path]

    def joined(self, path, text):
        """A module's text: what it imports is taken from other modules' exports, and what it exports is returned."""
        text = IMPORT.sub(lambda found: self.imported(path, found), text)
        exports = {match["name"]: match["name"] for match in EXPORT.finditer(text)}
        for match in LIST.finditer(text):
            exports.update((other, name) for name, other in pairs(match["names"]))
        text = LIST.sub("", EXPORT.sub("", text))
        left = OTHER.search(text)
        if left:
            raise Refusal(f"{path}: this line can't be joined: {left[0]}")
        parts = ", ".join(other if name == other else f"{other}: {name}" for other, name in exports.items())
        return f"{text.rstrip()}\nreturn {{ {parts} }};\n"

    def imported(self, path, found):
        """The line that stands for an import."""
        module = self.add(path.parent / found["path"])
        if found["whole"]:
            return f"const {found['whole']} = {module};\n"
        names = ", ".join(name if name == other else f"{name}: {other}" for name, other in pairs(found["names"]))
        return f"const {{ {names} }} = {module};\n"


def joined(path):
    """One script of a module and all that it imports."""
    bundle = Bundle()
    bundle.add(pathlib.Path(path))
    return '"use strict";\n' + "".join(bundle.texts)
