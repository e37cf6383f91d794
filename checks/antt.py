"""The definitions in crates/*/specs, which checks/believed and checks/definitions read. Each is a paragraph of its file:
comment lines, if it has any, and then code."""

import re
from pathlib import Path

ROOT = Path(__file__).resolve().parent.parent
HEAD = re.compile(r"\s*(?:abbrev |unfoldable |pub |record |data )+(\w+)")
USE = re.compile(r"\s*(?:ghost )?use Rattle\.(\w+)\.specs\.([\w.]+?)(?:\.\{(.*)\}| as (\w+));?")
WORD = re.compile(r"(?<![\w.])[^\W\d]\w*(?:\.\w+)?")


class Definition:
    """A definition: its place, its name, the lines of its comment and of its code, and what its file's words mean."""

    def __init__(self, crate, file, comment, code, scope):
        self.crate, self.file, self.comment, self.code, self.scope = crate, file, comment, code, scope
        self.name = HEAD.match(code[0])[1]

    def constructors(self):
        is_data = re.match(r"\s*(?:pub )?data ", self.code[0])
        return [re.match(r"\s*(\w+)", line)[1] for line in self.code[1:]] if is_data else []


class Scope:
    """What the words of a file mean: each is a crate, a file of it and a name there."""

    def __init__(self, text):
        self.names, self.aliases = {}, {}
        for line in text.split("\n"):
            use = USE.fullmatch(line)
            if use and use[4]:
                self.aliases[use[4]] = (use[1], use[2])
            elif use:
                for item in use[3].split(", "):
                    name, _, renamed = item.partition(" as ")
                    self.names[renamed or name] = (use[1], use[2], name)

    def meant_by(self, text):
        """The places and names that a text uses."""
        found = set()
        for word in WORD.findall(text):
            first, _, rest = word.partition(".")
            if first in self.names:
                found.add(self.names[first])
            elif first in self.aliases and rest:
                found.add((*self.aliases[first], rest))
        return found


def definitions():
    """All definitions, by crate, file and name; a constructor leads to its type."""
    found = {}
    for path in sorted(ROOT.glob("crates/*/specs/*.antt")):
        text, crate = path.read_text(encoding="utf-8"), path.parts[-3]
        scope = Scope(text)
        for paragraph in text.split("\n\n"):
            lines = [line for line in paragraph.split("\n") if line and not re.match(r"\s*(use|module) ", line)]
            code = [line for line in lines if not line.strip().startswith("--")]
            comment = [line.strip()[3:] for line in lines[: lines.index(code[0]) if code else 0]]
            if code and HEAD.match(code[0]):
                it = Definition(crate, path.stem, comment, code, scope)
                for name in [it.name, *it.constructors()]:
                    found[crate, path.stem, name] = it
                    scope.names.setdefault(name, (crate, path.stem, name))
    return found
