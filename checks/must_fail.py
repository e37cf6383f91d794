"""Must-fail edits: files of crates/NAME/must-fail, the function that each changes, and what a check says of it."""

import os
import re

ITEM = re.compile(r"\s*(pub(\(\w+\))? )?(const|static|struct|enum|type|trait|use|macro_rules!)\b")


class Edit:
    """An edit: its file, its pairs of texts, and the one function that it changes, or None."""

    def __init__(self, path, crate):
        self.path, self.name = path, os.path.basename(path)[:-3]
        self.file, self.pairs = None, []
        for line in open(path, encoding="utf-8").read().split("\n"):
            if line.startswith("file: "):
                self.file = line[len("file: "):]
            elif line.startswith("old: "):
                old = line[len("old: "):]
            elif line.startswith("new:"):
                self.pairs.append((old, line[len("new:"):].removeprefix(" ")))
        text = open(f"{crate}/{self.file}", encoding="utf-8").read()
        functions = {function_at(text, old) for old, _ in self.pairs}
        self.function = functions.pop() if len(functions) == 1 and self.file.startswith("src/") else None
        self.place = f"{os.path.basename(crate)}::{self.item()}" if self.function else None
        self.has_contract = self.function is not None and has_contract(text, self.pairs[0][0])

    def applied(self, text):
        """Returns the text with the edit, or None if a text of it doesn't occur once."""
        for old, new in self.pairs:
            if text.count(old) != 1:
                return None
            text = text.replace(old, new)
        return text

    def is_of(self, path):
        """Whether the path of a function, as rattle prints it, is that of the edited one. A method stands there below the module
        of its type. Between and after the words of the type and its trait there may be those of what it is generic over."""
        (module, owner, name), words = self.parts(), path.split("::")
        if not owner:
            return words[1:] == [*module, name]
        parts = re.findall(r"[A-Z][^A-Z]*", owner)
        return len(words) > 2 and words[-1] == name and re.fullmatch("".join(rf"{it}[\w+]*" for it in parts), words[-2]) is not None

    def parts(self):
        """Returns the names of the edited function's module, its type and itself."""
        module = [it for it in self.file[len("src/"):-len(".rt")].split("/") if it not in ("lib", "main", "mod")]
        return module, self.function[0] or "", self.function[1]

    def item(self):
        """Returns the edited function's path in its crate, as rattle prints it."""
        module, owner, name = self.parts()
        return "::".join([*module, *([owner] if owner else []), name])


def function_at(text, old):
    """Returns type and name of the function in which a text begins, or None if it is in none. A type's name is followed by
    that of the trait that is implemented, if there is one."""
    if text.count(old) != 1:
        return None
    start = text.index(old)
    before = text[: start + len(old) - len(old.lstrip())]
    line = before[before.rfind("\n") + 1:] + old.lstrip()
    names = list(re.finditer(r"^( *)(?:pub(?:\(\w+\))? )?(?:ghost )?fn (\w+)", before + old.lstrip().split("\n")[0], re.M))
    if ITEM.match(line) or not names:
        return None
    indent, name = names[-1][1], names[-1][2]
    closed = re.search(rf"^{indent}}}", before[names[-1].end():], re.M)
    if closed:
        return None
    owner = None
    if indent:
        heads = list(re.finditer(r"^(?:impl|(?:pub )?trait)\b([^{]*)", before, re.M))
        named = [re.search(r"[\w:]+", it)[0].split("::")[-1] for it in without_brackets(heads[-1][1]).split(" for ")] if heads else []
        owner = "".join(reversed(named)) or None
    return owner, name


def has_contract(text, old):
    """Whether the function in which a text begins promises something: else only a check of its callers can refuse an edit."""
    before = text[: text.index(old)]
    name = list(re.finditer(r"^ *(?:pub(?:\(\w+\))? )?(?:ghost )?fn \w+", before, re.M))[-1]
    heads = list(re.finditer(r"^(?:impl|(?:pub )?trait)\b([^{]*)", before[: name.start()], re.M))
    is_of_trait = name[0].startswith(" ") and bool(heads) and " for " in heads[-1][1]
    return is_of_trait or "ensures" in before[name.start():]


def without_brackets(text):
    """Returns a text without what is between < and >."""
    while re.search(r"<[^<>]*>", text):
        text = re.sub(r"<[^<>]*>", "", text)
    return text


def write(crate, texts):
    for file, text in texts.items():
        with open(f"{crate}/{file}", "w", encoding="utf-8") as it:
            it.write(text)


def judged(said):
    """Whether what is said of a function is a verdict on its own body: that it is refused, or not proved for a limit."""
    return said.startswith(("not proved", "no proof", "could not tell")) and "it calls `" not in said
