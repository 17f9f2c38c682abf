"""The functions of a source file, and the wrong bodies of a crate: edits that change one of them.

A wrong body is a file with a line `file: ` and then pairs of lines `old: ` and `new: `, each of which puts the new text where the old one
stands.
"""

import glob
import os
import re

FUNCTION = re.compile(r"^( *)(pub(?:\([^)]*\))? )?(?:const )?fn (\w+)")
IMPL = re.compile(r"^impl(?:<.*?>)? (?:(\w+(?:::\w+)*)(<.*?>)? for )?(?:&\w* ?)?(\w+(?:::\w+)*|\()")
TYPE = re.compile(r"^(?:pub(?:\([^)]*\))? )?(?:struct|enum) (\w+)", re.M)


def read(path):
    with open(path, encoding="utf-8") as file:
        return file.read()


class Function:
    """A function of a file: its name, its type and its trait if it has them, and the numbers of the lines that it and its body have."""

    def __init__(self, match, impl, head, body, calls):
        self.name, self.trait = match[3], impl and impl[1] and impl[1].split("::")[-1]
        # (the check joins the parts of a type's path)
        self.owner = impl and "".join(it[:1].upper() + it[1:] for it in impl[3].replace("(", "Tuple").split("::"))
        # (and a tuple's name has those of its parts)
        parts = impl.string.partition(" for (")[2].partition(")")[0] if self.owner == "Tuple" else ""
        self.parts = parts.replace(", ", "") if re.fullmatch(r"[\w, ]+", parts) else r"\w*"
        self.is_public = (match[2] or "").strip() == "pub" or self.trait is not None
        # Whether it stands in a trait, or is evaluated by the compiler.
        self.is_default, self.is_const = bool(match[1]) and not impl, "const fn" in match[0]
        # Whether its trait or its type has a name that depends on what it is applied to.
        self.is_applied = self.owner == "Tuple" or bool(impl and impl[2])
        self.head, (self.first, self.last) = head, body
        self.calls = calls

    def full_name(self):
        return f"{self.owner}::{self.name}" if self.owner else self.name

    def has_line(self, lines):
        return any(self.first <= it <= self.last for it in lines)


def body_of(lines, at, indent):
    """The first and the last line of the body of the function that begins at a line, or none where it has no statement."""
    for first in range(at, len(lines)):
        line = lines[first]
        if first > at and (FUNCTION.match(line) or line and not line.startswith(indent)):
            return None
        if line.startswith(indent) and not line[len(indent):].startswith(" "):
            if line.endswith("{}") or line.endswith(";") or (first > at and line.startswith(f"{indent}}}")):
                return None
            if line.endswith("{"):
                return first, next(it for it in range(first + 1, len(lines)) if lines[it].startswith(f"{indent}}}"))
    return None


def functions_of(text):
    lines, impl, found = text.split("\n"), None, []
    for at, line in enumerate(lines):
        if not line.endswith("{}"):
            impl = None if line == "}" else IMPL.match(line) or impl
        match = FUNCTION.match(line)
        body = body_of(lines, at, match[1]) if match else None
        if body:
            calls = set(re.findall(r"\b(\w+)(?:::<[^>]*>)?\(", "\n".join(lines[body[0] + 1:body[1]])))
            found.append(Function(match, impl, at, body, calls))
    return found


class Edit:
    """A wrong body: its name, the file that it changes, and its pairs of texts."""

    def __init__(self, path):
        self.name = os.path.basename(path)[:-5]
        lines = read(path).split("\n")
        self.file = next((it[6:].strip() for it in lines if it.startswith("file: ")), "")
        texts = [[it[5:] for it in lines if it.startswith(start)] for start in ("old: ", "new: ")]
        self.pairs = list(zip(*texts))

    def spans(self, text):
        """Where its old texts stand in the text of the file, each with the new one, or None where one does not stand there just once."""
        if not self.pairs or any(text.count(old) != 1 for old, _ in self.pairs):
            return None
        return [(text.index(old), text.index(old) + len(old), new) for old, new in self.pairs]

    def function_of(self, text):
        """The function whose body it changes, or None where it changes another thing."""
        lines = {text.count("\n", 0, start) for start, _, _ in self.spans(text) or []}
        found = [it for it in functions_of(text) if it.has_line(lines)]
        return found[0] if len(found) == 1 and all(found[0].has_line([it]) for it in lines) else None


def edits_in(folder):
    """The wrong bodies that stand right in a folder."""
    return [Edit(it) for it in sorted(glob.glob(f"{folder}/*.edit"))]
