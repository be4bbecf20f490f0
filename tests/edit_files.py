"""What an edit of crates/CRATE/must-fail/ or crates/CRATE/edits/ changes. Its file has a line 'file: PATH', and pairs of lines 'old: TEXT' and
'new: TEXT', each TEXT standing once in the file as the pairs before it left it; a second 'file:' begins another file."""
import re
from dataclasses import dataclass

HEAD = re.compile(r"(\s*)(?:pub(?:\([^)]*\))? |unsafe |const |extern \"C\" )*fn (\w+)")
CLAUSE = ("requires", "ensures", "ghost", "where")


def changed(folder, edit):
    """The files of a crate's folder that an edit changes, by their paths below it, with their new texts."""
    texts, path, old = {}, None, None
    for line in edit.read_text().split("\n"):
        if line.startswith("file: "):
            path = line.removeprefix("file: ").strip()
            texts.setdefault(path, (folder / path).read_text())
        elif line.startswith("old: "):
            old = line.removeprefix("old: ")
        elif line.startswith("new:"):
            if texts[path].count(old) != 1:
                raise ValueError(f"{edit.name}: {path} has its old text {texts[path].count(old)} times: {old}")
            texts[path] = texts[path].replace(old, line.removeprefix("new:").removeprefix(" "))
    return texts


@dataclass(frozen=True)
class Function:
    """A function of a source file in rt's layout: its name, its first line with its attributes, the line that its body begins with, and its last line."""

    name: str
    first: int
    body: int
    last: int


def with_attributes(lines, at):
    """The first line of the attributes that stand right before a line."""
    while at and lines[at - 1].endswith("]"):
        at = next(begin for begin in range(at - 1, -1, -1) if lines[begin].strip().startswith("#["))
    return at


def functions(lines):
    for at, line in enumerate(lines):
        head = HEAD.match(line)
        if not head:
            continue
        ends = (it for it in range(at, len(lines)) if lines[it].endswith(("{", ";")) and not lines[it].strip().startswith(CLAUSE))
        opening = next(ends)
        if lines[opening].endswith("{"):
            last = next(it for it in range(opening, len(lines)) if lines[it] == head[1] + "}")
            yield Function(head[2], with_attributes(lines, at), opening + 1, last)


def function_at(lines, at):
    """The function in which a line of a source file lies, if it lies in one."""
    return next((it for it in functions(lines) if it.first <= at <= it.last), None)
