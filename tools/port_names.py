#!/usr/bin/env python3
"""usage: tools/port_names.py        once, at the top, after the kit's port.py and before any edit by hand

Brings the repository's own definitions and lemmas to the kit's spelling: `headerChecks` and `sums-hold` become `header_checks` and
`sums_hold`. Types, modules, what src/ names and what the kit's libraries name keep their spelling. A lemma whose name would fall together
with another name gets `_lem`. Files of edits are turned with the text that they replace, and a projection there is written tight."""
import re
from collections import defaultdict
from pathlib import Path

TOP = Path(__file__).resolve().parent.parent
CRATES = sorted(p.name for p in (TOP / "crates").iterdir())
WORD = r"(?<![\w'₀-₉«-])[A-Za-z][\w'₀-₉-]*"
CAMEL = re.compile(r"[a-z][a-z0-9]*(?:[A-Z][A-Za-z0-9]*)+['₀-₉]*$")
DECLARED = re.compile(r"^\s*(?:(?:abbrev|unfoldable|pub)\s+)*((?:[a-z][\w'₀-₉-]*\s+)+): ", re.M)
LET = re.compile(r"\blet ([a-z][\w'₀-₉-]*) [:=]")
# Names that were in snake case already and are now those of a definition, with the files that they stand in.
TAKEN = {
    "after_push": ["claims/proofs/HostStream.antt"],
    "in_head": ["listing/proofs/Counts.antt"],
    "next_row": ["guest/proofs/Checking.antt"],
    "not_taken": ["guest_core/proofs/Sending.antt"],
    "not_written": ["claims/proofs/HostStates.antt"],
    "send_rows": ["guest_core/proofs/Sending.antt", "host/proofs/Calling.antt"],
}


def is_proof_of_function(path):
    return path.name in ("Proof.antt", "Invariants.antt", "Answers.antt")


def code(text):
    return re.sub(r"--.*", "", text)


def snake(name):
    parts = [re.sub(r"(?<=[a-z0-9])([A-Z])", lambda m: "_" + m.group(1).lower(), p) if CAMEL.match(p) else p for p in name.split("-")]
    return "_".join(parts)


def names(antt):
    """The mapping: old name to new name."""
    declared, foreign, seen = set(), set(), set()
    for path in antt:
        text = code(path.read_text())
        seen |= set(re.findall(WORD, text))
        for module, listed in re.findall(r"^use ([\w.'-]+)\.\{([^}]*)\}", text, re.M):
            if not any(module.startswith(f"Rattle.{c}.") for c in CRATES):
                foreign |= {n.strip().split(" ")[0] for n in listed.split(",")}
        if not is_proof_of_function(path):
            for group in DECLARED.findall(text):
                declared |= set(group.split())
            declared |= set(LET.findall(text))
    camel = {n: snake(n) for n in seen if CAMEL.match(n) and n not in foreign}
    taken = set(camel.values()) | {n for n in seen if "-" not in n and not CAMEL.match(n)}
    new = dict(camel)
    for n in sorted(declared):
        if "-" in n and n not in foreign:
            new[n] = snake(n) + ("_lem" if snake(n) in taken else "")
    back = defaultdict(list)
    for old, name in new.items():
        back[name].append(old)
    for name, olds in back.items():
        if len(olds) > 1:
            raise SystemExit(f"{olds} fall together as {name}")
    return new


def turned(text, new, skip_paths):
    """Every word of the text that has a new name; in a function's own proof file none behind a dot, where the kit's names stand."""
    def one(m):
        before = text[m.start() - 1 : m.start()]
        return m.group() if skip_paths and before == "." and "-" in m.group() else new.get(m.group(), m.group())
    return re.sub(WORD, one, text)


def edit_line(line, new, antt_file):
    """A line of an edit: the names, also those that port.py turned; a projection tight, with no parentheses and no quotes of its own."""
    if antt_file:
        line = turned(line, new, False)
    line = re.sub(WORD, lambda m: snake(m.group()) if CAMEL.match(m.group()) else m.group(), line)
    if antt_file:
        line = re.sub(r"(?<=[\w'»)]) \.(?=[a-z«0-9])", ".", line)
        line = re.sub(r"\.«(?!record»)(\w+)»", r".\1", line)
        line = re.sub(r"(?<![\w'])\(([a-z][\w']*(?:\.[\w«»]+)+)\)", r"\1", line)
        line = re.sub(r"(?<= )\(([a-z][\w']*(?:\.[\w«»]+)+)\)", r"\1", line)
    return line


def main():
    antt = sorted(p for c in CRATES for d in ("specs", "proofs") for p in (TOP / "crates" / c / d).rglob("*.antt"))
    new = names(antt)
    for path in antt:
        text = path.read_text()
        for name, files in TAKEN.items():
            if str(path.relative_to(TOP / "crates")) in files:
                text = re.sub(rf"(?<![\w'.-]){name}(?![\w'-])", name + "_lem", text)
        path.write_text(turned(text, new, is_proof_of_function(path)))
    for path in sorted(p for c in CRATES for p in (TOP / "crates" / c / "src").rglob("*.rt")):
        path.write_text(turned(path.read_text(), {o: n for o, n in new.items() if CAMEL.match(o)}, False))
    for path in sorted(p for c in CRATES for d in ("must-fail", "edits") for p in (TOP / "crates" / c / d).glob("*.edit")):
        lines = path.read_text().split("\n")
        antt_file = False
        for i, line in enumerate(lines):
            if line.startswith("file: "):
                antt_file = line.endswith(".antt")
            elif line.startswith(("old: ", "new: ")):
                lines[i] = edit_line(line, new, antt_file)
        path.write_text("\n".join(lines))


main()
