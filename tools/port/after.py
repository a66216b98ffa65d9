#!/usr/bin/env python3
"""After the kit's port.py, once, at the top: the repository's own words in today's spelling.

port.py respells a name of the repository only where the kit's library had the same one. Here the others follow: definitions in
camel case and laws with dashes become snake case, in clauses, definitions and proofs alike. A name that Rattle makes for a goal
keeps its form. Three mends of what port.py left stand here too: every struct and enum of the repository may be copied, as before,
a table called `rows` is read as the other tables are, and each crate asks for the check's own tactics.
"""
import pathlib
import re
import subprocess

# Names that would fall together with another once both are in snake case, or with one that port.py made: the law gives way.
APART = {
    "arg-read": "arg_is_read",
    "args-of-line": "args_of_the_line",
    "below-by-code": "is_below_by_code",
    "command-read": "command_is_read",
    "guard-if": "guards_if",
    "hand-after": "hand_is_after",
    "in-hand": "is_in_hand",
    "line-named": "line_is_named",
    "names-made": "made_names",
    "on-first": "on_the_first",
    "operands-read": "operands_are_read",
    "other-kind": "kind_other",
    "with-place": "place_with",
    "after_frame": "read_after_frame",
    "after_line": "read_after_line",
    "goesOn": "goes_further",
    "in_place": "is_in_place",
    "key-at": "key_is_at",
    "line_read": "line_is_read",
    "lines-read": "lines_well_read",
    "nothing_read": "read_of_nothing",
    "row-of": "row_here",
    "tooLong": "is_too_long",
    "two_bytes": "two_bytes_read",
}
CLAUSE = re.compile(r"^\s*(ghost use|requires|ensures)\b")
NAME = re.compile(r"(?<![\w'·-])[a-z][\w'₀-₉]*(?:-[\w'₀-₉]+)*(?![\w'·])")
MADE = re.compile(r"^(?:abbrev |pub )*([^\s:]+) : (?:tie\.|\{M : Type 1\} → statement)", re.M)
HEAD = r"^\s*(?:(?:abbrev|unfoldable|pub|record|data)\s+)*((?:[^\s(){}:;,.]+\s+)*[^\s(){}:;,.]+)\s*:(?!=)\s"


def snake(name):
    if name in APART:
        return APART[name]
    name = name.replace("getD", "get_d")
    return re.sub(r"(?<=[a-z0-9])([A-Z])", lambda m: "_" + m[1].lower(), name).replace("-", "_")


def declared(text):
    text = re.sub(r"--[^\n]*", "", text)
    for line in text.split("\n"):
        found = re.match(HEAD, line)
        lists = [found[1]] if found else []
        lists += re.findall(r"[({]\s*((?:[^\s(){}:;,.]+\s+)*[^\s(){}:;,.]+)\s*:\s", line)
        lists += re.findall(r"\blet\s+([^\s:=()]+)\s*[:=]", line)
        lists += re.findall(r"λ ([^.()]+)\.\s", line)
        for names in lists:
            yield from names.split()


def own_names(files):
    own = set(APART)
    for path in files:
        text = path.read_text()
        made = set(MADE.findall(text)) if path.name == "Proof.antt" else set()
        for name in declared(text):
            if name not in made and re.match(r"[a-z]", name) and ("-" in name or re.search(r"[a-z0-9][A-Z]", name)):
                own.add(name)
    return own


def respell(text, own, made=frozenset()):
    return NAME.sub(lambda m: snake(m[0]) if m[0] in own and m[0] not in made else m[0], text)


def main():
    crates = pathlib.Path("crates")
    proofs = sorted(p for p in crates.glob("*/*/**/*.antt") if p.parts[2] in ("specs", "proofs"))
    own = own_names(proofs)
    for path in proofs:
        text = path.read_text()
        made = set(MADE.findall(text)) if path.name == "Proof.antt" else set()
        path.write_text(respell(text, own, made))
    for path in sorted(crates.glob("*/src/**/*.rt")):
        lines = path.read_text().split("\n")
        for i, line in enumerate(lines):
            if CLAUSE.match(line):
                line = respell(line, own)
                table = "rows.now" if "right_lengths (" in line else "rows.old"
                lines[i] = line.replace("rows.entry.now", table).replace("rows.exit.now", "rows.new")
        path.write_text("\n".join(lines).replace("#[derive(Drop)]", "#[derive(Clone, Copy)]"))
    for root in sorted([*crates.glob("*/src/lib.rt"), *crates.glob("*/src/main.rt")]):
        lines = root.read_text().split("\n")
        head = next(i for i, line in enumerate(lines) if not line.startswith("//"))
        root.write_text("\n".join([*lines[:head], "#![tactic(auto)]", "", *lines[head:]]))
    for name in sorted(p.name for p in crates.iterdir() if (p / "src").is_dir()):
        subprocess.run(["rt", "fmt"], cwd=crates / name, check=False, stdout=subprocess.DEVNULL)


if __name__ == "__main__":
    main()
