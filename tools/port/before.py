#!/usr/bin/env python3
"""Before the kit's port.py: two proofs call an import by a name in snake case, by which port.py takes the whole repository for one
that is written for today's Rattle, and leaves most of its steps out. Gives the two imports other names. Run it at the top, once."""
import pathlib
import re

ALIASES = {
    "crates/keys/proofs/found_at/Proof.antt": ("found_at", "foundAt"),
    "crates/keys/proofs/lookup/Proof.antt": ("key_of", "keyOfCode"),
}
for name, (old, new) in ALIASES.items():
    path = pathlib.Path(name)
    text = path.read_text()
    text = re.sub(rf"(?<=\bas ){old}$", new, text, flags=re.M)
    text = re.sub(rf"(?<![\w.·-]){old}(?=\.(ended|signature|clauses|spec)\b)", new, text)
    path.write_text(text)
