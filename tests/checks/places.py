"""Every file under crates/ stands where the check reads it, and every must-fail edit has its shape: one in a wrong folder or with a wrong
ending would be passed over without a word."""
import os
import re
import sys

import crates
from edits import edits
from report import end

PLACES = (
    r"src/\w+\.rt",
    r"specs/(?:\w+/)*\w+\.antt",
    r"proofs/(?:[\w+]+/)*\w+\.antt",
    r"must-fail/\w+\.edit",
    r"stdin|stdout|args|status",
    r"data/.+",
)


# A file of a place that is still to come has its own name and .txt: no check reads it.
ASIDE = r"(?:(?:src|specs|proofs|must-fail)/.*\.(?:rt|antt|edit)\.txt)"


def placed(path):
    parts = path.split("/", 2)
    return len(parts) == 3 and not os.path.islink(path) and any(re.fullmatch(place, parts[2]) for place in (*PLACES, ASIDE))


def checks():
    for path in sorted(crates.files()):
        yield f"{path} has no place in a crate", placed(path)
        if path.endswith((".antt", ".rt")):
            yield f"{path} has a comment in braces, which hides its text from the prover and not from the checks", "{-" not in crates.text_of(path)
    for name in crates.names():
        for part in ("specs", "proofs"):
            stray = undeclared(name, part)
            yield f"crates/{name}/{part}/Lib.antt does not declare {', '.join(stray)}", not stray
    for edit in edits():
        yield f"{edit.path}: {'; '.join(edit.faults)}", not edit.faults


def undeclared(crate, part):
    """The files right in specs/ or proofs/ that Lib.antt does not declare; a folder of proofs/ belongs to a function."""
    folder = f"crates/{crate}/{part}"
    there = sorted(f"{folder}/{name}" for name in os.listdir(folder) if name.endswith(".antt")) if os.path.isdir(folder) else []
    known = crates.declared(crate, part)
    return [path for path in there if path not in known]


if __name__ == "__main__":
    sys.exit(end(list(checks())))
