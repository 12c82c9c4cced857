"""After the proofs: every must-fail edit was refused, and at a fact. A refusal because a name is gone, or because the edited definition
itself makes no sense, shows nothing; and an edit that names a statement or a law must have broken its proof. `rt ci` has one line for each
edit, with the first error that is more than a name that is gone, cut at 160 characters; scripts/test keeps its words. Where that error is of
another proof, which the prover comes to first, tests/refused_elsewhere.txt names it: scripts/refusal showed that the named one is refused too."""
import os
import re
import sys

import crates
import statements
import uses
from edits import edits
from report import end

SAID = "target/proofs.log"
ELSEWHERE = "tests/refused_elsewhere.txt"
LINE = re.compile(r"rt: must-fail (\w+)/([\w.-]+)\.edit: (.*)")
REFUSED = "refused, as it must be"
# rt's own words for the two refusals that say little, and what an error says where a name is gone
ONLY = re.compile(r" \(only [^)]*\)")
GONE = re.compile(r"that can be named from here|is not in scope|has no field|is no name")


def checks():
    said = {(crate, label): words for crate, label, words in LINE.findall(read(SAID))}
    stated, files, told = crates.statements(), uses.every_file(), elsewhere()
    for label in sorted(set(told) - {f"{edit.crate}/{edit.label}" for edit in edits()}):
        yield f"{ELSEWHERE} names {label}, which is no edit", False
    for edit in edits():
        words = said.get((edit.crate, edit.label), "nothing was said")
        refused = words.startswith(REFUSED)
        yield f"{edit.path} was not refused, or not tried: {words}", refused
        if not refused:
            continue
        only = ONLY.match(words, len(REFUSED))
        yield f"{edit.path} is refused and shows nothing: {words}", not only
        fact = words[len(REFUSED) :].lstrip(": ")
        yield f"{edit.path} is refused at no fact", bool(fact)
        yield f"{edit.path} is refused for a name: {fact}", not GONE.search(fact)
        at = place(fact)
        if at is None:
            # a function's contract, which stands before the proofs of laws in what rt says
            continue
        file, broken = f"crates/{edit.crate}/{at[0]}", at[1]
        yield f"{edit.path} makes no sense: {fact}", not senseless(edit, file, broken)
        for name, proofs in broken_by(edit, stated):
            found = any(rests_on(proof, file, broken, files) for proof in proofs) or told.get(f"{edit.crate}/{edit.label}") == broken
            yield f"{edit.path} names {name}, and what was refused is no part of its proof: {fact}", found


def read(path):
    return crates.text_of(path) if os.path.isfile(path) else ""


def elsewhere():
    """The edits whose refusal is told at another proof, each with that proof."""
    lines = [line.split() for line in read(ELSEWHERE).split("\n") if line and not line.startswith("#")]
    return {words[0]: words[-1] for words in lines}


def place(fact):
    """The file and the definition or lemma of an error, None where it is of a function."""
    at = re.match(r"(?:\./)?((?:specs|proofs)/\S+?\.antt):\d+:\d+: error: (?:`([^`]*)`)?", fact)
    if not at or uses_own_folder(at[1]):
        return None
    return at[1], (at[2] or "").split(".")[0]


def uses_own_folder(file):
    """Whether a file is of a function's own proof."""
    return bool(re.fullmatch(r"proofs/.+/(?:Invariants|Answers|Proof)\.antt", file))


def senseless(edit, file, broken):
    """Whether the error is the edit's own: of a definition that it changes, or of none (the file cannot be read)."""
    changed = {(path, crates.block_at(path, line)) for path, line in edit.lines()}
    return "/specs/" in file and (not broken or (file, broken) in changed)


def rests_on(proof, file, broken, files):
    """Whether a proof, (file, name), is what was refused, or is made of it: then it was refused too."""
    lines = set(files[file].home.get(broken, [])) if file in files else set()
    return any((file, line) in uses.needed_by([proof], files) for line in lines)


def broken_by(edit, stated):
    """The statements and laws that an edit names, each with its proofs, as (file, name)."""
    for statement in stated:
        if statement.crate == edit.crate and statements.edits_it(edit, statement):
            yield statement.name, [(path, name) for name, path in crates.proofs_of(statement)]
    for law, file in statements.named_laws(edit.crate):
        if edit.names(law):
            yield law, [(file, law)]


if __name__ == "__main__":
    sys.exit(end(list(checks())))
