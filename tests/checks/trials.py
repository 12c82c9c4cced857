"""Shows that the checks of documents, places and refusals fail where they must: each trial spoils one thing in a small repository, and the failure
must be about that thing."""
import os
import sys
import tempfile

import documents
import places
import refusals
from crates import text_of
from report import end

FILES = {
    "crates.txt": "small:\nuser: small\njagwelu:\njagwelu_c staticlib: jagwelu\n",
    "README.md": """# Small

## The crates

| Crate | What it is |
|---|---|
| `small`, `user`, `jagwelu`, `jagwelu_c` | all |

## What is proved

x is x (`Same`).
""",
    "docs/STATEMENTS.md": """# The statements

## What is proved

- `Same` (Law.antt): x is x. And `Both`.
- A law (`crates/small/proofs/Law.antt`, `same-zero`).
""",
    "docs/AUDIT.md": """# Audit

The statement, `crates/small/specs/Law.antt` (proved as `same` in `crates/small/proofs/Law.antt`):

    abbrev pub Same : Type 0
    Same = (x : N) -> one x ≡ one x

## What must be read to believe it

| File | What it says |
|---|---|
| `crates/small/specs/Law.antt` | the statement itself |
| `crates/small/specs/Words.antt` | what one of x is |

| File | Why it need not be read |
|---|---|
| `crates/small/src/lib.rt` | a type that is not used |
""",
    "crates/small/src/lib.rt": "pub enum Kind { A }\n",
    "crates/small/specs/Lib.antt": "pub mod Words\npub mod Law\n",
    "crates/small/specs/Words.antt": "use Rattle.small.specs.declared.Kind.{Kind}\n\nabbrev pub one : N\none x = x\n",
    "crates/small/specs/Law.antt": """use Rattle.small.specs.Words.{one}

-- x is x
abbrev pub Same : Type 0
Same = (x : N) -> one x ≡ one x

abbrev pub Other : N
Other = one 0

pub record Pair (x : N) : Type 0 where
  pub left : x ≡ x

abbrev pub Both : Type 0
Both = (x : N) → Pair x
""",
    "crates/small/proofs/Lib.antt": "pub mod Law\n",
    "crates/small/proofs/Law.antt": """use Rattle.small.specs.Law.{Same, Both}

pub same : Same
same x = refl

pub both : Both
both x = record { left = refl }

zero_self : one 0 ≡ one 0
zero_self = refl

pub same-zero : one 0 ≡ one 0
same-zero = zero_self
""",
    "crates/small/must-fail/same.edit": "# Same: one x is x\nfile: specs/Law.antt\nold: one x ≡ one x\nnew: one x ≡ x\n",
    "crates/small/must-fail/pair.edit": "# Both: left is 0\nfile: specs/Law.antt\nold: pub left : x ≡ x\nnew: pub left : x ≡ 0\n",
    "crates/small/must-fail/zero.edit": "# same-zero, of one\nfile: specs/Words.antt\nold: one x = x\nnew: one x = 0\n",
    "target/proofs.log": """rt: user proved
rt: must-fail small/pair.edit: refused, as it must be: ./proofs/Law.antt:7:10: error: `both`: expected type x
rt: must-fail small/same.edit: refused, as it must be: ./proofs/Law.antt:4:10: error: `same`: expected type x
rt: must-fail small/zero.edit: refused, as it must be: ./proofs/Law.antt:9:3: error: `zero_self`: expected type x
rt: must-fail user/f.edit: refused, as it must be: note: src/lib.rt:1:1: it is not proved that the call ends
rt: ok; handles allowed: none; must-fail edits: 4 refused; every proof and must-fail edit was done in this run
""",
    "crates/jagwelu/src/lib.rt": """ghost use Rattle.small.specs.Words.{one};

pub fn jag_one(unit: HeldUnit, store: &[u8]) -> Handed
    ensures { result ≡ one unit }
{
}
""",
    "crates/jagwelu_c/src/lib.rt": """ghost use Rattle.small.specs.Words.{one};

#[unsafe(no_mangle)]
pub extern "C" fn jag_one(unit: HeldUnit, store: &[u8]) -> Handed
    ensures { result ≡ one unit }
{
    jagwelu::jag_one(unit, store)
}
""",
    "include/jagwelu.h": "/* uint32_t jag_two(void); */\nstruct jag_done jag_one(struct jag_unit unit, const uint8_t *store,\n    size_t store_length);\n",
    "crates/user/src/lib.rt": "pub fn f() {}\n",
    "crates/user/must-fail/f.edit": "file: src/lib.rt\nold: {}\nnew: { f() }\n",
}

LAW = "crates/small/specs/Law.antt"
PROOF = "crates/small/proofs/Law.antt"
EDIT = "crates/small/must-fail/same.edit"
LOG = "target/proofs.log"
ELSEWHERE = "tests/refused_elsewhere.txt"
REFUSED = "same.edit: refused, as it must be"
ROW = "| `crates/small/specs/Words.antt` | what one of x is |\n"
HEADER = "include/jagwelu.h"
EXPORTS = "crates/jagwelu_c/src/lib.rt"

# What is spoilt, a word of the failure, and the changes: pairs of file and new text, None for a file removed, or (old, new) within it.
TRIALS = [
    ("a statement without a proof", "Same has no proof", [(PROOF, ("pub same : Same\nsame x = refl\n", ""))]),
    ("a proof of another type", "Same has no proof", [(PROOF, ("pub same : Same", "pub same : Both"))]),
    ("a proof of more than the statement", "Same has no proof", [(PROOF, ("pub same : Same", "pub same : N -> Same"))]),
    ("a type without a proof under it", "Same has no proof", [(PROOF, ("same x = refl\n", ""))]),
    ("a statement of the same name in the proofs", "Same has no proof", [(PROOF, ("Law.{Same, Both}", "Law.{Both}"))]),
    ("a proof in a comment", "Same has no proof", [(PROOF, ("pub same : Same\nsame x", "-- pub same : Same\n-- same x"))]),
    ("a proof in a comment in braces", "has a comment in braces", [(PROOF, ("pub same : Same\nsame x = refl\n", "{-\npub same : Same\nsame x = refl\n-}\n"))]),
    ("a file of proofs that is not declared", "does not declare", [("crates/small/proofs/Lib.antt", "")]),
    ("a statement in a file of proofs that is not declared", "Same has no proof", [("crates/small/proofs/Lib.antt", "-- pub mod Law\n")]),
    ("a file of proofs that is gone, and its line", "Same has no proof", [("crates/small/proofs/Lib.antt", ""), (PROOF, None)]),
    ("a file of definitions that is not declared", "does not declare", [("crates/small/specs/More.antt", "one : N\n")]),
    ("a statement that the index does not name", "does not name Both", [("docs/STATEMENTS.md", (" And `Both`.", ""))]),
    ("a statement that is not there", "names Bothe, which", [("docs/STATEMENTS.md", ("`Both`", "`Both` `Bothe`"))]),
    ("a statement of two crates", "is stated 2 times", [("crates/user/specs/Law.antt", text) for text in [FILES[LAW]]]),
    ("a statement of the README that is not there", "README.md names Samer, which", [("README.md", ("`Same`", "`Samer`"))]),
    ("no section of what is proved", "has no section", [("docs/STATEMENTS.md", ("## What is proved", "## Proved"))]),
    ("a statement without an edit", "Same has no edit", [(EDIT, None)]),
    ("an edit that does not name its statement", "Same has no edit", [(EDIT, ("# Same:", "# Sameness:"))]),
    ("an edit of another file", "Same has no edit", [(EDIT, ("Law.antt\nold: one x ≡ one x", "Words.antt\nold: one x = x"))]),
    ("an edit of another definition", "Same has no edit", [(EDIT, ("old: one x ≡ one x", "old: Other = one 0"))]),
    (
        "a step that the index names and that has no edit",
        "Step has no edit",
        [("crates/unit/specs/Law.antt", "abbrev pub Step : Type 0\nStep = (x : N) → x ≡ x\n"), ("docs/STATEMENTS.md", (" And `Both`.", " And `Both`, `Step`."))],
    ),
    ("a law that is not there", "same-zeroes is in none", [("docs/STATEMENTS.md", ("`same-zero`", "`same-zeroes`"))]),
    ("a law that is not there, in one word", "same_zeroes is in none", [("docs/STATEMENTS.md", ("`same-zero`", "`same_zeroes`"))]),
    ("a law without an edit", "same-zero has no edit", [("crates/small/must-fail/zero.edit", None)]),
    ("a file missing from the reading list", "come from crates/small/specs/Words.antt", [("docs/AUDIT.md", (ROW, ""))]),
    ("a file listed without a reason", "does not say what", [("docs/AUDIT.md", (ROW, ROW.replace("what one of x is", "")))]),
    ("a file listed twice", "twice", [("docs/AUDIT.md", (ROW, ROW + ROW))]),
    ("a file listed that is not there", "is not there", [("docs/AUDIT.md", (ROW, ROW + ROW.replace("Words", "Gone")))]),
    ("a type's file missing from the list", "come from crates/small/src/lib.rt", [("docs/AUDIT.md", ("| `crates/small/src/lib.rt`", "| `README.md`"))]),
    (
        "a file missing for a statement that is named and not quoted",
        "the words of Third come from crates/small/specs/More.antt",
        [("crates/small/specs/More.antt", "abbrev pub Third : Type 0\nThird = (x : N) → x ≡ x\n"), ("docs/AUDIT.md", ("# Audit", "# Audit\n\n`Third`"))],
    ),
    (
        "a contract's file missing from the list",
        "come from crates/user/src/lib.rt",
        [(LAW, ("use Rattle.small", "use Rattle.user.proofs.f.Reads as f\nuse Rattle.small"))],
    ),
    (
        "a contract's own file missing from the list",
        "come from crates/user/src/lib.rt",
        [(LAW, ("use Rattle.small", "use Rattle.user.specs.contracts.f as f\nuse Rattle.small"))],
    ),
    ("a contract that is not found, by its own name", "is not found", [(LAW, ("use Rattle.small", "use Rattle.user.specs.contracts.g as g\nuse Rattle.small"))]),
    ("a contract that is not found", "is not found", [(LAW, ("use Rattle.small", "use Rattle.user.proofs.g.Reads as g\nuse Rattle.small"))]),
    ("an import as another name that is not found", "is not found", [(LAW, ("use Rattle.small", "use Rattle.small.specs.Gone as gone\nuse Rattle.small"))]),
    ("an import that is not found", "is not found", [(LAW, ("use Rattle.small", "use Rattle.small.specs.Gone.{two}\nuse Rattle.small"))]),
    ("a quote that is not in the source", "has not: abbrev", [("docs/AUDIT.md", ("one x ≡ one x", "one x ≡ x"))]),
    ("a proof named that is not there", "has no same-as", [("docs/AUDIT.md", ("`same`", "`same-as`"))]),
    ("no quote", "quotes no statement", [("docs/AUDIT.md", ("    abbrev pub Same", "    (abbrev pub Same"))]),
    ("a crate that the README leaves out", "crate user is not in the table", [("README.md", (", `user`", ""))]),
    ("a crate that crates.txt leaves out", "crate user is not in crates.txt", [("crates.txt", "small:\n")]),
    ("a buffer that is written and const in the header", "the source `struct jag_done jag_one(struct jag_unit unit, uint8_t", [(EXPORTS, ("&[u8]", "&mut [u8]"))]),
    ("a buffer that is read and not const in the header", "has `struct jag_done jag_one(struct jag_unit unit, uint8_t", [(HEADER, ("const ", ""))]),
    ("parameters in another order", "jag_one(const uint8_t", [(EXPORTS, ("unit: HeldUnit, store: &[u8]", "store: &[u8], unit: HeldUnit"))]),
    ("an exported function that the header lacks", "has `None`, the source `struct jag_done jag_one", [(HEADER, "/* nothing */\n")]),
    ("a function of the header that is not exported", "jag_two(void)`, the source `None`", [(HEADER, ("/* ", "")), (HEADER, (" */", ""))]),
    ("no exported function", "exports no function", [(EXPORTS, "fn f() {}\n")]),
    ("an exported function that promises something else", "of jag_one, crates/jagwelu/src", [(EXPORTS, ("one unit", "one store"))]),
    ("an exported function that promises nothing", "of jag_one, crates/jagwelu/src", [(EXPORTS, ("    ensures { result ≡ one unit }\n", ""))]),
    ("an exported function that asks something", "of jag_one, crates/jagwelu/src", [(EXPORTS, ("    ensures", "    requires { unit ≡ 0 }\n    ensures"))]),
    ("an exported function that the library lacks", "of jag_one, crates/jagwelu/src", [("crates/jagwelu/src/lib.rt", "fn f() {}\n")]),
    ("a word of another module in what is promised", "takes one from Rattle.other", [(EXPORTS, ("small.specs", "other.specs"))]),
    ("an edit in a wrong folder", "has no place", [("crates/small/mustfail/more.edit", FILES[EDIT])]),
    ("an edit with a wrong ending", "has no place", [("crates/small/must-fail/more.edits", FILES[EDIT])]),
    ("an edit in a folder of must-fail", "has no place", [("crates/small/must-fail/more/same.edit", FILES[EDIT])]),
    ("a file beside the crates", "has no place", [("crates/notes.txt", "x\n")]),
    ("a file of notes in a crate", "has no place", [("crates/small/src/notes.txt", "x\n")]),
    ("a crate that is set aside but for a file", "crate later is not in crates.txt", [("crates/later/src/lib.rt", "x\n"), ("crates/later/specs/Law.antt.txt", "x\n")]),
    ("a definition among the sources", "has no place", [("crates/small/src/Law.antt", "x\n")]),
    ("an edit that changes nothing", "it changes nothing", [(EDIT, "# Same\n")]),
    ("an edit with a line that is no part of one", "a line that is none of", [(EDIT, ("file:", "fil:"))]),
    ("an edit without its new text", "without a new one", [(EDIT, ("new: one x ≡ x\n", ""))]),
    ("an edit of a file that is not there", "is no file", [(EDIT, ("Law.antt", "Laws.antt"))]),
    ("an edit of a proof", "is no file", [(EDIT, ("specs/Law.antt", "proofs/Law.antt"))]),
    ("an edit whose old text is not there", "stands 0 times", [(EDIT, ("old: one", "old: none"))]),
    ("an edit whose old text is there twice", "times in specs", [(EDIT, ("old: one x ≡ one x", "old: x"))]),
    ("no proofs were made", "was not refused, or not tried", [(LOG, None)]),
    ("an edit that was not tried", "same.edit was not refused, or not tried", [(LOG, ("small/same.edit", "small/other.edit"))]),
    ("an edit whose check was killed", "same.edit was not refused, or not tried", [(LOG, (REFUSED, "same.edit: NOT TRIED: its check was killed"))]),
    ("an edit that was not refused", "same.edit was not refused, or not tried", [(LOG, (REFUSED, "same.edit: NOT REFUSED: the crate is still proved"))]),
    ("a bad edit", "same.edit was not refused, or not tried", [(LOG, (REFUSED, "same.edit: BAD EDIT: it changes nothing"))]),
    ("a refusal for a name", "is refused for a name", [(LOG, ("expected type x\nrt: must-fail small/zero", "`x` is not in scope\nrt: must-fail small/zero"))]),
    ("a refusal for a name of a module", "is refused for a name", [(LOG, ("it is not proved", "module M has no `x` that can be named from here"))]),
    ("a refusal that rt says shows little", "shows nothing", [(LOG, (REFUSED, "same.edit: refused, as it must be (only because a proof file names what the edit took away)"))]),
    ("a refusal by a limit", "shows nothing", [(LOG, (REFUSED, "same.edit: refused, as it must be (only by a limit of the prover, which gave no verdict)"))]),
    ("a refusal of which nothing is told", "is refused at no fact", [(LOG, (": note: src/lib.rt:1:1: it is not proved that the call ends", ""))]),
    ("an edit that has no sense", "makes no sense", [(LOG, ("./proofs/Law.antt:4:10: error: `same`", "./specs/Law.antt:5:10: error: `Same`"))]),
    ("an edit that cannot be read", "makes no sense", [(LOG, ("./proofs/Law.antt:4:10: error: `same`", "./specs/Law.antt:5:10: error: a line"))]),
    ("a refusal of another proof", "names Same, and what was refused is no part", [(LOG, ("`same`", "`both`"))]),
    ("a refusal of a third proof", "names Same, and what was refused is no part", [(LOG, ("`same`", "`both`")), (ELSEWHERE, "small/same zero_self\n")]),
    ("a refusal told elsewhere of an edit that is not there", "names small/gone, which is no edit", [(ELSEWHERE, "small/gone both\n")]),
    ("a refusal of another law", "names same-zero, and what was refused is no part", [(LOG, ("`zero_self`", "`both`"))]),
    ("a name in the auditor's page that is not there", "names Twice, which", [("docs/AUDIT.md", ("# Audit", "# Audit\n\n`Twice`"))]),
    ("an edit whose texts are the same", "are the same", [(EDIT, ("new: one x ≡ x", "new: one x ≡ one x"))]),
]

# What is no fault: its name, and the changes.
GOOD = [
    ("nothing changed", []),
    ("a crate that is set aside", [("crates/later/src/lib.rt.txt", "x\n"), ("crates/later/specs/Law.antt.txt", "{-\n")]),
    ("a file that is set aside", [("crates/small/specs/Later.antt.txt", "x\n"), ("crates/small/must-fail/later.edit.txt", "x\n")]),
    ("what rt makes", [("crates/small/out/rlib/Law.antt", "{-\n"), ("crates/later/out/x", "x\n"), ("crates/later/src/lib.rt.txt", "x\n")]),
    ("a function and a crate named in the index", [("docs/STATEMENTS.md", ("`same-zero`", "`same-zero`, `jag_one` and `jagwelu_c`"))]),
    ("a refusal told at another proof", [(LOG, ("`same`", "`both`")), (ELSEWHERE, "# none\nsmall/same both\n")]),
    ("a function's contract refused first", [(LOG, ("./proofs/Law.antt:4:10: error: `same`", "note: src/lib.rt:1:1: it is not proved that"))]),
]


def write(path, text):
    os.makedirs(os.path.dirname(path) or ".", exist_ok=True)
    with open(path, "w", encoding="utf-8") as file:
        file.write(text)


def spoil(path, change):
    if change is None:
        os.remove(path)
    elif isinstance(change, str):
        write(path, change)
    else:
        old, new = change
        assert old in text_of(path), f"{path} has not {old!r}"
        write(path, text_of(path).replace(old, new))


def failures(changes):
    """What the checks find in the small repository with these changes."""
    back = os.getcwd()
    with tempfile.TemporaryDirectory() as folder:
        os.chdir(folder)
        try:
            for path, text in FILES.items():
                write(path, text)
            for path, change in changes:
                spoil(path, change)
            return [text for text, good in documents.checks() + list(places.checks()) + list(refusals.checks()) if not good]
        finally:
            os.chdir(back)


def trials():
    for name, changes in GOOD:
        found = failures(changes)
        yield f"{name}: expected no failure, found {found}", not found
    for name, word, changes in TRIALS:
        found = failures(changes)
        yield f"{name}: expected a failure with `{word}`, found {found}", any(word in text for text in found)


if __name__ == "__main__":
    sys.exit(end(list(trials())))
