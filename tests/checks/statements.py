"""Statements tied to proofs: each has a proof that the prover reads, is named in the index of statements, and each that is named there has an edit of its
own text that is refused. The index names laws, in small letters with their file, in the same way."""
import re

import crates
import pages
from edits import edits

# The statements of these are steps towards those that the index names: it may leave them out. They need a proof all the same.
STEPS = ("about_store", "unit")
NAME = r"[A-Z]\w*[a-z]\w*"


def checks():
    every = crates.statements()
    named = pages.section(pages.INDEX, "What is proved")
    yield f"{pages.INDEX} has no section `What is proved` that names a statement", any(s.name in pages.quoted(named) for s in every)
    yield from stated_once(every)
    for statement in every:
        yield f"{statement.file}: {statement.name} has no proof", bool(crates.proofs_of(statement))
        told = statement.name in pages.quoted(named)
        if statement.crate not in STEPS:
            yield f"{pages.INDEX} does not name {statement.name} of {statement.file}", told
        if told:
            yield f"{statement.file}: {statement.name} has no edit of its own text", any(edits_it(e, statement) for e in edits(statement.crate))
    yield from names_exist(every, named)
    for law, files in laws(named):
        homes = [file for file in files if is_law(law, file)]
        yield f"{pages.INDEX}: {law} is in none of the files named beside it", bool(homes)
        for file in homes:
            yield f"{file}: {law} has no edit", any(edit.names(law) for edit in edits(file.split("/")[1]))


def stated_once(every):
    """A name stands for one statement."""
    for name in sorted({s.name for s in every}):
        files = [s.file for s in every if s.name == name]
        yield f"{name} is stated {len(files)} times: {', '.join(files)}", len(files) == 1


def names_exist(every, named):
    """What a document names like a statement is one."""
    known = {s.name for s in every}
    for word in sorted(set(pages.quoted(named))):
        if re.fullmatch(NAME, word):
            yield f"{pages.INDEX} names {word}, which no crate states", word in known
    for file, name in pages.stated(pages.AUDIT):
        yield f"{pages.AUDIT} quotes {name}, which {file} does not state", any((s.file, s.name) == (file, name) for s in every)
    for word in sorted(set(pages.quoted(pages.section(pages.README, "What is proved")))):
        if re.fullmatch(NAME, word):
            yield f"{pages.README} names {word}, which no crate states", word in known
    known = {name for path in crates.definitions() for name, _, _ in crates.blocks(path)}
    for word in sorted(set(pages.quoted(crates.text_of(pages.AUDIT)))):
        if re.fullmatch(NAME, word):
            yield f"{pages.AUDIT} names {word}, which no crate defines", word in known


def edits_it(edit, statement):
    """Whether an edit names the statement and changes it, or what it is made of, in its own file."""
    return edit.names(statement.name) and any(
        path == statement.file and crates.block_at(path, line) in crates.reached(statement.name, path) for path, line in edit.lines()
    )


def laws(named):
    """The laws that the index names, in small letters, each with the files named beside it. A name of a function, of a crate or of a definition
    that is no law looks the same where it has no dash."""
    plain = others()
    for item in pages.items(named):
        words = pages.quoted(item)
        files = [word for word in words if re.fullmatch(r"crates/\w+/(?:specs|proofs)/\S+\.antt", word)]
        for law in [word for word in words if re.fullmatch(r"[a-z0-9]+(?:[-_][a-z0-9]+)+", word) and word not in plain]:
            yield law, files


def others():
    """The functions, the crates, and the definitions of specs/ whose type has no equality."""
    found = set(crates.names())
    for path in crates.files():
        if path.endswith(".rt"):
            found.update(re.findall(r"\bfn (\w+)", crates.text_of(path)))
    for path in crates.definitions():
        found.update(name for name, _, text in crates.blocks(path) if re.match(r"(?:\w+ )*\S+ :[^≡]*$", text))
    return found


def is_law(law, file):
    crate, part = file.split("/")[1:3]
    return file in crates.declared(crate, part) and any(name == law and " : " in text for name, _, text in crates.blocks(file))


def named_laws(crate):
    """The laws of a crate that the index names, each with its file."""
    found = laws(pages.section(pages.INDEX, "What is proved"))
    return [(law, file) for law, files in found for file in files if file.split("/")[1] == crate and is_law(law, file)]
