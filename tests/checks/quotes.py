"""What the auditor's page quotes stands word for word in the file that it names, and what it names is there."""
import os
import re

import crates
import pages


def squeezed(text):
    """The text without its comments and with its empty lines gone: a quote leaves them out."""
    kept = [line.rstrip() for line in crates.bare(text).split("\n")]
    return "\n".join(line for line in kept if line)


def checks():
    page = pages.AUDIT
    text = crates.text_of(page)
    quotes = pages.source_quotes(page)
    yield f"{page} quotes no statement", bool(pages.stated(page))
    for file, block in quotes:
        source = squeezed(crates.text_of(file)) if file and os.path.exists(file) else ""
        for part in block.split("\n\n"):
            yield f"{page}: {file} has not: {part.splitlines()[0]}", f"\n{squeezed(part)}\n" in f"\n{source}\n"
    for crate, edit in re.findall(r"\| `(\w+)/(\w+)` \|", text):
        yield f"{page}: there is no edit {crate}/{edit}", os.path.exists(f"crates/{crate}/must-fail/{edit}.edit")
    for file in sorted(set(re.findall(r"`(crates/[\w/.]+)`", text + crates.text_of(pages.README) + crates.text_of(pages.INDEX)))):
        yield f"{file} is named and is not there", os.path.exists(file)
    for law, file in re.findall(r"proved as `([^`]+)` in `([^`]+)`", text):
        crate = file.split("/")[1]
        there = file in crates.declared(crate, "proofs") and any(name == law for name, _, _ in crates.blocks(file))
        yield f"{page}: {file} has no {law} that the prover reads", there
