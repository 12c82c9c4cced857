#!/usr/bin/env python3
"""Brings the repository's own definitions and lemmas to today's spelling, after port.py: words in snake case, a dash only beside the name of a definition.

usage: python3 tools/respell.py [FOLDER]     the top of a checkout on which port.py has run; files are rewritten in place

A definition, constructor, field or variable in lower camel case becomes snake case: `firstDay` is `first_day`. In the name of a lemma the dash that joins plain words
becomes `_`; a dash beside the name of a definition stays (`first_day-suc`). Types, functions of src/, exported C names and strings keep their names. A name is left
where its new spelling is another name already. Edits in must-fail/ and the pages get the new names too.
"""
import collections
import glob
import os
import re
import sys

# lemmas that would have the name of the definition that they speak of
LEMMAS = {
    ("crates/about_bodies/proofs/Written.antt", "first_next"): "first_next_lem",
    ("crates/about_calls/proofs/Taking.antt", "take_step"): "take_step_lem",
    ("crates/about_calls/proofs/Taking.antt", "taken_step"): "taken_step_lem",
}
TOKEN = re.compile(r"(?<![\w'·-])[A-Za-z_][\w']*(?:-[\w'ℕ]+)*")
DECLARED = re.compile(r"^ *(?:pub |abbrev pub |unfoldable pub |abbrev |unfoldable )?([A-Za-z][\w']*(?:-[\w'ℕ]+)*) (?:\{[^}]*\} )?:", re.M)
CAMEL = re.compile(r"[a-z0-9][A-Z]")


def snake(name):
    return re.sub(r"([a-z0-9])([A-Z])", lambda m: m.group(1) + "_" + m.group(2).lower(), name)


def lower_camel(name):
    return name[0].islower() and CAMEL.search(name)


def read(path):
    with open(path, encoding="utf-8") as f:
        return f.read()


def files(*patterns):
    return sorted(p for pattern in patterns for p in glob.glob(pattern, recursive=True) if "/out/" not in p)


def tokens(text):
    return TOKEN.findall(text)


def camel_names(specs_and_proofs):
    """Each part of a token in lower camel case, `-` and projections aside, and its new spelling."""
    seen, parts = set(), set()
    for path in specs_and_proofs:
        for token in tokens(read(path)):
            seen.add(token)
            parts.update(p for p in token.split("-") if lower_camel(p))
    taken = {p for t in seen for p in t.split("-")}
    made = collections.defaultdict(list)
    for part in sorted(parts):
        made[snake(part)].append(part)
    new = {}
    for spelling, old in made.items():
        if len(old) > 1 or spelling in taken:
            print(f"look: {', '.join(old)} -> {spelling}" + (" (there is such a name)" if spelling in taken else ""))
        new.update({o: spelling for o in old})
    return new


def lemma_names(lemma_files, spec_files, every_file, camel):
    """The new spelling of each lemma's name that has a dash between plain words."""
    words = {"suc", "zero", "nil", "cons", "some", "none", "true", "false", "add", "mul", "sub", "le", "lt", "eqb", "leb", "ltb", "pow", "div", "mod", "cond"}
    for path in spec_files:
        words.update(camel_word(n, camel) for n in DECLARED.findall(read(path)))
    imported = re.compile(r"^use (?:Rattle\.std|mathlib|lib|native|Prim|antt)[\w.]*\.\{([^}]*)\}", re.M)
    for path in every_file:
        for names in imported.findall(read(path)):
            words.update(n.strip() for n in names.split(",") if "-" not in n)
    projected, seen = set(), set()
    for path in every_file:
        text = read(path)
        seen.update(camel_word(t, camel) for t in tokens(text))
        projected.update(re.findall(r"[\w')]\.([a-z][\w']*(?:-[\w'ℕ]+)+)", text))
    from_std = set()
    for path in every_file:
        for names in imported.findall(read(path)):
            from_std.update(n.strip() for n in names.split(","))
    new = {}
    for path in lemma_files:
        for name in DECLARED.findall(read(path)):
            if "-" not in name or not name[0].islower() or name in projected or name in from_std:
                continue
            name = camel_word(name, camel)
            parts = name.split("-")
            spelt = parts[0]
            for left, right in zip(parts, parts[1:]):
                spelt += ("-" if left in words or right in words else "_") + right
            if spelt != name:
                if spelt in seen or spelt in new.values() and new.get(name) != spelt:
                    print(f"look: {name} stays: {spelt} is a name already")
                else:
                    new[name] = spelt
    return new


def camel_word(token, camel):
    return "-".join(camel.get(p, p) for p in token.split("-"))


def respelt(text, camel, lemmas):
    def one(m):
        token = camel_word(m.group(0), camel)
        return lemmas.get(token, token)

    return TOKEN.sub(one, text)


def outside_strings(text, change):
    """text with what is outside of string literals changed; lines of comments count as outside."""
    out = []
    for line in text.split("\n"):
        if line.lstrip().startswith("//"):
            out.append(change(line))
            continue
        pieces = re.split(r'(b?"(?:[^"\\]|\\.)*")', line)
        out.append("".join(p if i % 2 else change(p) for i, p in enumerate(pieces)))
    return "\n".join(out)


def edit_line(line, of_specs, camel, lemmas):
    """A line of a must-fail edit; in an edit of definitions a projection is written tight, as port.py writes it in the definitions."""
    if line.startswith("file: "):
        return line
    line = respelt(line, camel, lemmas if of_specs else {})
    if of_specs and not line.startswith("#"):
        line = re.sub(r"(?<=[\w')]) \.(?=[a-z_0-9])", ".", line)
    return line


def write(path, text, old):
    if text != old:
        with open(path, "w", encoding="utf-8") as f:
            f.write(text)


def main(argv):
    os.chdir(argv[0] if argv else os.path.join(os.path.dirname(os.path.realpath(__file__)), ".."))
    for (path, name), new in LEMMAS.items():
        old = read(path)
        write(path, TOKEN.sub(lambda m: new if m.group(0) == name else m.group(0), old), old)
    antt = files("crates/*/specs/**/*.antt", "crates/*/proofs/**/*.antt")
    specs = files("crates/*/specs/*.antt")
    lemmas_in = [p for p in antt if os.path.basename(p) not in ("Proof.antt", "Lib.antt")]
    camel = camel_names(antt)
    lemmas = lemma_names(lemmas_in, specs, antt, camel)
    for path in antt:
        old = read(path)
        write(path, respelt(old, camel, lemmas), old)
    for path in files("crates/*/src/**/*.rt"):
        old = read(path)
        write(path, outside_strings(old, lambda s: respelt(s, camel, {})), old)
    for path in files("crates/*/must-fail/*.edit"):
        old = read(path)
        write(path, "\n".join(edit_line(l, "file: specs/" in old, camel, lemmas) for l in old.split("\n")), old)
    for path in ["README.md"] + files("docs/*.md"):
        old = read(path)
        if os.path.basename(path).startswith("PORT"):
            continue
        write(path, re.sub(r"`[^`\n]*`", lambda m: respelt(m.group(0), camel, lemmas), old), old)
    print(f"respell: {len(camel)} names in camel case, {len(lemmas)} lemmas")


if __name__ == "__main__":
    main(sys.argv[1:])
