"""What each definition and lemma of the crates is made of."""
import os
import re

import crates

WORD = re.compile(r"[^\s(){}\[\];,.λ@«»]+")
USE = re.compile(r"^(?:pub )?(?:ghost )?use (Rattle\.[^\s{;]+?)(?:\.\{([^}]*)\}| as (\S+?))?;?$", re.M)
TACTIC = re.compile(r"^\s*#!?\[tactic\((.*)\)\]$", re.M)
PATH = re.compile(r"\w+(?:::\w+)+")
MODULE = re.compile(r"Rattle\.(\w+)\.(specs|proofs)\.(\S+)")


def file_of(module):
    """The file that a module's path leads to, None for what the prover makes and for the kit's."""
    found = MODULE.fullmatch(module)
    if not found:
        return None
    crate, part, words = found.group(1), found.group(2), found.group(3).split(".")
    for count in range(len(words), 0, -1):
        path = f"crates/{crate}/{part}/{'/'.join(words[:count])}.antt"
        if os.path.exists(path):
            return path
    return None


def taken(path):
    """What a file brings in: its own name for a thing to (file, name there), and the aliases of whole files."""
    names, aliases = {}, {}
    text = re.sub(r"(^|\s)(--|//).*", r"\1", crates.text_of(path))
    for module, listed, alias in USE.findall(text):
        home = file_of(module)
        if home is None:
            continue
        if alias:
            aliases[alias] = home
        for item in filter(None, (item.strip() for item in listed.split(","))):
            name, _, own = item.partition(" as ")
            name, own = name.strip(), (own or name).strip()
            names[own] = names[own.strip("_◌")] = (home, name)  # an operator `◌is◌` is used as `is`
        if not listed and not alias:
            aliases[module.split(".")[-1]] = home
    for attribute in TACTIC.findall(text):  # `using(crate::proofs::Scan::next)` in a source
        for cited in PATH.findall(attribute):
            first, *between, name = cited.split("::")
            home = file_of(".".join(["Rattle", path.split("/")[1] if first == "crate" else first, *between]))
            if home:
                names[name] = (home, name)
    return names, aliases


def blocks(lines, around=()):
    """The blocks of some numbered lines, each with its name, its first line's number, its text and the first lines of the modules around it."""
    found = []
    for number, line in lines:
        if found and (line[0].isspace() or line.startswith(crates.CONTINUES)):
            found[-1].append((number, line))
        else:
            found.append([(number, line)])
    for block in found:
        first, text = block[0][0], "\n".join(line for _, line in block)
        if not text.startswith("module "):
            yield crates.HEAD.match(text).group(1), first, text, around
            continue
        end = next(i for i, (_, line) in enumerate(block) if line.endswith("where")) + 1
        yield None, first, "\n".join(line for _, line in block[:end]), around
        yield from blocks([(number, line[2:]) for number, line in block[end:]], (*around, first))


class File:
    def __init__(self, path):
        self.path = path
        self.names, self.aliases = taken(path)
        self.blocks = {}  # a block's first line to its text
        self.around = {}  # and to the first lines of the modules around it
        self.home = {}  # a name to the lines of the blocks that define it
        lines = [(number, line) for number, line in enumerate(crates.bare(crates.text_of(path)).split("\n"), 1) if line.strip()]
        for name, line, text, around in blocks(lines):
            if text.startswith(("use ", "pub use ", "pub mod ", "mod ", "infix")):
                continue
            self.blocks[line], self.around[line] = text, around
            defined = {name} if name else set()
            if re.match(r"(?:\w+ )*(?:data|record) ", text):
                defined |= set(re.findall(r"^\s+(?:(?:abbrev|unfoldable|pub|record|data) )*([^\s(:]+)[^:=\n]*? :", text, re.M))
            for one in defined:
                for word in {one, one.strip("_◌")}:
                    self.home.setdefault(word, []).append(line)

    def mentions(self, line):
        """The (file, name) that a block is made of."""
        text = self.blocks[line]
        for word in set(WORD.findall(text)):
            if word in self.home:
                yield self.path, word
            elif word in self.names:
                yield self.names[word]
        for alias, home in self.aliases.items():
            for word in re.findall(rf"(?<![\w.-]){re.escape(alias)}\.({WORD.pattern})", text):
                yield home, word


def every_file():
    """The files of definitions and of proofs, by their paths."""
    found = (path for crate in crates.names() for part in ("specs", "proofs") for path in crates.files(f"crates/{crate}/{part}"))
    return {path: File(path) for path in found if path.endswith(".antt")}


def needed_by(todo, files):
    """The (file, line) of each block that these (file, name) are made of."""
    todo, needed, seen = list(todo), set(), set()
    while todo:
        path, name = todo.pop()
        if (path, name) in seen or path not in files:
            continue
        seen.add((path, name))
        for line in files[path].home.get(name, []):
            for line in (line, *files[path].around[line]):
                if (path, line) not in needed:
                    needed.add((path, line))
                    todo += files[path].mentions(line)
    return needed
