"""The definitions and proofs of the crates, as far as the documents speak of them."""
import glob
import os
import re

HEAD = re.compile(r"(?:(?:abbrev|unfoldable|pub|record|data|ruleset) )*([^\s(]+)")
CONTINUES = ("}", ")", "unfolding ")


def text_of(path):
    with open(path, encoding="utf-8") as file:
        return file.read()


def bare(text):
    """The text with its comments blanked, line for line."""
    return re.sub(r"(^|\s)--.*", r"\1", text)


def names():
    """The crates by name: the folders of crates/, but for those that are set aside."""
    return sorted(os.path.basename(folder.rstrip("/")) for folder in glob.glob("crates/*/") if not set_aside(folder))


def files(folder="crates"):
    """The files below a folder, but for what `rt` makes in a crate's out/."""
    for at, folders, found in os.walk(folder.rstrip("/")):
        if at.count("/") == 1 and "out" in folders:
            folders.remove("out")
        for name in found:
            yield os.path.join(at, name)


def set_aside(folder):
    """Whether a folder holds files, and each ends in .txt: a crate that is still to come, which no check reads."""
    found = list(files(folder))
    return bool(found) and all(path.endswith(".txt") for path in found)


def blocks(path):
    """What stands at the left margin, with what is indented under it: triples of name, first line's number, text."""
    found = []
    for number, line in enumerate(bare(text_of(path)).split("\n"), 1):
        if not line.strip():
            continue
        if found and (line[0].isspace() or line.startswith(CONTINUES)):
            found[-1][2].append(line)
        else:
            found.append((HEAD.match(line).group(1), number, [line]))
    return [(name, number, "\n".join(lines)) for name, number, lines in found]


def declared(crate, part):
    """The files of a crate's specs/ or proofs/ that its Lib.antt declares, itself or through another: the prover checks these."""
    seen, todo = [], [f"crates/{crate}/{part}/Lib.antt"]
    while todo:
        path = todo.pop()
        if path in seen or not os.path.exists(path):
            continue
        seen.append(path)
        folder = os.path.dirname(path) if path.endswith("/Lib.antt") else path[: -len(".antt")]
        todo += [f"{folder}/{name}.antt" for name in re.findall(r"^(?:pub )?mod (\S+)", bare(text_of(path)), re.M)]
    return sorted(seen)


def definitions():
    return sorted(glob.glob("crates/*/specs/**/*.antt", recursive=True))


class Statement:
    """A definition of type `Type 0` that says something."""

    def __init__(self, crate, name, file):
        self.crate, self.name, self.file = crate, name, file


def statements():
    """Every `pub X : Type 0` in a crate's definitions whose text has an arrow or an equality, or is the name of a record of its file; a pair
    of types, say, is no statement."""
    found = []
    for path in definitions():
        parts = blocks(path)
        records = {name for name, _, text in parts if re.match(r"pub record ", text)}
        for name, _, text in parts:
            if re.fullmatch(r"(?:\w+ )*pub \S+ : Type 0", text) and any(
                other == name and re.match(r"\S+ =", body) and (re.search("[→↔≡]", body) or body.split("=", 1)[1].strip() in records)
                for other, _, body in parts
            ):
                found.append(Statement(path.split("/")[1], name, path))
    return found


def reached(name, path):
    """The names of the blocks of a file that the block of that name is made of: its own, and what these name."""
    parts = blocks(path)
    found, todo = set(), [name]
    while todo:
        one = todo.pop()
        if one in found:
            continue
        found.add(one)
        words = {word for other, _, text in parts if other == one for word in re.findall(r"[^\s().{},;]+", text)}
        todo += [other for other, _, _ in parts if other in words]
    return found


def block_at(path, line):
    """The name of the block in which a line stands."""
    at = None
    for name, number, _ in blocks(path):
        if number <= line:
            at = name
    return at


def brings_in(path, module, name):
    """Whether a file brings that name in from that module, under no other name."""
    for listed in re.findall(r"^use " + re.escape(module) + r"\.\{([^}]*)\}", bare(text_of(path)), re.M):
        if name in [word.strip() for word in listed.split(",")]:
            return True
    return False


def proofs_of(statement):
    """The names of the proofs of a statement, each with its file: its type is the statement and nothing else, the name is brought in
    from where it stands, and the prover reads the file."""
    found = []
    module = statement.file[len(f"crates/{statement.crate}/specs/") : -len(".antt")].replace("/", ".")
    for path in declared(statement.crate, "proofs"):
        if not brings_in(path, f"Rattle.{statement.crate}.specs.{module}", statement.name):
            continue
        parts = blocks(path)
        for name, _, text in parts:
            first = text.split("\n")[0]
            if re.fullmatch(rf"(?:pub )?\S+ : {re.escape(statement.name)}", first) and any(
                other == name and not body.startswith(first) for other, _, body in parts
            ):
                found.append((name, path))
    return found


def imports(path):
    """The crates' own files that a file of definitions takes words from, and what of its imports is not understood."""
    files, unknown = set(), []
    for used in re.findall(r"^(?:pub )?use (Rattle\.[^\s{]+)", bare(text_of(path)), re.M):
        if used.startswith("Rattle.std."):
            continue
        where = re.fullmatch(r"Rattle\.(\w+)\.(specs|proofs)\.(\S+?)\.?", used)
        find = {"specs": file_of, "proofs": source_of}
        file = find[where.group(2)](where.group(1), where.group(3).split(".")) if where else None
        if file:
            files.add(file)
        else:
            unknown.append(used)
    return files, unknown


def file_of(crate, words):
    """The file of a module: a file of specs/, or for a declared type or a contract the file of src/ that has it."""
    kind = next((word for word in words[1:] if word[0].isupper()), None)
    if words[0] == "contracts" and (kind is None or kind.startswith("The")):
        return source_of(crate, words[1:])
    if words[0] in ("declared", "contracts"):
        return source_with(crate, rf"\b(?:struct|enum) {re.escape(kind or '')}\b")
    for count in range(len(words), 0, -1):
        path = f"crates/{crate}/specs/{'/'.join(words[:count])}.antt"
        if os.path.exists(path):
            return path
    return None


def source_of(crate, words):
    """The file of src/ with the function whose contract is meant: `contracts.F` has its parameters, `proofs.F.Reads` what it says."""
    name = next((word for word in reversed(words) if word[0].islower()), "")
    return source_with(crate, rf"\bfn {re.escape(name)}\b") if name else None


def source_with(crate, pattern):
    """The file of a crate's src/ that has that, None where there is none."""
    found = (path for path in sorted(glob.glob(f"crates/{crate}/src/*.rt")) if re.search(pattern, text_of(path)))
    return next(found, None)


def closure(path):
    """The files that the words of a file come from, itself among them; and the imports that are not understood."""
    found, unknown, todo = set(), [], [path]
    while todo:
        one = todo.pop()
        if one in found:
            continue
        found.add(one)
        if one.endswith(".antt"):
            files, odd = imports(one)
            todo += files
            unknown += [f"{one}: {used}" for used in odd]
    return found, unknown
