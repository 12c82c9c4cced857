"""The header has the exported functions and no others, each with the source's parameters: a pointer is const exactly where the source lends
`&` and not `&mut`, so that what a call may write is said in both. And what C calls has the parameters and clauses of the function of that name in the
library, which the theorems speak of."""
import glob
import re

from crates import text_of

HEADER = "include/jagwelu.h"
SOURCE = "crates/jagwelu_c/src/*.rt"
LIBRARY = "crates/jagwelu/src/*.rt"
NUMBERS = {"u32": "uint32_t", "u64": "uint64_t", "usize": "size_t"}
STRUCTS = {
    "HeldUnit": "struct jag_unit",
    "HeldSettings": "struct jag_settings",
    "Handed": "struct jag_done",
    "Number": "struct jag_number",
    "WrittenBytes": "struct jag_written",
    "DueAnswer": "struct jag_due_answer",
    "CeilingAnswer": "struct jag_ceiling_answer",
    "FileAnswer": "struct jag_file",
    "ErrorAnswer": "struct jag_error",
    "RecordPlaces": "struct jag_places",
}
BUFFERS = {"&[u8]": "const uint8_t *", "&mut [u8]": "uint8_t *"}


def parameter(text):
    """A parameter of the source as C has it: a buffer is a pointer and a length."""
    name, _, kind = (part.strip() for part in text.partition(":"))
    if kind in BUFFERS:
        return f"{BUFFERS[kind]}{name}, size_t {name}_length"
    return f"{(NUMBERS | STRUCTS).get(kind, kind)} {name}"


def exported():
    """The exported functions of the source, each as C would declare it."""
    found = {}
    for path in sorted(glob.glob(SOURCE)):
        for name, given, result in re.findall(r'extern "C" fn (\w+)\(([^)]*)\) -> (\w+)', text_of(path)):
            given = [parameter(part) for part in given.split(",") if part.strip()]
            found[name] = f"{(NUMBERS | STRUCTS).get(result, result)} {name}({', '.join(given)})"
    return found


def promised(source):
    """The functions of a crate that C may call: parameters, result and clauses of each, and where the clauses' words are from."""
    found, words = {}, set()
    for path in sorted(glob.glob(source)):
        text = re.sub(r"(^|\s)//.*", r"\1", text_of(path))
        for name, rest in re.findall(r"\bfn (jag_\w+)(\(.*?)(?=\n\{|\{\n)", text, re.S):
            found[name] = re.sub(r",? ?\)", ")", " ".join(rest.replace("(", "( ").split()))
        for module, listed in re.findall(r"^ghost use ([^;{]+?)\.?(?:\{([^}]*)\})?;", text, re.M):
            words |= {(module, word.strip()) for word in listed.split(",")}
    return found, words


def declared():
    """The functions of the header, each on one line."""
    bare = re.sub(r"/\*.*?\*/", "", text_of(HEADER), flags=re.S)
    lines = re.findall(r"^((?:struct )?\w+ (jag_\w+)\([^)]*\));", bare, re.M)
    return {name: re.sub(r"\s+", " ", line) for line, name in lines}


def checks():
    here, there = exported(), declared()
    yield f"{SOURCE} exports no function", bool(here)
    for name in sorted(set(here) | set(there)):
        yield f"{HEADER} has `{there.get(name)}`, the source `{here.get(name)}`", here.get(name) == there.get(name)
    (calls, words), (library, known) = promised(SOURCE), promised(LIBRARY)
    for name in sorted(here):
        yield f"{SOURCE} promises `{calls.get(name)}` of {name}, {LIBRARY} `{library.get(name)}`", name in calls and calls[name] == library.get(name)
    for module, word in sorted(words - known):
        yield f"{SOURCE} takes {word} from {module}, and {LIBRARY} does not", False
