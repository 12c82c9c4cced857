"""The documents that speak of the proofs, taken apart."""
import re

from crates import text_of

README = "README.md"
INDEX = "docs/STATEMENTS.md"
AUDIT = "docs/AUDIT.md"


def section(page, title):
    """The text under a heading of the second level, to the next one; empty where there is none."""
    found = re.search(rf"^## {re.escape(title)}\n(.*?)(?=^## |\Z)", text_of(page), re.M | re.S)
    return found.group(1) if found else ""


def quoted(text):
    """What stands between backticks, on one line."""
    return re.findall(r"`([^`\n]+)`", text)


def items(text):
    """The items of a list, at any depth, each with the lines that continue it."""
    return re.split(r"^\s*- ", text, flags=re.M)


def rows(text):
    """The rows of the tables whose first cell is a file: the file and the rest of the row."""
    return re.findall(r"^\| `([^`]+)` \|(.*)\|\s*$", text, re.M)


def quotes(page):
    """Blocks indented by four spaces, each with the file of definitions that the text before it named last."""
    file, block = None, []
    for line in text_of(page).split("\n") + [""]:
        if line.startswith("    ") or (block and line == ""):
            block.append(line[4:])
            continue
        if block:
            yield file, "\n".join(block).strip("\n")
            block = []
        named = re.findall(r"`(crates/[\w/.]+\.antt)`", line)
        if named:
            file = named[0]


def source_quotes(page):
    """The quotes that are definitions."""
    return [(file, block) for file, block in quotes(page) if re.search(r"^(?:abbrev |unfoldable )?pub ", block, re.M)]


def stated(page):
    """The statements that a page quotes: pairs of file and name."""
    return [(file, name) for file, block in source_quotes(page) for name in re.findall(r"^(?:\w+ )*pub (\S+) : Type 0$", block, re.M)]
