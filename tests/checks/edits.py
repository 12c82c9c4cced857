"""A must-fail edit, read as `rt` reads it, and what is wrong with its shape."""
import glob
import os
import re

from crates import text_of


class Edit:
    """comments: what it says of itself; changes: triples of file, old and new text; faults: what is wrong."""

    def __init__(self, path):
        self.path = path
        self.crate, self.label = path.split("/")[1], os.path.basename(path)[: -len(".edit")]
        self.comments, self.changes, self.faults = [], [], []
        self.read(text_of(path).split("\n"))

    def read(self, lines):
        file = old = None
        for line in lines:
            if line.startswith("#"):
                self.comments.append(line[1:].strip())
            elif line.startswith("file: "):
                file = line[len("file: ") :]
            elif line.startswith("old: "):
                if old is not None:
                    self.faults.append("an old text without a new one")
                old = line[len("old: ") :]
            elif line.startswith("new:"):
                self.change(file, old, re.sub("^ ", "", line[len("new:") :]))
                old = None
            elif line:
                self.faults.append(f"a line that is none of #, file:, old: and new:, `{line}`")
        if old is not None:
            self.faults.append("an old text without a new one")
        if not self.changes and not self.faults:
            self.faults.append("it changes nothing")

    def change(self, file, old, new):
        path = f"crates/{self.crate}/{file}"
        if file is None or old is None:
            self.faults.append("a new text without its file or its old text")
        elif not re.match(r"(src|specs)/", file) or not os.path.isfile(path):
            self.faults.append(f"{file} is no file of the crate's src/ or specs/")
        elif old == new:
            self.faults.append("old and new text are the same")
        elif text_of(path).count(old) != 1:
            self.faults.append(f"its old text stands {text_of(path).count(old)} times in {file}")
        else:
            self.changes.append((file, old, new))

    def names(self, word):
        """Whether a comment has that name as a word."""
        return any(re.search(rf"(?<![\w-]){re.escape(word)}(?![\w-])", comment) for comment in self.comments)

    def lines(self):
        """The file of each change, and the line where its old text begins."""
        for file, old, _ in self.changes:
            path = f"crates/{self.crate}/{file}"
            text = text_of(path)
            yield path, text.count("\n", 0, text.index(old)) + 1


def edits(crate="*"):
    return [Edit(path) for path in sorted(glob.glob(f"crates/{crate}/must-fail/*.edit"))]
