"""The auditor's reading list is whole: every file that the words of a statement come from, of each that the page quotes or names, is listed as
one to read, or as one that need not be read, with the reason."""
import os

import crates
import pages

TITLE = "What must be read to believe it"


def checks():
    listed = pages.rows(pages.section(pages.AUDIT, TITLE))
    yield f"{pages.AUDIT} has no table under `{TITLE}`", bool(listed)
    files = [file for file, _ in listed]
    for file, words in listed:
        yield f"{pages.AUDIT} lists {file}, which is not there", os.path.isfile(file)
        yield f"{pages.AUDIT} lists {file} twice", files.count(file) == 1
        yield f"{pages.AUDIT} does not say what {file} is listed for", len(words.split()) >= 3
    for statement, name in spoken_of(pages.AUDIT):
        if not os.path.isfile(statement):
            yield f"{pages.AUDIT}: {statement} is not there", False
            continue
        needed, unknown = crates.closure(statement)
        for used in unknown:
            yield f"the file of this import is not found: {used}", False
        for file in sorted(needed):
            yield f"{pages.AUDIT}: the words of {name} come from {file}, which is not in the reading list", file in files


def spoken_of(page):
    """The statements that the page quotes or names: pairs of file and name."""
    words = pages.quoted(crates.text_of(page))
    return sorted(set(pages.stated(page)) | {(s.file, s.name) for s in crates.statements() if s.name in words})
