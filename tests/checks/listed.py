"""The crates of the README, of crates.txt and of crates/ are the same."""
import re

import crates
import pages


def checks():
    table = pages.section(pages.README, "The crates")
    cells = re.findall(r"^\| (`[^|]*`) \|", table, re.M)
    written = [name for cell in cells for name in pages.quoted(cell)]
    lines = [line.split("#")[0] for line in crates.text_of("crates.txt").split("\n")]
    built = [line.split(":")[0].split()[0] for line in lines if line.split(":")[0].strip() and ":" in line]
    yield f"{pages.README} has no table of crates", bool(written)
    for name in sorted(set(written) | set(built) | set(crates.names())):
        yield f"crate {name} is not in the table of {pages.README}", name in written
        yield f"crate {name} is not in crates.txt", name in built
        yield f"crate {name} has no folder", name in crates.names()
