"""Holds README.md, the index of statements, docs/AUDIT.md and the header to the source."""
import sys

import header
import listed
import quotes
import reading
import statements
from report import end


def checks():
    return [result for part in (listed, header, quotes, statements, reading) for result in part.checks()]


if __name__ == "__main__":
    sys.exit(end(checks()))
