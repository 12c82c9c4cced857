"""Every two neighbouring fields of every struct of the C header, exchanged: the compiler must refuse each such header, by the assertion of a
place. Prints how many there were.

usage: header_swaps.py HEADER
"""
import pathlib
import re
import subprocess
import sys
import tempfile


def swapped(text):
    """Yields a name and the header for each pair of neighbours."""
    for struct in re.finditer(r"^struct (\w+) \{\n(.*?)^\};", text, re.M | re.S):
        lines = struct.group(2).splitlines(keepends=True)
        for i in range(len(lines) - 1):
            other = lines[:i] + [lines[i + 1], lines[i]] + lines[i + 2 :]
            yield f"{struct.group(1)}: {lines[i].split(';')[0].strip()}", text[: struct.start(2)] + "".join(other) + text[struct.end(2) :]


def main():
    if len(sys.argv) != 2:
        sys.exit(__doc__)
    text = pathlib.Path(sys.argv[1]).read_text()
    tried = 0
    with tempfile.TemporaryDirectory() as folder:
        file = pathlib.Path(folder) / "jagwelu.h"
        command = ["gcc", "-std=c11", "-x", "c", "-fsyntax-only", str(file)]
        file.write_text(text)
        if subprocess.run(command, capture_output=True).returncode != 0:
            sys.exit("error: the header as it is was refused")
        for name, header in swapped(text):
            file.write_text(header)
            ran = subprocess.run(command, capture_output=True, text=True)
            if ran.returncode == 0 or "static assertion failed" not in ran.stderr:
                sys.exit(f"error: the compiler takes the header with this field and the next exchanged: {name}")
            tried += 1
    if tried == 0:
        sys.exit("error: no struct was found")
    print(f"{tried} headers with two fields exchanged: all refused")


main()
