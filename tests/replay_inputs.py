"""Writes lists of calls for the program `replay`, and the answers that it must give, into a folder.

usage: replay_inputs.py FOLDER        (for each case: CASE.input and CASE.answers)

Long lines, many lines and their answers are stated here; crates/replay has the list of every kind of line with its answers, story/
the story with its own.
"""
import pathlib
import shutil
import sys

sys.path.insert(0, str(pathlib.Path(__file__).parent))
import schedule_files as files

X = files.X
INSTALL = f"install {X} 0123456789AB 4000 5500 5"
READY = [INSTALL, "store 23808 171", "tick 827917200"]
MOST = 65536
FULL = " ".join("0123456789" for _ in range(6000))


def padded(line, most, fill="0"):
    """The line with a fill behind it, up to so many bytes."""
    return line + fill * (most - len(line))


def long_lines():
    """Lines of 65,536 bytes are read, longer ones answer `too long`, and each stands alone."""
    yield "longest-line", READY + [padded("take xy ", MOST), "command"], ["accepted"] * 3 + ["refused 7", "0"]
    yield "line-too-long", READY + [padded("take xy ", MOST + 1), "command"], ["accepted"] * 3 + ["too long", "0"]
    yield "line-far-too-long", READY + [padded("take xy ", 20 * MOST + 7), "free"], ["accepted"] * 3 + ["too long", "16"]
    yield "long-lines-in-a-row", ["x" * MOST, "x" * (MOST + 1), "x" * (3 * MOST), "x" * MOST, "due"], ["unknown", "too long", "too long", "unknown", "no unit"]
    yield "longest-comment", [padded("#", MOST), "due"], ["no unit"]
    yield "comment-too-long", [padded("#", MOST + 1), "due"], ["too long", "no unit"]
    yield "longest-number", READY + [padded("tick ", MOST - 9) + "827917201", "state"], ["accepted"] * 4 + [
        "clock 827917201 floor 313 w none h none k 0 f 0 u 0 command 0 held -"
    ]
    yield "longest-id", [padded("install ", MOST - 26, "1") + " 0123456789AB 1 1 5"], ["refused 1"]
    yield "longest-mac", [padded(f"install {X} ", MOST - 6, "A") + " 1 1 5"], ["refused 2"]
    yield "longest-segment", [INSTALL, padded("request ", MOST, "9")], ["accepted", "refused 7"]
    yield "longest-hex-segment", [INSTALL, padded("request hex:", MOST, "3")], ["accepted", "refused 7"]
    yield "longest-response", READY + [padded("response x ", MOST - 1), padded("response x ", MOST)], ["accepted"] * 3 + ["refused 17", "unknown"]
    yield "longest-boundary", READY + [padded("response ", MOST - 2, "2") + " -"], ["accepted"] * 3 + ["refused 17"]
    yield "longest-name", READY + [padded("take ", MOST - 2, "2") + " -"], ["accepted"] * 3 + ["refused 7"]
    yield "longest-words", [FULL[:MOST], FULL[: MOST + 1]], ["unknown", "too long"]
    yield "spaces-alone", [" " * MOST, " " * (MOST + 1)], ["unknown", "too long"]


def whole_year():
    """The response of document 002 with a yearly file, and the same without its last byte."""
    response = files.response(files.name("201", "9992"), files.body(files.year_from(2026, 4))).hex()
    held = ",".join(f"{315 + i}:{i}" for i in range(13))
    yield f"response BOUNDARY {response[:-2]}", "refused 17"
    yield f"response BOUNDARY {response}", "accepted"
    yield "state", f"clock 827917200 floor 313 w none h 2 k 0 f 0 u 0 command 0 held {held}"
    yield "ceiling 460175", "none"
    yield "ceiling 460176", "rate 50 36"


def responses():
    """Lines with responses around document 01's example 10, each with its answer: what is no such line, every cause before 7, boundaries."""
    name, file = files.name("203", "0000"), files.body([files.update()])
    good = files.response(name, file).hex()
    unknown = ["response", "response B", "response B - -", "response  -", "response B 0", "response B 0g", "response B hex:00", "response hex:4 -",
               "response hex:4g -", "Response B -", "RESPONSE B -", "response B -- ", " response B -"]
    yield from ((line, "unknown") for line in unknown)
    yield "response B -", "no unit"
    for line, cause in zip(READY, ("refused 3", "refused 5", "refused 17")):
        yield line, "accepted"
        yield "response B -", cause
    yield from ((line, "unknown") for line in unknown)
    for line in ("response hex: -", f"response boundary {good}", f"response --BOUNDARY {good}", f"response hex: {good}", f"response BOUNDARY {good[:-2]}",
                 f"response BOUNDARY {good[2:]}", f"response BOUNDARY {good}0d", f"response BOUNDARY {good}0d0a0d0a"):
        yield line, "refused 17"
    for other in (b"", b"x", b'"' + name + b'"', name + b" "):
        yield f"response BOUNDARY {files.response(other, file).hex()}", "refused 7"
    yield f"response BOUNDARY {files.response(name, b'').hex()}", "refused 9"
    yield "free", "16"
    for boundary in ("hex:" + b"BOUNDARY".hex(), "BOUNDARY"):
        yield f"response {boundary} {good.upper()}0d0A", "accepted"
    yield "state", "clock 827917200 floor 313 w 2 h none k 0 f 0 u 827926200 command 0 held 314:0"
    for boundary, answer in (("7", "accepted"), ("z" * 70, "accepted"), ("z" * 71, "refused 17"), ("a-b", "refused 17"), ("a_b", "refused 17")):
        yield f"response {boundary} {files.response(name, file, boundary).hex()}", answer
    yield f"response hex:612062 {files.response(name, file, 'a b').hex()}", "refused 17"
    yield "byte 5 101", "accepted"
    yield "response B -", "refused 4"


def large_log():
    """More lines than any buffer has room for. Without a file there is no rate, and an update is always due."""
    lines, answers = list(READY), ["accepted"] * 3
    for i in range(60000):
        lines += [f"tick {827917200 + i}", "command", "# a note", "free", "due"]
        answers += ["accepted", "0", "16", "update"]
    return lines, answers


def main(folder):
    def write(case, lines, answers, end="\n"):
        (folder / f"{case}.input").write_text("\n".join(lines) + end if lines else "")
        (folder / f"{case}.answers").write_text("".join(f"{answer}\n" for answer in answers))

    write("nothing", [], [])
    write("empty-lines", ["", "", "# x", ""], [])
    for case, lines, answers in long_lines():
        write(case, lines, answers)
        write(f"{case}-without-0A", lines, answers, end="")
    write("responses", *zip(*responses()))
    lines, answers = zip(*whole_year())
    write("whole-year", READY + list(lines), ["accepted"] * 3 + list(answers))
    write("large-log", *large_log())
    root = pathlib.Path(__file__).parent.parent
    for case, lines, answers in (
        ("listed", "crates/replay/stdin", "crates/replay/stdout"),
        ("story", "story/fiscal_year.txt", "story/fiscal_year.answers"),
    ):
        shutil.copyfile(root / lines, folder / f"{case}.input")
        shutil.copyfile(root / answers, folder / f"{case}.answers")


if __name__ == "__main__":
    if len(sys.argv) != 2:
        sys.exit(__doc__)
    main(pathlib.Path(sys.argv[1]))
