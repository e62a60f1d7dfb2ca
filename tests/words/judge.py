#!/usr/bin/env python3
"""Usage: judge.py input | judge.py compare GIVEN. Writes the rows for the program in src/, or compares what it gave.

The rows are those of words.txt and of reports.py. The last line is 'words: N passed, M failed', and the status is 1
where one failed.
"""
import os
import shlex
import sys

import reports

HERE = os.path.dirname(os.path.abspath(__file__))
ESCAPES = (("\\e", "\x1b"), ("\\n", "\n"))


def unescaped(text):
    for written, meant in ESCAPES:
        text = text.replace(written, meant)
    return text


def rows_by_hand():
    """Each row of words.txt: its kind, its parts, and what has to come out."""
    with open(f"{HERE}/words.txt", encoding="utf-8") as file:
        lines = [line.rstrip("\n") for line in file]
    lines = [line for line in lines if line and not line.startswith("#")]
    for asked, answer in zip(lines[::2], lines[1::2], strict=True):
        if not asked.startswith(">") or answer.startswith(">"):
            sys.exit(f"words.txt: no row: {asked}")
        yield "words", [unescaped(it) for it in shlex.split(asked[1:])], unescaped(answer)


def colours():
    """Whether a report has colours: by the word, NO_COLOR and where it goes (https://no-color.org)."""
    for word, value in (("always", True), ("never", False)):
        for no_color in ("unset", "", "1"):
            for place in ("terminal", "file"):
                yield "color", [word, no_color, place], "on" if value else "off"
    for no_color, place, value in (
        ("unset", "terminal", "on"), ("unset", "file", "off"), ("", "terminal", "on"), ("", "file", "off"),
        ("1", "terminal", "off"), ("0", "terminal", "off"), ("1", "file", "off"),
    ):
        yield "color", ["auto", no_color, place], value


def all_rows():
    yield from rows_by_hand()
    yield from colours()
    yield from reports.rows()
    yield "help", [], is_one_screen
    yield "version", [], lambda text: text.strip().count(".") == 2 and text.endswith("\n")


def is_one_screen(text):
    """Help has 80 columns, 52 lines, and each option that words.txt uses."""
    lines = text.split("\n")
    names = {it.split("=")[0] for _, words, answer in rows_by_hand() if answer.startswith("bundle")
             for it in words if it.startswith("--") and "--" not in words and ":" not in it}
    return (len(lines) <= 53 and all(len(line) <= 80 for line in lines)
            and all(name in text for name in names) and text.isascii() and text.endswith("\n"))


def line_of(kind, parts):
    return " ".join([kind] + ["x" + part.encode().hex() for part in parts])


def compare(path):
    with open(path, encoding="ascii") as file:
        given = [bytes.fromhex(line.strip()).decode() for line in file]
    rows = list(all_rows())
    passed = failed = 0
    for at, (kind, parts, wanted) in enumerate(rows):
        text = given[at] if at < len(given) else None
        if text is not None and (wanted(text) if callable(wanted) else text == wanted):
            passed += 1
        else:
            failed += 1
            if failed <= 10:
                print(f"{kind} {parts}\n  wanted {wanted!r}\n  given  {text!r}")
    if len(given) != len(rows):
        print(f"{len(given)} answers came for {len(rows)} rows")
        failed += 1
    print(f"words: {passed} passed, {failed} failed")
    return 1 if failed or not passed else 0


if sys.argv[1:] == ["input"]:
    for kind, parts, _ in all_rows():
        print(line_of(kind, parts))
elif sys.argv[1:2] == ["compare"] and len(sys.argv) == 3:
    sys.exit(compare(sys.argv[2]))
else:
    sys.exit(__doc__)
