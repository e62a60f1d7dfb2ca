#!/usr/bin/env python3
"""Usage: judge.py input | judge.py compare GIVEN. Writes the rows for the program in src/, or judges what it gave.

The runs are made up by chance, the same each time. The last line is 'pictures: N passed, M failed', and the status is 1 where
one failed.
"""
import json
import random
import re
import sys
import xml.etree.ElementTree as xml

SVG = "{http://www.w3.org/2000/svg}"
KINDS = {"statement": "import-statement", "dynamic": "dynamic-import", "require": "require-call"}
FORMATS = {"esm": "esm", "cjs": "cjs", "json": None}
ODD = ["a\"b.js", "a\\b.js", "a\u0001b.js", "<x>&y.js", "\u00e9t\u00e9.js", "\u4e2d\u6587.js", "a b.js", "\u202e.js", "tab\t.js"]


class Run:
    """A run made up by chance: so many modules, in these folders."""

    def __init__(self, count, folders, odd=False):
        chance = random.Random(count)
        self.modules = []
        for number in range(count):
            name = ODD[number % len(ODD)] if odd else f"m{number}.js"
            form = chance.choice(["esm", "esm", "cjs", "json"]) if odd else "esm"
            self.modules.append((f"{chance.choice(folders)}{number}_{name}", chance.randrange(1, 90000), form))
        self.imports, self.externals = [], []
        for number in range(1, count):
            self.imports.append((chance.randrange(number), number, "statement"))
            if chance.random() < 0.6:
                self.imports.append((chance.randrange(number), number, chance.choice(list(KINDS))))
        for _ in range(count // 15):
            self.imports.append((chance.randrange(count), chance.randrange(count), "statement"))
        for number in range(count):
            if chance.random() < 0.1:
                self.externals.append((number, chance.choice(["react", "node:fs", "lodash"]), "statement"))
        at, self.parts = 40, []
        for number, (_, size, _) in enumerate(self.modules):
            begin = at + chance.randrange(3)
            at = begin + size // 3
            self.parts.append((begin, at, number))
        self.bytes = at + 17
        self.exports = ["a", "default", "\u00fc"]

    def rows(self):
        yield "clear"
        code = lambda text: text.encode().hex()
        for path, size, form in self.modules:
            yield f"m {code(path)} {size} {form}"
        for begin, end, kind in self.imports:
            yield f"i {begin} {end} {kind}"
        for begin, name, kind in self.externals:
            yield f"x {begin} {code(name)} {kind}"
        yield f"o {code('dist/out.mjs')} {self.bytes} 0"
        for name in self.exports:
            yield f"e {code(name)}"
        for begin, end, number in self.parts:
            yield f"p {begin} {end} {number}"
        yield from ("picture", "metafile", "analysis", "colours")

    def metafile(self):
        """What esbuild would write of it (esbuild.github.io/api/#metafile)."""
        inputs = {}
        for number, (path, size, form) in enumerate(self.modules):
            imports = [{"path": self.modules[end][0], "kind": KINDS[kind], "original": "./it.js"}
                       for begin, end, kind in self.imports if begin == number]
            imports += [{"path": name, "kind": KINDS[kind], "external": True}
                        for begin, name, kind in self.externals if begin == number]
            inputs[path] = {"bytes": size, "imports": imports}
            if FORMATS[form]:
                inputs[path]["format"] = FORMATS[form]
        shares = {self.modules[number][0]: {"bytesInOutput": end - begin}
                  for begin, end, number in self.parts if end > begin}
        return {"inputs": inputs, "outputs": {"dist/out.mjs": {
            "imports": [], "exports": self.exports, "entryPoint": self.modules[0][0], "inputs": shares, "bytes": self.bytes}}}


RUNS = [Run(1, ["src/"]), Run(2, ["src/"]), Run(9, ["src/", "src/odd/"], odd=True), Run(40, ["src/", "src/a/", "src/b/c/"]),
        Run(150, ["src/", "lib/x/", "lib/y/", "node_modules/p/"]), Run(200, ["src/"]),
        Run(230, [f"src/f{k}/" for k in range(12)]), Run(260, ["src/"])]


# The states of two files, one behind the other, with a rest between each and the next.
SCRIPTS = [[(1, 1)], [(1, 1), (1, 1)], [(1, 1), (2, 1), (2, 1)], [(1, 1), (0, 1), (0, 1), (3, 1)], [(1, 0), (1, 0), (1, 5), (2, 6), (2, 6)],
           [(1, 1), (2, 2), (1, 1), (2, 2)]]


def watched(states):
    """What is done again: all is noted when the work is done, and the first file that differs is told."""
    told, noted = ["work", "wait"], states[0]
    for state in states[1:]:
        if state != noted:
            told += ["a" if state[0] != noted[0] else "b", "work", "wait"]
            noted = state
    return "".join(f"{line}\n" for line in told)


def boxes_of(tree):
    """The boxes of a picture: frame and title."""
    found = []
    for group in tree.iter(f"{SVG}g"):
        rects = [it for it in group if it.tag == f"{SVG}rect" and it.get("class") in ("b", "b e", "z")]
        if len(rects) == 1:
            at = rects[0]
            left, top, width, height = (int(at.get(key)) for key in ("x", "y", "width", "height"))
            found.append((left, top, left + width, top + height, group.find(f"{SVG}title").text))
    return found


def faults_of_picture(run, text):
    tree = xml.fromstring(text)
    boxes = boxes_of(tree)
    width, height = int(tree.get("width")), int(tree.get("height"))
    for number, (left, top, right, bottom, title) in enumerate(boxes):
        if not (0 <= left < right <= width and 0 <= top < bottom <= height):
            yield f"a box outside of the picture: {title}"
        for other in boxes[:number]:
            if left < other[2] and other[0] < right and top < other[3] and other[1] < bottom:
                yield f"two boxes on each other: {title}, {other[4]}"
    externals = {name for _, name, _ in run.externals}
    frames = [tuple(int(it.get(key)) for key in ("x", "y", "width", "height")) for it in tree.iter(f"{SVG}rect") if it.get("class") == "f"]
    if len(run.modules) <= 200 or len({path.rsplit("/", 1)[0] for path, _, _ in run.modules}) < 4:
        yield from faults_of_modules(run, boxes, frames, externals)
    elif len(boxes) != len({path.rsplit("/", 1)[0] for path, _, _ in run.modules}) + len(externals):
        yield f"{len(boxes)} boxes for folders"


def faults_of_modules(run, boxes, frames, externals):
    if len(boxes) != len(run.modules) + len(externals):
        yield f"{len(boxes)} boxes for {len(run.modules)} modules and {len(externals)} externals"
        return
    if len({box[4] for box in boxes}) != len(boxes):
        yield "two boxes of one name"
    place = {}
    for box in boxes:
        number = re.search(r"(?:^|/)(\d+)_", box[4])
        place[int(number[1]) if number else box[4].strip()] = box
    inside = lambda box: next((k for k, (x, y, w, h) in enumerate(frames) if x <= box[0] and box[2] <= x + w and y <= box[1] and box[3] <= y + h), None)
    links = [(begin, end) for begin, end, _ in run.imports if begin != end] + [(begin, name) for begin, name, _ in run.externals]
    for begin, end in links:
        one, other = place[begin], place[end]
        same = inside(one) is not None and inside(one) == inside(other)
        if not same and one[2] > other[0]:
            yield f"{begin} asks for {end} and stands behind it"


def faults_of_analysis(run, text):
    lines = [line for line in text.splitlines() if line]
    total = re.match(r"  dist/out\.mjs +[\d.]+ [kM]?B +100\.0%", lines[0])
    if not total:
        yield f"no line of the whole: {lines[0]}"
    parts = [float(re.search(r"([\d.]+)%", line)[1]) for line in lines[1:]]
    if abs(sum(parts) - 100) > 0.06 * len(parts) + 0.1:
        yield f"the parts are {sum(parts)} % of the whole"
    if parts[: min(len(parts), 40)] != sorted(parts[: min(len(parts), 40)], reverse=True) and len(run.modules) > 1:
        head = [float(re.search(r"([\d.]+)%", line)[1]) for line in lines[1:] if "what joins" not in line and " more " not in line]
        if head != sorted(head, reverse=True):
            yield "the largest is not the first"


def sections(given):
    at = 0
    while at < len(given):
        end = given.index(b"\n", at)
        kind, size = given[at:end].decode().split()
        yield kind, given[end + 1 : end + 1 + int(size)].decode()
        at = end + 1 + int(size)


def faults(run, kind, text):
    if kind == "watched":
        if text != watched(run):
            yield f"{text.split()} for {run}"
    elif kind == "picture":
        yield from faults_of_picture(run, text)
    elif kind == "metafile":
        if json.loads(text) != run.metafile():
            yield "another metafile"
    elif kind == "analysis":
        yield from faults_of_analysis(run, text)
        if re.search(r"[\x00-\x09\x0b-\x1f\x7f-\x9f\u202e]", text):
            yield "a character that a terminal obeys"
    else:
        yield from faults_of_analysis(run, re.sub(r"\x1b\[[\d;]*m", "", text))


def compare(path):
    with open(path, "rb") as file:
        given = list(sections(file.read()))
    wanted = [(run, kind) for run in RUNS for kind in ("picture", "metafile", "analysis", "colours")]
    wanted += [(states, "watched") for states in SCRIPTS]
    failed = abs(len(given) - len(wanted))
    for (run, kind), (name, text) in zip(wanted, given):
        try:
            found = list(faults(run, kind, text)) if kind == name else [f"{name} in its place"]
        except Exception as error:  # of what is no XML, no JSON or no table
            found = [repr(error)]
        failed += bool(found)
        for fault in found[:3]:
            print(f"FAILED {kind} of {len(getattr(run, 'modules', run))}: {fault}")
    print(f"pictures: {len(wanted) - failed} passed, {failed} failed")
    return 1 if failed else 0


if sys.argv[1] == "input":
    for it in RUNS:
        print("\n".join(it.rows()))
    for states in SCRIPTS:
        print("\n".join([*(f"s {a} {b}" for a, b in states), "watched"]))
else:
    sys.exit(compare(sys.argv[2]))
