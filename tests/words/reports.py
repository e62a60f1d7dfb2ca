"""Reports: messages, and the text that Python makes of them apart from the crate, with columns by Unicode's tables
(unicodedata); and some that stand here as they have to look.
"""
import re
import unicodedata

TURNING = "\u061c\u200e\u200f\u2028\u2029\u202a\u202b\u202c\u202d\u202e\u2066\u2067\u2068\u2069\ufeff"
CUT = 72


def shown(text):
    """The text with its control characters shown."""
    def one(c):
        if c == "\t":
            return "    "
        if ord(c) < 32:
            return chr(0x2400 + ord(c))
        if c == "\x7f":
            return "\u2421"
        if 0x80 <= ord(c) < 0xA0 or c in TURNING:
            return "\\u{%x}" % ord(c)
        return c
    return "".join(map(one, text))


def columns(text):
    """How many columns a terminal gives to the text, which has no sequences that join."""
    def one(c):
        if unicodedata.category(c) in ("Mn", "Me", "Cf"):
            return 0
        return 2 if unicodedata.east_asian_width(c) in "WF" else 1
    return sum(map(one, text))


class Paint:
    """The sequences of each style, or none."""
    CODES = {"strong": "1", "error": "1;31", "warning": "1;33", "note": "1;36", "margin": "1;34"}

    def __init__(self, colors):
        self.colors = colors

    def __call__(self, style, text):
        return f"\x1b[{self.CODES[style]}m{text}\x1b[0m" if self.colors else text


def whole(data, at):
    """The byte, or the first one of the character that it lies in."""
    at = min(at, len(data))
    while 0 < at < len(data) and data[at] & 0xC0 == 0x80:
        at -= 1
    return at


def excerpt(path, text, at, end):
    """Line, column, and the line in three parts, each as bytes: what stands before the stretch, the stretch, the rest."""
    data = text.encode()
    if 0 < at < len(data) and data[at:at + 1] == b"\n" and data[at - 1:at] == b"\r":
        at -= 1
    at = whole(data, at)
    front = data[:at].decode()
    lines = re.split("\r\n|\r|\n", front)
    line, column = len(lines), len(lines[-1]) + 1
    rest = re.split("[\r\n]", data[at:].decode())[0]
    before = lines[-1]
    if rest and before and unicodedata.category(rest[0])[0] == "M":
        at -= len(before[-1].encode())
        before, rest = before[:-1], before[-1] + rest
    width = whole(rest.encode(), max(0, end - at))
    marked, after = rest.encode()[:width], rest.encode()[width:]
    return line, column, before.encode(), marked, after


def front_of(data, most):
    return data[:whole(data, most)] if len(data) > most else data


def back_of(data, most):
    return data[whole(data, max(0, len(data) - most)):]


def place_text(paint, style, path, text, at, end):
    if at is None:
        return paint("margin", " --> ") + shown(path) + "\n"
    line, column, before, marked, after = excerpt(path, text, at, end)
    head, stretch = back_of(before, CUT), front_of(marked, CUT)
    tail = front_of(after, max(0, CUT - len(marked)))
    has_more = len(stretch) < len(marked) or len(tail) < len(after)
    number = f"{line} | "
    bar = " " * (len(number) - 2) + "| "
    head = shown(("..." if len(head) < len(before) else "") + head.decode())
    stretch = shown(stretch.decode())
    tail = shown(tail.decode()) + ("..." if has_more else "")
    marks = " " * columns(head) + "^" * max(1, columns(stretch))
    return (paint("margin", " " * (len(number) - 3) + "--> ") + shown(path) + f":{line}:{column}\n"
            + paint("margin", bar) + "\n"
            + paint("margin", number) + head + stretch + tail + "\n"
            + paint("margin", bar) + paint(style, marks) + "\n")


def message_text(paint, severity, text, path=None, of=None, at=None, end=None):
    head = paint(severity, severity) + paint("strong", ": ") + paint("strong", shown(text)) + "\n"
    return head + (place_text(paint, severity, path, of, at, end) if path else "")


def count_text(paint, count, more, severity):
    return paint(severity, f"{count}{more} {severity}{'' if count == 1 else 's'}")


def report(colors, messages):
    """The whole report. A message is a severity, a text and a place, or less."""
    paint = Paint(colors)
    counts = {"error": 0, "warning": 0}
    out, is_told = "", False
    for at, message in enumerate(messages):
        if message[0] != "note":
            counts[message[0]] += 1
            is_told = counts[message[0]] <= 10
        if is_told:
            out += message_text(paint, *message)
            if at + 1 == len(messages) or messages[at + 1][0] != "note":
                out += "\n"
    for severity, count in counts.items():
        if count > 10:
            out += "and " + count_text(paint, count - 10, " more", severity) + "\n\n"
    told = [count_text(paint, count, "", severity) for severity, count in counts.items() if count]
    return out + (" and ".join(told) + "\n" if told else "")


def parts_of(messages):
    for severity, text, *place in messages:
        path, of, at, end = (place + [None] * 4)[:4]
        yield from (severity, text, path or "", of or "", "" if at is None else str(at), "" if end is None else str(end))


def place(text, mark, count=1, path="src/a.js"):
    """The place of the text between two `«»` signs in it, which are taken out."""
    at = text.index("«")
    end = text.index("»") - 1
    plain = text.replace("«", "").replace("»", "")
    return [path, plain, len(plain[:at].encode()), len(plain[:end].encode())]


LINES = [
    "let a = «b»;\n", "«let» a;\n", "let a = b«»", "\n\n\tlet a = «b;»\n", "\t\t«x»\t", "a\n«b» c\nd", "a\r\nb «c»\r\nd",
    "a\rb\r\n«c»", "«»\r\n", "a«\r»\nb", "a«\n»b", "let 中文 = «変数»;", "'é' + 'e\u0301' + «x»", "e«\u0301»x",
    "/* \u202e */ «x»", "\u2028«x»\u2029", "a\x1b[31m«b»\x7f", "\ufeff«x»", "\u0085 «\u009b»", "ｆｕｌｌ «ｗ»",
    "х ё «ж»", "«a\nb»", "«a\r\nb» c", "".join(f"{k};\n" for k in range(120)) + "  «x»", "", "«»", "한글 «x»",
    "x" * 71 + "«y»", "x" * 72 + "«y»", "x" * 73 + "«y»", "x" * 5000 + "«y»" + "z" * 5000, "中" * 40 + "«y»" + "文" * 40,
    "a" + "中" * 24 + "«y»" + "文" * 24, "«" + "y" * 72 + "»z", "«" + "y" * 73 + "»z", "«" + "y" * 5000 + "»",
    "«" + "y" * 30 + "»" + "z" * 42, "«" + "y" * 30 + "»" + "z" * 43, "é" * 36 + "«y»" + "é" * 36, "é" * 37 + "«y»" + "é" * 36,
]


def rows_of_lines():
    for text in LINES:
        if "«" not in text:
            messages = [["error", "e", "a.js", text, 0, 0]]
        else:
            messages = [["error", "e"] + place(text, "«")]
        for colors in (False, True):
            yield colors, messages


def rows_of_places():
    """Each byte of some texts, and ends before and behind it."""
    for text in ("a\r\nbé\n中\r", "e\u0301\u0302\n\u0301x"):
        size = len(text.encode())
        for at in list(range(size + 2)) + [10 ** 9, 2 ** 64 - 1]:
            for end in (0, at, min(at + 1, 2 ** 64 - 1), size, 2 ** 64 - 1):
                yield False, [["warning", "w", "a.js", text, at, end]]


def rows_of_messages():
    note = ["note", "it is declared here"] + place("let «a»;", "«")
    error = ["error", "a is declared twice"] + place("let a;\nlet «a»;", "«")
    warning = ["warning", "a cycle: a.js, b.js", "b.js"]
    for colors in (False, True):
        yield colors, []
        yield colors, [["error", "no place"]]
        yield colors, [warning]
        yield colors, [error, note, note]
        yield colors, [warning, error, note, warning]
        yield colors, [["error", "\x1b]0;title\x07 of\nlines\ttab \u202e\u009b", "a\x1bb\n.js", "x\x00y", 1, 2]]
    for count in (9, 10, 11, 12, 40):
        yield False, [error, note] * count
        yield False, [warning] * count
        yield True, [warning, error, note] * count


def size_text(size):
    for unit, name in ((10 ** 9, "GB"), (10 ** 6, "MB"), (10 ** 3, "kB")):
        if size >= unit:
            return f"{size // unit}.{size * 10 // unit % 10} {name}"
    return f"{size} B"


def time_text(time):
    return f"{time} ms" if time < 1000 else f"{time // 1000}.{time % 1000 // 100} s"


def summary(colors, modules, time, files):
    paint = Paint(colors)
    most = max([columns(shown(path)) for path, _ in files], default=0)
    out = ""
    for path, size in files:
        path = shown(path)
        out += "  " + path + " " * (most - columns(path) + 2) + paint("note", size_text(size)) + "\n"
    words = f"{modules} module{'' if modules == 1 else 's'}, {len(files)} file{'' if len(files) == 1 else 's'}"
    return out + paint("strong", f"{words}, {time_text(time)}") + "\n"


SUMMARIES = [
    (0, 0, []), (1, 1, [("a.mjs", 0)]), (2, 999, [("dist/中.mjs", 1), ("dist/b.mjs", 999)]),
    (641, 1000, [("a", 1000), ("b", 1099), ("c", 1100), ("d", 999_999)]), (3, 59_999, [("a", 1_000_000), ("b\x1b", 12_345_678)]),
    (9, 3_600_000, [("a", 999_999_999), ("b", 10 ** 9), ("c", 2 ** 64 - 1)]), (7, 2 ** 64 - 1, [("a\tb", 36), ("e\u0301", 36)]),
]

# As it has to look, by hand.
LOOK = [
    ("messages", ["off"] + list(parts_of([
        ["error", "src/b.js has no export named foo"] + place("import x from './x.js';\nimport { «foo» } from './b.js';\n", "«"),
        ["note", "these are its exports", "src/b.js", "export const bar = 1;\n", 0, 20],
    ])), """\
error: src/b.js has no export named foo
 --> src/a.js:2:10
  | 
2 | import { foo } from './b.js';
  |          ^^^
note: these are its exports
 --> src/b.js:1:1
  | 
1 | export const bar = 1;
  | ^^^^^^^^^^^^^^^^^^^^

1 error
"""),
    ("summary", ["off", "641", "1290", "dist/main.mjs", "12345", "dist/a.mjs", "36"], """\
  dist/main.mjs  12.3 kB
  dist/a.mjs     36 B
641 modules, 2 files, 1.2 s
"""),
    ("quiet", ["a\x1b[0m\tb\u202e\x85é\x7f"], "a\u241b[0m    b\\u{202e}\\u{85}é\u2421"),
    ("quiet", [""], ""),
]


def rows():
    """Each row: its kind, its parts, and what has to come out."""
    yield from LOOK
    for source in (rows_of_lines(), rows_of_places(), rows_of_messages()):
        for colors, messages in source:
            yield "messages", ["on" if colors else "off"] + list(parts_of(messages)), report(colors, messages)
    for modules, time, files in SUMMARIES:
        for colors in (False, True):
            parts = ["on" if colors else "off", str(modules), str(time)]
            parts += [str(part) for file in files for part in file]
            yield "summary", parts, summary(colors, modules, time, files)
    for code in list(range(0x180)) + [ord(c) for c in TURNING] + [0x200b, 0x200d, 0x2030, 0xfffd, 0x1f600, 0x10ffff]:
        yield "quiet", [chr(code)], shown(chr(code))
