"""Measures how the time of a layer of CommonMark grows with the text: `Lines` and `unescape` over 1, 2, 4 and 8 MiB, `take_definitions`
over 10,000 to 80,000 definitions, `blocks` over 1, 2, 4 and 8 MiB of six texts, and `inlines` over as much of the paragraphs of a
handbook and over hostile texts of one paragraph at four sizes. Prints the least processor time of five runs of each, and its ratio to the
one before (2 is linear). BENCH is the program `bench`, which is built in a copy of the repository (scripts/gate/lay_out.sh). With MD2HTML
set to the program `md2html` of md4c, each of these texts is given to it too, and with SPEC set to a file, copies of that file are a
seventh text for `blocks`. With names of tasks for arguments (lines, unescape, definitions, blocks, inlines) only these are run.

    BENCH=PROGRAM python3 scripts/bench/commonmark_bench.py [TASK ..]
"""
import os, sys, tempfile
sys.path.insert(1, os.path.dirname(__file__) + "/../lib")
from timing import bench, least, measured

MIB = 1 << 20
PEER, SPEC = os.environ.get("MD2HTML"), os.environ.get("SPEC")
UNITS = {"lines": (1, "MiB"), "unescape": (1, "MiB"), "definitions": (10_000, "definitions")}
SENTENCE = {0: "*{0}*", 1: "**{0}**", 2: "`{0}()`", 3: "[{0}](../{0}.md)", 4: "[{0}][ref]", 5: "&amp;{0}"}
WORDS = """access address agent answer archive batch branch budget cache change channel client cluster config contract cost
customer deploy design device domain error event export field file flow gateway group guide handbook host import index
invoice key label ledger level limit list machine member memory message module network node notice office order owner
page partner password path payment phase plan policy price process profile queue quota reader record release report
request review role route sample schedule script search section server session signal source stage status store stream
switch system table target team ticket token topic update user value vendor version volume warning window zone""".split()


# ---- texts

class Draw:
    """The same numbers on each machine."""

    def __init__(self):
        self.state = 7

    def below(self, n):
        self.state = (self.state * 6364136223846793005 + 1442695040888963407) % 2**64
        return (self.state >> 33) % n


def sentence(draw):
    words = []
    for _ in range(6 + draw.below(14)):
        word = WORDS[draw.below(len(WORDS))]
        words.append(SENTENCE.get(draw.below(40), "{0}").format(word))
    return " ".join(words).capitalize() + "."


def paragraph(draw):
    words = " ".join(sentence(draw) for _ in range(2 + draw.below(5))).split(" ")
    return "\n".join(" ".join(words[at:at + 11]) for at in range(0, len(words), 11)) + "\n"


def part(draw):
    kind = draw.below(10)
    if kind < 5:
        return paragraph(draw)
    if kind == 5:
        return "".join(f"- {sentence(draw)}\n" for _ in range(3 + draw.below(5)))
    if kind == 6:
        return "".join(f"{n}. {sentence(draw)}\n\n   {sentence(draw)}\n" for n in range(1, 4))
    if kind == 7:
        return "```sh\n" + "".join(f"    {WORDS[draw.below(90)]} = {draw.below(999)}\n" for _ in range(3 + draw.below(12))) + "```\n"
    if kind == 8:
        return "".join(f"> {line}\n" for line in paragraph(draw).splitlines())
    return f"- {sentence(draw)}\n  - {sentence(draw)}\n    - {sentence(draw)}\n- {sentence(draw)}\n"


def filled(size, part):
    """Parts up to so many bytes, behind a definition."""
    draw, parts, length = Draw(), ["[ref]: https://example.com/ 'reference'\n\n"], 0
    while length < size:
        text = part(draw)
        parts.append(text)
        length += len(text)
    return "".join(parts)


def handbook(size):
    return filled(size, lambda draw: "#" * (1 + draw.below(3)) + " " + WORDS[draw.below(90)] + "\n\n"
                  + "\n".join(part(draw) for _ in range(3)) + "\n")


def paragraphs(size):
    return filled(size, lambda draw: paragraph(draw) + "\n")


def repeated(text):
    return lambda size: text * (size // len(text))


def runs_of_rising_length(between):
    """Runs of backticks of the lengths 1, 2, 3 and so on."""

    def make(size):
        parts, length = ["a"], 1
        while length < size:
            parts.append(between + "`" * len(parts))
            length += len(parts[-1])
        return "".join(parts)

    return make


def around(before, middle, behind):
    return lambda size: before * (size // len(before + behind)) + middle + behind * (size // len(before + behind))


TEXTS = {
    "a handbook": handbook,
    "nested lists": repeated("".join("  " * depth + "- " + "item\n" for depth in range(20))),
    "quotes with lazy lines": repeated("> quoted words and more\nlazy words\n\n"),
    "one long fence": lambda size: "```\n" + repeated("some code in a fence\n")(size),
    "a paragraph of short lines": repeated("word\n"),
    "indented code": lambda size: repeated("    some code\n\n")(size),
}
if SPEC:
    with open(SPEC, encoding="utf-8") as file:
        TEXTS["copies of SPEC"] = repeated(file.read())
# texts of one paragraph in which much is begun and little found; each of about as many bytes as it is told
ONE_PARAGRAPH = {
    "opening brackets": repeated("["),
    "brackets in brackets": around("[", "a", "]"),
    "brackets behind brackets": around("[", "", "]"),
    "brackets that are no links": repeated("[a] "),
    "opening brackets with text": repeated("[a"),
    "closing brackets alone": repeated("a]"),
    "brackets and parentheses": repeated("[ (]("),
    "links that don't end": repeated("[a](b "),
    "links that don't end, set close": repeated("[a](b"),
    "links that don't end, with <": repeated("[a](<b"),
    "a destination of parentheses": lambda size: "[a](" + "(" * (size // 2) + ")" * (size // 2) + ")",
    "a long label": lambda size: "[" + "x" * size + "]",
    "images in images": around("![", "a", "](u)"),
    "one long run": lambda size: "a" + "*" * size,
    "openers and other closers": repeated("*a_ "),
    "openers alone": repeated("_a "),
    "closers alone": repeated("a_ "),
    "openers, then other closers": lambda size: "*a " * (size // 8) + "_a*_ " * (size // 8),
    "lengths that add up to 3": lambda size: "a**b" + "c* " * (size // 3),
    "brackets and closers": repeated("[ a_"),
    "emphasis in emphasis": around("*a ", "b", " a*"),
    "strong in emphasis": around("*a **a ", "b", " a** a*"),
    "backticks of all lengths": runs_of_rising_length(" "),
    "backticks behind letters": runs_of_rising_length("e"),
    "comments without an end": repeated("a <!-- "),
    "instructions without an end": repeated("a <? "),
    "declarations without an end": repeated("a <!A "),
    "sections without an end": repeated("a <![CDATA[ "),
    "tags without an end": repeated("<a b='c' "),
    "references": repeated("&amp;&x;"),
    "escapes": repeated("\\*\\a"),
    "spaces": lambda size: "a" + " " * size + "b",
}


# ---- what is measured

def row(name, size, took, before, other=None):
    ratio = "" if before is None else f"  {took / before:.2f} times the one before"
    beside = "" if other is None else f"  md2html {other:7.1f} ms, {took / other:.2f} of it"
    print(f"{name:40} {size}: {took:7.1f} ms{ratio}{beside}", flush=True)


def milliseconds(command, path=os.devnull):
    return least(command, path) / 1000


def series(task, name, make, sizes, unit, factor):
    """A text at each of its sizes."""
    before = None
    with tempfile.NamedTemporaryFile("w", encoding="utf-8") as text:
        for size in sizes:
            text.seek(0)
            text.truncate()
            text.write(make(size * factor))
            text.flush()
            took = milliseconds([bench(), task], text.name)
            row(f"{task}: {name}", f"{size:{len(str(sizes[-1]))}} {unit}", took, before, milliseconds([PEER], text.name) if PEER else None)
            before = took


def made(task):
    """A task that makes its text by itself."""
    before, (factor, unit) = None, UNITS[task]
    for size in (1, 2, 4, 8):
        took = milliseconds([bench(), task, str(size)])
        row(task, f"{size * factor:6} {unit}", took, before)
        before = took


def main():
    tasks = set(sys.argv[1:]) or {*UNITS, "blocks", "inlines"}
    bench()
    measured()
    for task in UNITS:
        if task in tasks:
            made(task)
    if "blocks" in tasks:
        for name, make in TEXTS.items():
            series("blocks", name, make, (1, 2, 4, 8), "MiB", MIB)
    if "inlines" in tasks:
        series("inlines", "a handbook's paragraphs", paragraphs, (1024, 2048, 4096, 8192), "KiB", 1024)
        for name, make in ONE_PARAGRAPH.items():
            series("inlines", name, make, (128, 256, 512, 1024), "KiB", 1024)


main()
