"""Compares the four extensions with cmark-gfm (docs/COMMONMARK.md), on the examples of its own specification and on random texts.

    python3 scripts/oracles/gfm.py PROGRAM SPEC [COUNT] [SEED]

PROGRAM is `docs_server`, SPEC the file test/spec.txt of Debian's source package of cmark-gfm, COUNT how many texts each extension gets
(2,000 where it isn't said). Each text is a page of `replay`, with the extension's key of [markdown] and without. Texts that the two
programs read otherwise without an extension are left out. A difference is sorted by gfm_kinds.py; one of no known kind is told, and the
script then ends with status 1. Needs python3 and cmark-gfm.
"""
import concurrent.futures
import itertools
import os
import re
import subprocess
import sys
import tempfile

from gfm_kinds import EXTENSIONS, box_first
from trial_lines import Dice

sys.path.append(os.path.dirname(os.path.abspath(__file__)) + "/../lib")
from scene import needs

CONFIG = '[[reader]]\ntoken = "tok"\nowner = true\n'
GET = r"push 1 GET /page/a.md HTTP/1.1\r\nHost: docs\r\nAuthorization: Bearer tok\r\n\r\n"
EXAMPLE = re.compile(r"^`{32} example ?(.*)\n([\s\S]*?)^\.\n([\s\S]*?)^`{32}$", re.M)


# ---- the two programs

def written(text):
    """A text as a script has it."""
    return "".join(chr(b) if 32 <= b < 127 and b != 92 else f"\\x{b:02x}" for b in text.encode())


def read(line):
    """The bytes of an escaped text."""
    letters = {"n": b"\n", "r": b"\r", "\\": b"\\"}
    parts = re.split(r"\\(x[0-9a-f]{2}|.)", line)
    found = [part.encode() if number % 2 == 0 else letters.get(part) or bytes([int(part[1:], 16)]) for number, part in enumerate(parts)]
    return b"".join(found).decode()


class Product:
    """The HTML of pages, by the program."""

    def __init__(self, program, scratch):
        self.program, self.scratch = program, scratch

    def htmls(self, key, texts):
        config = f"{self.scratch}/{key}.toml"
        with open(config, "w", encoding="utf-8") as file:
            file.write((f"[markdown]\n{key} = true\n" if key else "") + CONFIG)
        script = "connect\n" + "".join(f"put a.md - {written(text)}\n{GET}\nstep 1\n" for text in texts)
        run = subprocess.run([self.program, "replay", config], input=script.encode(), stdout=subprocess.PIPE, check=True)
        replies = [read(line[5:]) for line in run.stdout.decode().split("\n") if line.startswith("sent ")]
        assert len(replies) == len(texts), (len(replies), len(texts))
        return [self.html(reply) for reply in replies]

    @staticmethod
    def html(reply):
        """A page without its title and its anchors."""
        body = reply.partition("\r\n\r\n")[2]
        return re.sub(r'(<h[1-6]) id="[^"]*"', r"\1", re.sub(r"^<!DOCTYPE html>\n<title>.*?</title>\n", "", body, flags=re.S))


def cmark(extension, texts):
    """The HTML of cmark-gfm, whose links into a site are shown as those that lead nowhere, and apostrophes in addresses as they stand."""
    command = ["cmark-gfm", "--unsafe", *(["-e", extension] if extension else [])]

    def one(text):
        html = subprocess.run(command, input=text.encode(), stdout=subprocess.PIPE, check=True).stdout.decode().replace("&#x27;", "'")
        html = re.sub(r'<a href="(?![a-zA-Z][a-zA-Z0-9+.-]*:)[^"]*"', '<a class="missing"', html)
        return box_first(html) if extension == "tasklist" else html

    with concurrent.futures.ThreadPoolExecutor(4) as pool:
        return list(pool.map(one, texts))


# ---- random texts

INLINES = ["a", "b", "*a*", "`c`", "[l](http://u)", "\\|", "`\\|`", "\\\\|", "", " ", "é"]
STARTS = ["", "", "", "", "> ", "- ", "  ", "    ", "1. ", "> > ", "- - ", " ", "\t"]


def random_row(dice, columns):
    cells = [dice.pick(["", " "]) + dice.pick(INLINES) + dice.pick(["", " "]) for _ in range(columns)]
    return dice.pick(["|", "", "| "]) + "|".join(cells) + dice.pick(["|", "", " | "])


def random_delimiters(dice, columns):
    cells = [dice.pick(["-", "---", ":-", "-:", ":-:", " - "]) for _ in range(columns)]
    return dice.pick(["|", "", "| "]) + "|".join(cells) + dice.pick(["|", ""])


def table_text(dice):
    others = ["", "---", "===", "|", "[r]: http://r", "2. x", "<b>", "```", "# h", "text", "x\\|y", "[r]", "***"]
    lines = []
    for _ in range(dice.between(2, 7)):
        start, kind, columns = dice.pick(STARTS), dice.below(10), dice.between(1, 3)
        if dice.chance(35):
            under = start if dice.chance(80) else dice.pick(STARTS)
            lines += [start + random_row(dice, columns), under.replace("- ", "  ") + random_delimiters(dice, columns)]
        elif kind < 4:
            lines.append(start + random_row(dice, columns))
        else:
            lines.append(start + (random_delimiters(dice, columns) if kind < 6 else dice.pick(others)))
    return "\n".join(lines) + "\n"


def joined(parts, most):
    return lambda dice: "".join(dice.pick(parts) for _ in range(dice.between(2, most))) + "\n"


def task_text(dice):
    marks = ["[ ]", "[x]", "[X]", "[ ] ", "[x] ", "[y] "]
    behind = ["a", " a", "[x] b", "", " ", "\ta", "[r]: http://r", "| a", "*b*"]
    lines = []
    for _ in range(dice.between(1, 5)):
        start = dice.pick(["- ", "- ", "* ", "1. ", "> - ", "- - ", "  - ", "  ", "", "-\n  "])
        lines.append(start + (dice.pick(marks) if dice.chance(80) else "") + dice.pick(behind))
        if dice.chance(30):
            lines.append(dice.pick(["", "  x", "|-|"]))
    return "\n".join(lines) + "\n"


RANDOM = {
    "table": table_text,
    "strikethrough": joined(["~", "~~", "~~~", "~", "~~", "*", "**", "_", "a", "b", " ", " ", "\n", ".", "`", "[", "](http://u)", "\\", "é"], 14),
    "tasklist": task_text,
    "autolink": joined(["www.", "http://", "https://", "ftp://", "HTTP://", "a", "b.c", ".", "_", "-", "(", ")", "&amp;", ";", "*", "~",
                        "<", "[", "](http://u)", "![", " ", "\n", "?", "'", "\"", "é", "`", "/", "#"], 12),
}


# ---- differences

class Sorted:
    """How many texts of an extension differ, by kind."""

    def __init__(self, product, extension):
        self.product, self.extension = product, extension
        self.key, self.kinds = EXTENSIONS[extension]
        self.counts, self.unknown = dict.fromkeys(self.kinds, 0), []

    def alike(self, texts):
        return [one == two for one, two in zip(self.product.htmls(self.key, texts), cmark(self.extension, texts))]

    def mended(self, text, names):
        """A text with these mends, again and again: one may bring another point of its kind about."""
        for _ in range(6):
            before = text
            for name in self.kinds:
                text = self.kinds[name](text) if name in names else text
            if text == before:
                break
        return text

    def possible(self, text):
        """The kinds whose mends change a text, or what the others' mends make of it."""
        names = set()
        for _ in range(6):
            before = text
            for name, mend in self.kinds.items():
                after = mend(text)
                if after != text:
                    names.add(name)
                text = after
            if text == before:
                break
        return [name for name in self.kinds if name in names]

    def explained(self, text, names):
        """The fewest of these kinds behind whose mends the two read a text alike, or none: a mend may bring about what another one leaves."""
        for count in range(1, len(names) + 1):
            for some in itertools.combinations(names, count):
                if self.alike([self.mended(text, some)])[0]:
                    return list(some)
        return None

    def sort(self, texts):
        """For each text the kinds without whose mends the two still read it otherwise; one of no kinds is unknown."""
        left = [self.possible(text) for text in texts]
        good = self.alike([self.mended(text, names) for text, names in zip(texts, left)])
        left = [names if is_good else self.explained(text, names) for text, names, is_good in zip(texts, left, good)]
        self.unknown = [text for text, names in zip(texts, left) if names is None]
        texts, left = [[*pairs] for pairs in zip(*[pair for pair in zip(texts, left) if pair[1] is not None])] or ([], [])
        for name in self.kinds:
            fewer = [[other for other in names if other != name] for names in left]
            good = self.alike([self.mended(text, names) for text, names in zip(texts, fewer)])
            left = [less if is_good else names for names, less, is_good in zip(left, fewer, good)]
        for names in left:
            for name in names:
                self.counts[name] += 1


def drawn(product, extension, count, seed):
    """Random texts that both read alike without the extension."""
    dice = Dice(seed)
    texts = [RANDOM[extension](dice) for _ in range(count)]
    return [text for text, one, two in zip(texts, product.htmls("", texts), cmark("", texts)) if one == two]


def compare(product, extension, texts):
    """Tells of the texts of an extension; how many differ in a way that no kind explains."""
    both = Sorted(product, extension)
    shown = sum(one != two for one, two in zip(product.htmls("", texts), product.htmls(both.key, texts)))
    different = [text for text, is_good in zip(texts, both.alike(texts)) if not is_good]
    both.sort(different)
    print(f"{extension}: {len(texts)} compared, the extension shows in {shown}, {len(different)} differ", flush=True)
    for name, count in both.counts.items():
        if count:
            print(f"  {count:6} {name}")
    for text in sorted(both.unknown, key=len)[:10]:
        print(f"  unknown: {text!r}\n    here      {product.htmls(both.key, [text])[0]!r}\n    cmark-gfm {cmark(extension, [text])[0]!r}")
    return len(both.unknown)


def examples(path):
    """The examples of the specification for each extension, with what it says they give."""
    with open(path, encoding="utf-8") as file:
        found = EXAMPLE.findall(file.read())
    return {extension: [(text.replace("→", "\t"), html.replace("→", "\t")) for names, text, html in found if extension in names.split()]
            for extension in EXTENSIONS}


def published(product, extension, cases):
    """How many of the specification's examples aren't met."""
    html = product.htmls(EXTENSIONS[extension][0], [text for text, _ in cases])
    missed = [case for case, one in zip(cases, html) if one != case[1]]
    mail = [case for case in missed if extension == "autolink" and "@" in case[0]]
    print(f"{extension}: {len(cases) - len(missed)} of {len(cases)} examples of the specification"
          + (f", {len(mail)} of the others have mail addresses" if mail else ""))
    for text, wanted in missed:
        if (text, wanted) not in mail:
            print(f"  {text!r}\n    wanted {wanted!r}")
    return len(missed) - len(mail)


def main():
    if not 3 <= len(sys.argv) <= 5:
        sys.exit("usage: " + re.search(r"(?m)^ +(python3 .*)$", __doc__)[1])
    needs("cmark-gfm")
    program, spec = os.path.realpath(sys.argv[1]), examples(sys.argv[2])
    count, seed = [*map(int, sys.argv[3:]), *[2000, 1][len(sys.argv) - 3:]]
    with tempfile.TemporaryDirectory() as scratch:
        product, wrong = Product(program, scratch), 0
        for extension in EXTENSIONS:
            wrong += published(product, extension, spec[extension])
            wrong += compare(product, extension, drawn(product, extension, count, seed))
    sys.exit(1 if wrong else 0)


if __name__ == "__main__":
    main()
