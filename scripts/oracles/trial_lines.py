"""What the oracles share: dice that fall alike in each version of Python, how lines of a trial are written, and where they go.

Each oracle writes calls and their answers between two comments that name it, in stdin and stdout of crates/trial_pages or of another
trial, in place of what stands there; so it can be run again, and `git diff` shows whether anything changed.
"""

import os
import random

CRATES = os.path.join(os.path.dirname(os.path.abspath(__file__)), "..", "..", "crates")


class Dice:
    """`random.Random.random` is promised to give the same numbers in later versions of Python; `choice` and `randrange` are not."""

    def __init__(self, seed):
        self.next = random.Random(seed).random

    def below(self, end):
        return int(self.next() * end)

    def between(self, first, last):
        return first + self.below(last - first + 1)

    def pick(self, items):
        return items[self.below(len(items))]

    def chance(self, percent):
        return self.below(100) < percent

    def some(self, items):
        return {item for item in items if self.chance(45)}


def fnv(data):
    """FNV-1a of 64 bits, with the offset and the prime that Fowler, Noll and Vo give it."""
    value = 0xCBF29CE484222325
    for byte in data:
        value = (value ^ byte) * 0x100000001B3 % 2**64
    return value


# Two of the vectors that its authors publish.
assert fnv(b"a") == 0xAF63DC4C8601EC8C and fnv(b"foobar") == 0x85944171F73967E8


def digest(answers):
    """What the call `digest` prints of the answers of several calls, with a LF behind each."""
    return f"{fnv(''.join(answer + chr(10) for answer in answers).encode()):016x}"


def debug(text):
    """A text as Rust prints it by `{:?}`. What Rust writes by a number must not stand in it."""
    assert all(c.isprintable() or c in "\n\r\t" for c in text), text
    for plain, written in (("\\", "\\\\"), ('"', '\\"'), ("\n", "\\n"), ("\r", "\\r"), ("\t", "\\t")):
        text = text.replace(plain, written)
    return f'"{text}"'


def given(text):
    """A text as a line of a trial has it."""
    text = text.replace("\\", "\\\\").replace("\n", "\\n").replace("\t", "\\t")
    return "".join(c if c.isprintable() else f"\\u{{{ord(c):x}}}" for c in text)


def several(calls):
    """One line of several calls, in which no text holds ` ; `, and what it answers."""
    assert all(" ; " not in call for call, _ in calls)
    return "digest " + given(" ; ".join(call for call, _ in calls)), digest([answer for _, answer in calls])


def write(name, lines, trial="trial_pages"):
    """Sets the lines of an oracle, which are pairs of a call and an answer; a comment stands alone."""
    pairs = [line if isinstance(line, tuple) else (line, line) for line in lines]
    for number, file in enumerate(("stdin", "stdout")):
        path = os.path.join(CRATES, trial, file)
        first, last = f"# From scripts/oracles/{name}:", f"# So far scripts/oracles/{name}."
        with open(path, encoding="utf-8", newline="\n") as f:
            before, rest = f.read().split(first + "\n")
            _, behind = rest.split(last + "\n")
        between = "".join(pair[number] + "\n" for pair in pairs)
        with open(path, "w", encoding="utf-8", newline="\n") as f:
            f.write(before + first + "\n" + between + last + "\n" + behind)
