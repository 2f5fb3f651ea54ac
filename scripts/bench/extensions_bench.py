"""Measures how the time of tables, strikethrough, tasks and bare links grows with the text: each hostile text at four sizes is put as a
page of `docs_server replay` and asked for, with its key of [markdown] and without. Prints the least processor time of five runs, less
that of a page of one word, its ratio to the one before (2 is linear), and its ratio to the time without the key.

    python3 scripts/bench/extensions_bench.py PROGRAM [WORD]

With WORD only the texts whose names hold it are measured. Needs python3.
"""
import os, sys, tempfile
sys.path.insert(1, os.path.dirname(__file__) + "/../lib")
from hostile_texts import TEXTS
from timing import least, measured

SIZES = (128, 256, 512, 1024)
READER = '[[reader]]\ntoken = "tok"\nowner = true\n'
GET = r"push 1 GET /page/a.md HTTP/1.1\r\nHost: docs\r\nAuthorization: Bearer tok\r\n\r\n" + "\nstep 1\n"


class Replays:
    """Runs of the program, with a key or without."""

    def __init__(self, program, scratch):
        self.program, self.script, self.scratch = program, f"{scratch}/script", scratch

    def least(self, key, text):
        config = f"{self.scratch}/{key}.toml"
        with open(config, "w", encoding="utf-8") as file:
            file.write((f"[markdown]\n{key} = true\n" if key else "") + READER)
        with open(self.script, "w", encoding="utf-8") as file:
            plain = text.replace("\\", "\\\\").replace("\n", "\\n")
            file.write(f"connect\nput a.md - {plain}\n{GET}")
        return least([self.program, "replay", config], self.script) / 1000


def series(replays, key, name, made):
    """A text at each of its sizes."""
    before, start = None, replays.least(key, "word")
    for size in SIZES:
        text = made(size * 1024 - 1024)
        took, without = replays.least(key, text) - start, replays.least("", text) - start
        ratio = "" if before is None else f"  {took / before:5.2f} times the one before"
        print(f"{key}: {name:44} {size:5} KiB {took:9.1f} ms, {took / without:8.2f} of it without{ratio}", flush=True)
        before = took


def main():
    if not 2 <= len(sys.argv) <= 3:
        sys.exit("usage: python3 scripts/bench/extensions_bench.py PROGRAM [WORD]")
    measured()
    with tempfile.TemporaryDirectory() as scratch:
        replays = Replays(os.path.realpath(sys.argv[1]), scratch)
        for (key, name), made in TEXTS.items():
            if "".join(sys.argv[2:]) in f"{key}: {name}":
                series(replays, key, name, made)


main()
