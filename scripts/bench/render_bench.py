"""Measures `docs_server render` beside md4c (`md2html`), pulldown-cmark and cmark: the processor time that a text takes (user and
system, the least of several runs, the programs in turns), its ratio to md4c's in the same run, and the largest resident size. The
texts: a handbook and copies of the published spec.txt at 1 and 8 MiB, the inputs of its examples at 1 MiB, and each family of
hostile texts at four sizes. Behind a time stands by how much more it grew than the text since the size before, both without the time
of an empty text: 1 is linear.

    python3 scripts/bench/render_bench.py FOLDER

FOLDER has corpus.py, a Python module with the words of the texts: handbook(BYTES), examples(TEXT), OPEN_ENDED (the numbers of the
examples that swallow what follows them) and PATHO (for each family of hostile texts its least count, and the text of a count). The
rest is told by variables:

    PRODUCT   the program, crates/docs_server/out/docs_server where it isn't set; `rt run` in crates/docs_server builds it
    PEERS     the folder of the programs md2html-0.5.2 and pulldown-0.9.2, FOLDER/peers where it isn't set; each reads standard input
    SPEC      the published spec.txt, FOLDER/spec.txt where it isn't set; scripts/gate/spec.sh gets it
    RUNS      how often a program gets a text, 5 where it isn't set; twice at most where it takes a second
    SECONDS_A_RUN   the processor time after which a run is cut off, 20 where it isn't set; larger texts of the family are left out then
    ONLY      measures only the texts whose names hold this

Needs python3 and a C compiler, `cc`. cmark is taken from the path. pulldown-cmark and cmark are left out where they are missing;
where anything else is, the script says so and ends with status 2. It ends with status 1 where a renderer fails.
"""
import importlib, math, os, shutil, subprocess, sys, tempfile
sys.path.insert(1, os.path.dirname(__file__) + "/../lib")
from timing import TOP, measured

MIB = 1 << 20
RUNS = int(os.environ.get("RUNS", "5"))
SECONDS = os.environ.get("SECONDS_A_RUN", "20")
ONLY = os.environ.get("ONLY", "")
MEASURE = "md4c"


def missing(what):
    print(f"render_bench: {what}", file=sys.stderr)
    sys.exit(2)


class Given:
    """What the script is given: the words of the texts, the published examples, and the programs."""

    def __init__(self):
        if len(sys.argv) != 2:
            missing("usage: python3 scripts/bench/render_bench.py FOLDER, the folder with corpus.py")
        tools = os.path.abspath(sys.argv[1])
        if not os.path.isfile(f"{tools}/corpus.py"):
            missing(f"no corpus.py in {sys.argv[1]}")
        product = os.environ.get("PRODUCT", TOP + "/crates/docs_server/out/docs_server")
        peers, spec = os.environ.get("PEERS", f"{tools}/peers"), os.environ.get("SPEC", f"{tools}/spec.txt")
        if not shutil.which("cc"):
            missing("no cc")
        if not os.access(product, os.X_OK):
            missing(f"no program {product}: run 'rt run' in crates/docs_server first")
        if not os.access(f"{peers}/md2html-0.5.2", os.X_OK):
            missing(f"no program md2html-0.5.2, of md4c, in {peers}")
        if not os.path.isfile(spec):
            missing(f"no file {spec}: scripts/gate/spec.sh gets it")
        self.commands = {
            "docs_server": [os.path.abspath(product), "render"],
            MEASURE: [f"{peers}/md2html-0.5.2", "--xhtml"],
            "pulldown-cmark": [f"{peers}/pulldown-0.9.2"],
            "cmark": ["cmark", "--unsafe"],
        }
        with open(spec, encoding="utf-8") as file:
            self.spec = file.read()
        sys.dont_write_bytecode = True
        sys.path.insert(0, tools)
        self.corpus = importlib.import_module("corpus")

    def leave_out(self):
        """The programs that aren't there."""
        for program in list(self.commands):
            if shutil.which(self.commands[program][0]) is None:
                print(f"left out: {program} is not here", file=sys.stderr)
                del self.commands[program]

    def texts(self):
        """For each name what makes its texts, the shortest first."""
        corpus = self.corpus
        inputs = "".join(text + "\n" for number, (text, _) in enumerate(corpus.examples(self.spec), 1) if number not in corpus.OPEN_ENDED)
        found = {
            "handbook": lambda: [corpus.handbook(size * MIB) for size in (1, 8)],
            "spec.txt": lambda: [copies(self.spec, size * MIB) for size in (1, 8)],
            "the examples' inputs": lambda: [copies(inputs, MIB)],
        }
        for family, (count, made) in corpus.PATHO.items():
            found[family] = lambda count=count, made=made: [made(count * step) for step in (1, 2, 4, 8)]
        return found


def copies(text, size):
    return text * max(1, size // len(text.encode()))


class Renderers:
    """The programs, and the time that each takes for no text."""

    def __init__(self, commands, scratch):
        self.commands, self.path, self.starter = commands, f"{scratch}/text.md", f"{scratch}/run"
        subprocess.run(["cc", "-O1", "-o", self.starter, os.path.dirname(__file__) + "/run.c"], check=True)
        self.start = {}

    def once(self, program):
        """The processor time of a run in milliseconds and its largest resident size in KiB, or None where it was cut off."""
        run = subprocess.run([self.starter, SECONDS, self.path, *self.commands[program]], stdout=subprocess.PIPE, check=True)
        time, size, status = run.stdout.split()
        if int(status) > 0:
            sys.exit(f"{program}: status {int(status)}")
        return (float(time), int(size)) if int(status) == 0 else None

    def measured(self, cut):
        """For each program the least time and the largest size of its runs, which take turns. Those that are cut off join the set."""
        best = {program: (math.inf, 0) for program in self.commands if program not in cut}
        for turn in range(RUNS):
            for program in list(best):
                time, size = best[program]
                if turn >= 2 and time >= 1000:
                    continue
                used = self.once(program)
                if used is None:
                    cut.add(program)
                    del best[program]
                else:
                    best[program] = (min(time, used[0]), max(size, used[1]))
        return best

    def row(self, name, length, program, best, before):
        """A line for a program. It isn't said how a time of less than 5 ms more than that of no text grew."""
        front = f"{name:26} {length / MIB:7.3f} MiB  {program:14}"
        if program not in best:
            return f"{front} over {SECONDS} s"
        time, size = best[program]
        line = f"{front} {time:9.1f} ms"
        if MEASURE in best:
            line += f" {time / best[MEASURE][0]:8.2f} of md4c"
        line += f" {size / 1024:7.1f} MiB resident"
        took = before[1][program][0] - self.start[program] if before and program in before[1] else 0
        if took >= 5:
            line += f" {(time - self.start[program]) / took / (length / before[0]):6.2f} of linear"
        return line

    def series(self, name, texts):
        """Measures the texts, and answers what the last one took."""
        before, cut = None, set()
        for text in texts:
            data = text.encode()
            with open(self.path, "wb") as out:
                out.write(data)
            best = self.measured(cut)
            for program in self.commands:
                print(self.row(name, len(data), program, best, before), flush=True)
            before = (len(data), best)
        return before[1]


def main():
    given = Given()
    with tempfile.TemporaryDirectory() as scratch:
        renderers = Renderers(given.commands, scratch)
        measured()
        given.leave_out()
        renderers.start = {program: time for program, (time, size) in renderers.series("no text", [""]).items()}
        for name, texts in given.texts().items():
            if ONLY in name:
                renderers.series(name, texts())


main()
