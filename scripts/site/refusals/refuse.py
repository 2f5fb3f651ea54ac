#!/usr/bin/env python3
"""Refuses the growths of marked lines of a trial program in turn, and compares what it prints. Called by scripts/site/refusals.sh.

    refuse.py LIBRARY PROGRAM LINES [SCENE]     LIBRARY is refuse.c, compiled; SCENE is a name, for that scene alone

LINES has scenes: a line `## scene: NAME`, and behind it a whole standard input of the program. A comment right above a call marks it:

    # refuse            each growth of the call is refused, once alone and once with all that follow up to the answer. The answer is
                        then as with ample memory, and so are all other lines. Or it has the word `memory` or `Memory` in it, and all
                        other lines are as they are where a comment stands in place of the call
    # refuse as WORD    the same, but an answer that isn't as with ample memory has WORD in it; of `WORD or WORD`, one of them
    # refuse each       the same, and a growth that is refused alone never leaves the answer as with ample memory
    # refuse, at most N growths     the same, and the call takes no more than N
    # refuse, N change nothing      the same, and of the growths that are refused alone just N leave all as with ample memory

`each`, `as WORD`, `, at most N growths` and `, N change nothing` can stand together, in this order. With ample memory no answer may be `no call`, or speak
of memory where that word is looked for. Where the answer is `no memory for the line` the trial itself had none, before the call or
behind it, and the other lines may be either.
"""
import os, re, subprocess, sys, tempfile
from concurrent.futures import ThreadPoolExecutor

AT_ONCE = 2
SECONDS = 60
SHOWN, SHOWN_OF_ONE = 30, 3
OWN = b"no memory for the line"
NO_CALL = b"no call"
MARK = re.compile(r"# refuse(?P<each> each)?(?: as (?P<word>.+?))?(?:, at most (?P<most>\d+) growths?)?(?:, (?P<idle>\d+) changes? nothing)?")


class Mark:
    """A mark of a scene: `at` is the place of the marked line in the scene, from 0."""

    def __init__(self, at, text, given):
        self.at, self.text, self.is_each = at, text.encode(), given["each"] is not None
        self.words = given["word"].encode().split(b" or ") if given["word"] else None
        self.most = None if given["most"] is None else int(given["most"])
        self.idle = None if given["idle"] is None else int(given["idle"])

    def is_want(self, answer):
        return re.search(rb"[mM]emory", answer) is not None if self.words is None else any(word in answer for word in self.words)


class Ran:
    """What a run left: for each mark its answer, and all that was printed without it."""

    def __init__(self, whole, marks, fault):
        self.answers, self.others, self.fault = [], [], fault
        ends, begin = [], 0
        for k, mark in enumerate(marks):
            head, tail = b"\n" + mark.text + b"\n", end_of(k).encode() + b"\n"
            at = (b"\n" + whole).find(head, begin)
            end = whole.find(tail, at + len(head) - 1)
            if at < 0 or end < 0:
                self.fault = fault or f"the answer of mark {k} is missing; printed last: {shown(whole[-200:])}"
                return
            ends.append((at + len(head) - 1, end))
            begin = end
        for begin, end in ends:
            self.answers.append(whole[begin:end].removesuffix(b"\n"))
            self.others.append((whole[:begin], whole[end:]))


def end_of(k):
    return f"# the answer of mark {k} ends here"


def shown(line, most=160):
    text = line.decode(errors="replace")
    return text if len(text) <= most else text[:most] + ".."


def difference(wanted, found):
    """The first line that differs."""
    left, right = wanted.split(b"\n"), found.split(b"\n")
    for number, (a, b) in enumerate(zip(left + [b"(no line)"] * len(right), right + [b"(no line)"] * len(left)), 1):
        if a != b:
            at = next((i for i, (x, y) in enumerate(zip(a, b)) if x != y), min(len(a), len(b)))
            begin = max(0, at - 60) if at > 100 else 0
            return f"line {number}, from byte {begin}:\n      wanted {shown(a[begin:])}\n      found  {shown(b[begin:])}"
    return "no line"


def scenes_of(path):
    """The scenes of a file: each its name, its lines and its marks."""
    found = []
    for number, line in enumerate(open(path, encoding="utf-8").read().removesuffix("\n").split("\n"), 1):
        name = line.removeprefix("## scene: ")
        if name != line:
            found.append((name, [], []))
        elif found:
            found[-1][1].append(line)
            if re.match(r"# refuse( |,|$)", line):
                given = MARK.fullmatch(line) or sys.exit(f"{path}:{number}: no mark is written so")
                found[-1][2].append(Mark(len(found[-1][1]), line, given))
        elif line and not line.startswith("#"):
            sys.exit(f"{path}:{number}: a line in front of the first scene")
    for name, lines, marks in found:
        for mark in marks:
            if mark.at >= len(lines) or not lines[mark.at] or lines[mark.at].startswith("#"):
                sys.exit(f"{path}, scene {name}: no call behind a mark")
    if len({name for name, _, _ in found}) != len(found):
        sys.exit(f"{path}: two scenes of one name")
    return found


class Scene:
    """A scene, how it is run, and what came of it."""

    def __init__(self, library, program, room, name, lines, marks):
        self.library, self.program, self.room = library, program, room
        self.name, self.lines, self.marks = name, lines, marks
        self.faults, self.told = [], []
        self.growths = self.want = self.right = self.runs = 0

    def text(self, without=None):
        """The standard input: a comment in front, since some lines, as `sites`, are looked for behind another one; and behind each marked
        line a comment that says that its answer is whole. One of these lines may be left out."""
        places = {mark.at: k for k, mark in enumerate(self.marks)}
        out = [f"# scene: {self.name}"]
        for at, line in enumerate(self.lines):
            k = places.get(at)
            out.append("# in place of the call" if k is not None and k == without else line)
            if k is not None:
                out.append(end_of(k))
        return ("\n".join(out) + "\n").encode()

    def run(self, text, refused={}):
        """A run in a folder of its own, by the environment of refuse.c."""
        with tempfile.TemporaryDirectory(dir=self.room) as place:
            environment = {**os.environ, "LD_PRELOAD": self.library, **refused}
            try:
                ran = subprocess.run([self.program], input=text, capture_output=True, timeout=SECONDS, cwd=place, env=environment)
            except subprocess.TimeoutExpired as late:
                return Ran(late.stdout or b"", self.marks, f"not at its end after {SECONDS} seconds")
        fault = None
        if ran.returncode != 0 or ran.stderr:
            fault = f"it ended with status {ran.returncode} and wrote {shown(ran.stderr)!r} to the standard error"
        return Ran(ran.stdout, self.marks, fault)

    def try_all(self, pool):
        """Runs the scene with ample memory, and then with each growth of each mark refused."""
        ample_text = self.text()
        counts = os.path.join(self.room, "counts")
        ample = self.run(ample_text, {"REFUSE_COUNTS": counts})
        growths = [int(it) for it in open(counts)] if os.path.exists(counts) else []
        if os.path.exists(counts):
            os.remove(counts)
        if not ample.fault and len(growths) != len(self.marks):
            ample.fault = f"{len(growths)} marks were counted and {len(self.marks)} are written: was the library preloaded?"
        if not ample.fault:
            ample.fault = self.no_answer_of(ample)
        if ample.fault:
            self.faults.append(f"{self.name}: with ample memory: {ample.fault}")
            return
        for k, count in enumerate(growths):
            self.try_mark(pool, k, count, ample_text, ample)

    def no_answer_of(self, ample):
        """The first marked line whose answer with ample memory shows nothing."""
        for mark, answer in zip(self.marks, ample.answers):
            line = self.lines[mark.at][:60]
            if answer == NO_CALL:
                return f"{line}: no call"
            if mark.words is None and mark.is_want(answer):
                return f"{line}: the answer speaks of memory already"
        return None

    def try_mark(self, pool, k, growths, text, ample):
        mark, line = self.marks[k], self.lines[self.marks[k].at]
        head = f"{self.name}: {line[:60]}"
        without = self.run(self.text(without=k))
        if without.fault:
            self.faults.append(f"{head}\n    without the call: {without.fault}")
            return
        if mark.most is not None and growths > mark.most:
            self.faults.append(f"{head}\n    {growths} growths, of at most {mark.most}")
        ways = [(growth, rest) for growth in range(growths) for rest in (False, True)]

        def tried(way):
            growth, rest = way
            refused = {"REFUSE_MARK": str(k), "REFUSE_GROWTH": str(growth), "REFUSE_REST": str(int(rest))}
            return self.judged(mark, k, rest, self.run(text, refused), ample, without)

        want = right = wrong = idle = 0
        for (growth, rest), outcome in zip(ways, pool.map(tried, ways)):
            idle += outcome == "right" and not rest
            want += outcome == "want"
            right += outcome == "right"
            if outcome not in ("want", "right"):
                wrong += 1
                if wrong <= SHOWN_OF_ONE:
                    self.faults.append(f"{head}\n    growth {growth} refused, {'with the rest' if rest else 'alone'}: {outcome}")
        if wrong > SHOWN_OF_ONE:
            self.faults.append(f"{head}\n    and {wrong - SHOWN_OF_ONE} more runs of this line")
        if mark.idle is not None and idle != mark.idle:
            self.faults.append(f"{head}\n    {idle} growths change nothing, and not {mark.idle}")
        self.told.append(f"{head}: {growths} growths, {want} want of memory, {right} right" + (f", {wrong} wrong" if wrong else ""))
        self.growths, self.want, self.right = self.growths + growths, self.want + want, self.right + right
        self.runs += len(ways)

    @staticmethod
    def judged(mark, k, rest, ran, ample, without):
        """`want` or `right`, or what is wrong with a run."""
        if ran.fault:
            return ran.fault
        answer, (before, behind) = ran.answers[k], ran.others[k]
        if before != ample.others[k][0]:
            return f"other answers in front of it, {difference(ample.others[k][0], before)}"
        as_ample, as_without = behind == ample.others[k][1], behind == without.others[k][1]
        if answer == OWN:
            if as_ample or as_without:
                return "want"
            return f"other lines behind it than with the call, and than without it, {difference(without.others[k][1], behind)}"
        if answer == ample.answers[k]:
            if mark.is_each and not rest:
                return "the answer is as with ample memory"
            return "right" if as_ample else f"other lines behind the right answer, {difference(ample.others[k][1], behind)}"
        if not mark.is_want(answer):
            return f"another answer, {difference(ample.answers[k], answer)}"
        return "want" if as_without else f"other lines behind want of memory, {difference(without.others[k][1], behind)}"


def main():
    if len(sys.argv) not in (4, 5):
        sys.exit(__doc__)
    library, program, path = (os.path.abspath(it) for it in sys.argv[1:4])
    found = [it for it in scenes_of(path) if len(sys.argv) == 4 or it[0] == sys.argv[4]]
    if not found:
        sys.exit(f"{path}: no such scene")
    faults, totals = [], [0] * 5
    with tempfile.TemporaryDirectory() as room, ThreadPoolExecutor(AT_ONCE) as pool:
        for name, lines, marks in found:
            scene = Scene(library, program, room, name, lines, marks)
            scene.try_all(pool)
            for line in scene.told:
                print(line, flush=True)
            faults += scene.faults
            numbers = len(marks), scene.growths, scene.want, scene.right, scene.runs
            totals = [a + b for a, b in zip(totals, numbers)]
    marked, growths, want, right, runs = totals
    for it in faults[:SHOWN]:
        print(f"FAILED  {it}")
    if len(faults) > SHOWN:
        print(f"FAILED  {len(faults) - SHOWN} more")
    print(f"{os.path.basename(path)}: {len(found)} scenes, {marked} marked lines, {growths} growths; {runs} runs with growths refused: "
          f"{want} want of memory, {right} right" + ("; failed" if faults else ""))
    sys.exit(1 if faults else 0)


main()
