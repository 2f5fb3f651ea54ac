"""Damages a journal of three records in every way of one kind at a time, and starts `listen` over it: each byte as 0, as each of the two
gates, with its lowest bit turned, with all turned and as a random one; two bytes at once, each gate with each byte of its record; each
truncation; zeros over a piece from each place, and over each block of 512 and of 4,096 of a longer journal; pieces of another journal in
it, and of itself; the same of a last record whose gate is still closed, as a crash leaves it; some places of the zeros behind it; and
files that are no journals. Whatever is damage is refused as `journal record N`, status 2, and the file stays as it was; what a crash may
have left is told, kept in `journal.torn` and zeroed, and all records before it are served. Which is which, scripts/oracles/journals.py
says; and of each byte of header, gates and records that is turned this script says it too: it is refused, but for the last gate closed.

Then: of two servers on one journal the second is refused, until the first is gone; and a journal of version 1 is refused, and compacted.

    python3 scripts/listen/damage.py PROGRAM

Builds nothing. Needs python3. Some minutes.
"""
import os, random, subprocess, sys
sys.path.insert(1, os.path.dirname(__file__) + "/../lib")
from scene import OWNER, Client, Refused, Scene, free_port, got, page_of, put
from journals import CLOSED, OPEN, Refused as Unread, is_opened, read, read_first, records, torn, written, written_first

scene = Scene(seconds=3000)
PORT = free_port()
EDITS = [("a.md", "First."), ("b.md", "Second, \u00f6."), ("c.md", "Third.")]
chance = random.Random(1)
# a picture of 16 by 16 for a browser's tab, which begins with 0
ICO = b"\0\0\1\0\1\0\x10\x10\0\0\1\0 \0h\4\0\0\x16\0\0\0(\0\0\0\x10\0\0\0 \0\0\0\1\0 \0" + bytes(1112)


def started(journal="journal"):
    return scene.listen("site.toml", port=PORT, journal=journal)


def ask(path, method="GET", text=""):
    """The code and the body of a reply; no code where the connection ended without one."""
    client = Client(PORT, "tok")
    try:
        return client.ask("/page/" + path, method, text.encode())[::2]
    except OSError:
        return None, b""
    finally:
        client.close()


def serves(edits, name):
    """The pages are those of these edits, and of no other."""
    wanted = {path: (200, page_of(path, text)) for path, text in edits}
    for path in sorted({path for path, _ in EDITS} | set(wanted)):
        found = ask(path)
        scene.check(f"{name}: {path}", found == wanted.get(path, (404, b"404 Not Found\n")), found)


# ---- one start

def refused(fault, name, journal="journal"):
    """The program doesn't start, and says so. No file changes."""
    before = {file: got(file) for file in os.listdir(".")}
    try:
        server = started(journal)
    except Refused as found:
        scene.check(name, (found.status, found.said) == (2, f"docs_server: {fault}\n"), found)
        return scene.check(f"{name}: the files are as they were", {file: got(file) for file in os.listdir(".")} == before)
    server.kill()
    return scene.check(name, False, f"it started and wasn't refused as {fault}")


def tried(journal, name, edits):
    """A start over these bytes goes as the model says. The outcome."""
    put("journal", journal)
    try:
        texts, front = read(journal)
    except Unread as fault:
        refused(fault, name)
        return "refused"
    try:
        server = started()
    except Refused as found:
        scene.check(name, False, found)
        return "refused"
    left = torn(journal, front)
    serves(edits[:len(texts)], name)
    told = left and f"docs_server: record {len(texts) + 1} was torn; {len(left)} bytes kept in journal.torn\n"
    status = server.end()
    scene.check(f"{name}: the end", status == 0 and server.said() == (told or ""), f"{status} {server.said()}")
    found = got("journal")
    scene.check(f"{name}: what was torn is zeroed", is_opened(found, front) and len(found) >= len(journal), f"{len(found)} bytes")
    scene.check(f"{name}: it is kept", is_kept(left, len(texts) + 1), left[:40])
    return "torn" if left else f"{len(texts)} records"


def is_kept(left, number):
    """Whether the file beside the journal has these bytes behind a line of theirs, and nothing else; it is removed."""
    if not left:
        return not os.path.exists("journal.torn")
    line, _, kept = got("journal.torn").partition(b"\n")
    os.remove("journal.torn")
    return kept == left + b"\n" and line.endswith(b" record %d, %d bytes" % (number, len(left)))


def all_tried(kind, journals, wanted=None, edits=EDITS):
    """So many ways of one kind; how often each outcome came is printed. Where one is wanted, each is that one, or it is the last gate
    closed."""
    outcomes = {}
    for name, journal in journals:
        outcome = tried(journal, f"{kind} {name}", edits)
        outcomes[outcome] = outcomes.get(outcome, 0) + 1
        scene.check(f"{kind} {name}: as wanted", wanted is None or outcome == wanted, outcome)
    print(f"{kind}: " + ", ".join(f"{count} {outcome}" for outcome, count in sorted(outcomes.items())), flush=True)


# ---- ways of damage: each a name and the bytes

def turned(journal, at, byte):
    return journal[:at] + bytes([byte]) + journal[at + 1:]


def flipped(journal, first, mask):
    return [(str(at), turned(journal, at, journal[at] ^ mask)) for at in range(first, len(journal))]


def replaced(journal, byte, but=()):
    """Each byte as another, those at some places left out."""
    return [(str(at), turned(journal, at, byte)) for at in range(len(journal)) if journal[at] != byte and at not in but]


def scattered(journal, but):
    """Each byte as a random other one, but at that place not as a closed gate."""
    others = lambda at: [byte for byte in range(256) if byte != journal[at] and (at != but or byte != CLOSED[0])]
    return [(str(at), turned(journal, at, chance.choice(others(at)))) for at in range(len(journal))]


def zeroed(journal, count, places):
    """Zeros over so many bytes from each of these places."""
    return [(str(at), (journal[:at] + bytes(count))[:len(journal)] + journal[at + count:]) for at in places]


def cut(journal, first):
    return [(str(at), journal[:at]) for at in range(first, len(journal))]


def gates(journal):
    """Where each gate stands, the closed one at last."""
    texts, _, end = records(journal)
    places = [end]
    for text in reversed(texts):
        places.insert(0, places[0] - len(text) - 86)
    return places


def in_pairs(journal, of_gate, of_byte):
    """Each open gate and each byte of its record at once, each as it is told of what stands there; those of the last record apart."""
    places = gates(journal)
    found = [[], []]
    for number, (gate, end) in enumerate(zip(places, places[1:])):
        for at in range(gate + 1, end):
            damaged = turned(turned(journal, gate, of_gate(journal[gate])), at, of_byte(journal[at]))
            found[number == len(places) - 2].append((f"{gate} and {at}", damaged))
    return found


def mixed(journal, other):
    """The front of one journal up to each place, and what the other one has from there on."""
    return [(str(at), journal[:at] + other[at:]) for at in range(len(journal) + 1)]


# ---- all

def whole():
    """A journal of three records, up to its closed gate, and how many zeros stand behind it."""
    put("site.toml", OWNER)
    server = started()
    begun = got("journal")
    texts, front = read(begun)
    scene.check("a journal is begun", texts == [] and is_opened(begun, front) and not os.path.exists("journal.new"), len(begun))
    for path, text in EDITS:
        scene.check(f"a PUT of {path}", ask(path, "PUT", text)[0] == 201)
    journal = got("journal")
    texts, front = read(journal)
    scene.check("three records", len(texts) == 3 and is_opened(journal, front), texts)
    client = Client(PORT, "tok")
    client.ask("/page/a.md")
    refused("journal in use", "a second server")
    scene.check("the first one goes on", client.ask("/page/a.md")[0] == 200)
    server.kill()
    scene.check("a kill leaves the file", is_opened(got("journal"), front))
    all_tried("whole", [("", front), ("with its zeros", journal)], "3 records")
    return front, len(journal) - len(front)


def damaged(journal):
    """One place at a time: each is refused, the last gate too, but where it becomes a closed one."""
    _, last, _ = records(journal)
    all_tried("lowest bit turned at", flipped(journal, 0, 1), "refused")
    all_tried("all bits turned at", flipped(journal, 0, 255), "refused")
    all_tried("00 at", replaced(journal, 0), "refused")
    all_tried("ff at", replaced(journal, OPEN[0]), "refused")
    all_tried("f0 at", replaced(journal, CLOSED[0], but=(last,)), "refused")
    all_tried("last gate closed", [("", turned(journal, last, CLOSED[0]))], "torn")
    all_tried("another byte at", scattered(journal, last), "refused")
    all_tried("truncated to", cut(journal, 0), "refused")
    for count in (2, 40, 512):
        all_tried(f"{count} zeros from", zeroed(journal, count, range(len(journal))), "refused")
    all_tried("zeros behind it", [(str(count), journal + bytes(count)) for count in (1, 100, 5000)], "3 records")


def damaged_twice(journal):
    """A gate and a byte of its record: refused, but where the last gate is closed, and what stands behind it is no open one."""
    ways = {"closed and its lowest bit turned": (lambda _: CLOSED[0], lambda byte: byte ^ 1), "00 and 00": (lambda _: 0, lambda _: 0),
            "closed and ff": (lambda _: CLOSED[0], lambda _: OPEN[0]), "turned and turned": (lambda byte: byte ^ 1, lambda byte: byte ^ 1),
            "closed and f0": (lambda _: CLOSED[0], lambda _: CLOSED[0]),
            "random and random": (lambda _: chance.randrange(240), lambda byte: byte ^ chance.randint(1, 127))}
    for name, (of_gate, of_byte) in ways.items():
        before, last = in_pairs(journal, of_gate, of_byte)
        all_tried(f"{name} at", before, "refused")
        is_shut = name.startswith("closed") and "ff" not in name
        all_tried(f"{name} in the last record at", last, "torn" if is_shut else "refused")


def blocks():
    """Zeros over each block of a longer journal, from each place that a disk has and from others."""
    edits = [(f"{number}.md", chance.choice("abcdefgh") * length) for number, length in enumerate((5_000, 30, 700, 9_000, 1))]
    journal = written([f"put {path} - {text}\n".encode() for path, text in edits])
    all_tried("a longer one", [("", journal)], "5 records", edits)
    for count in (512, 4096):
        places = sorted({*range(0, len(journal), count), *range(0, len(journal), 61)})
        all_tried(f"{count} zeros of {len(journal)} bytes from", zeroed(journal, count, places), "refused", edits)


def torn_records(journal):
    """A last record behind a closed gate, in each way in which a crash may leave it, and in others."""
    _, last, _ = records(journal)
    closed = turned(journal, last, CLOSED[0])
    two = [("truncated to " + str(last + 1), closed[:last + 1])]
    all_tried("last gate closed,", two, "2 records")
    all_tried("last gate closed, truncated to", cut(closed, last + 2) + [("all", closed)], "torn")
    all_tried("last gate closed, lowest bit turned at", flipped(closed, last + 1, 1), "torn")
    all_tried("last gate closed, ff at", [(str(at), turned(closed, at, OPEN[0])) for at in range(last + 1, len(closed))], "refused")
    all_tried("last gate closed, an open one behind it", [("", closed + OPEN)], "refused")
    parts = [(f"{from_} to {to}", closed[:from_] + bytes(to - from_) + closed[to:])
             for from_ in range(last + 1, len(closed), 9) for to in range(from_ + 9, len(closed), 31)]
    all_tried("last gate closed, 00 over", parts, "torn")


def pieces(journal, texts):
    """Of another journal with the same edits, of one with others, and of itself."""
    _, last, _ = records(journal)
    other, longer = written(texts, b"1" * 32), written([*texts, b"put d.md - Fourth.\n"], b"2" * 32)
    all_tried("from another journal behind", mixed(journal, other))
    all_tried("from a longer one behind", mixed(journal, longer))
    all_tried("its records in the other", [("", other[:55] + journal[55:]), ("behind two", other[:last] + journal[last:])], "refused")
    all_tried("another behind it", [("whole", journal + other), ("its records", journal + other[55:])], "refused")
    all_tried("another's header behind it", [("", journal + other[:55])], "torn")
    places = gates(journal)
    spans = [(from_, to) for number, from_ in enumerate(places) for to in places[number + 1:]]
    all_tried("without its records from", [(f"{from_} to {to}", journal[:from_] + journal[to:]) for from_, to in spans if to < places[-1]],
              "refused")
    all_tried("twice its records from", [(f"{from_} to {to}", journal[:to] + journal[from_:]) for from_, to in spans], "refused")
    all_tried("without its last records", [(str(at), journal[:at] + CLOSED) for at in places[:-1]])
    all_tried("closed earlier", [(str(at), turned(journal, at, CLOSED[0])) for at in places[:-2]], "refused")


def reserve(journal, zeros):
    """Some places of the zeros behind a journal, where a new one has them: an open gate is refused, anything else is told and zeroed."""
    for count in sorted({5_000, zeros} - {0}):
        behind, places = journal + bytes(count), (0, 1, 511, 4_097, count // 2, count - 1)
        at_each = lambda byte: [(str(at), turned(behind, len(journal) + at, byte)) for at in places]
        all_tried(f"an open gate in {count} zeros at", at_each(OPEN[0]), "refused")
        for byte in (CLOSED[0], 1, ord("a")):
            all_tried(f"{byte:02x} in {count} zeros at", at_each(byte), "torn")
        all_tried(f"of {count} zeros only", [(str(at), behind[:len(journal) + at]) for at in (*places, count)], "3 records")


def others(journal):
    """Files that are no journals: each keeps its bytes."""
    files = {"a text": b"# A text\n\nof two lines.\n", "an icon": ICO, "an executable": got(scene.program)[:300_000], "an empty file": b"",
             "a 0": b"\0", "a 1": b"\x01", "a closed gate": CLOSED, "an open gate": OPEN, "an end": journal[1:], "zeros": bytes(5_000),
             "a line": b"docs_server journal 2 " + b"\n", "upper case": journal[:22] + b"A" * 32 + journal[54:],
             "another form": journal.replace(b"journal 2", b"journal 3")}
    all_tried("no journal,", files.items(), "refused")
    put("journal", written([b"put a.md - First.\n", b"no edit\n"]))
    refused("bad journal record 2", "a record that is no edit")
    put("journal", written([b"put a.md - First.\n", b"move b.md c.md\n"]))
    refused("journal record 2 refused, line 1", "a move of no page")
    all_tried("a removal of no page", [("", written([b"put a.md - First.\n", b"remove b.md\n"]))], "2 records", EDITS[:1])


def converted(texts):
    """A journal of version 1 is refused by `listen`, and becomes one of now by `compact`."""
    old = written_first(texts)
    put("journal", old)
    refused("journal of version 1", "version 1")
    done = subprocess.run([scene.program, "compact", "site.toml", "--journal", "journal"], capture_output=True)
    scene.check("version 1 is compacted", done.returncode == 0, done)
    scene.check("its edits are there", b"".join(read(got("journal"))[0]) == b"".join(read_first(old)))
    server = started()
    serves(EDITS, "version 1, compacted")
    scene.ends(server, "version 1, compacted")


def main():
    journal, zeros = whole()
    texts, _ = read(journal)
    others(journal)
    damaged(journal)
    damaged_twice(journal)
    torn_records(journal)
    pieces(journal, texts)
    blocks()
    reserve(journal, zeros)
    converted(texts)


scene.run(main)
