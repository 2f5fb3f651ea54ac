"""Reads a journal by its rules, apart from the program: the outside model of scripts/listen/damage.py. And says what a journal makes of
its room, for the trials.

A journal is a header, `docs_server journal 2 ` with an identity of 32 hexadecimal digits and a line feed, then records, each behind an
open gate (0xFF), and a closed gate (0xF0). A record is text: the length of its lines in 8 hexadecimal digits, a space, the seconds since
1970 in 10, a line feed, the lines, and 64 hexadecimal digits of a SHA-256 with a line feed. The SHA-256 is over the digest of the record
before (of the first: that of the header), and all of the record in front of it. Behind the closed gate no open one stands. All else is
damage. `written_first` and `read_first` are of journals of version 1, which are only turned into such ones.
"""
import hashlib
import re

NAME = b"docs_server journal 2 "
OPEN, CLOSED = b"\xff", b"\xf0"
LIMIT = 8 * 1024 * 1024
HEADER = re.compile(rb"docs_server journal 2 [0-9a-f]{32}\n")
HEAD = re.compile(rb"([0-9a-f]{8}) [0-9a-f]{10}\n")
PLAIN = re.compile(rb"[\n -~]*")


class Refused(Exception):
    """What a program tells of a journal that it doesn't open."""


class Damaged(Refused):
    """The record of this number, counted from 1, is none, and there is no end in its place."""

    def __init__(self, number):
        super().__init__(f"journal record {number}")
        self.number = number


def header(identity):
    """The header of the journal of an identity, of 32 digits."""
    return NAME + identity + b"\n"


def record(before, text, seconds=0):
    """A record behind its gate, and its digest."""
    body = b"%08x %010x\n" % (len(text), seconds) + text
    digest = hashlib.sha256(before + body).digest()
    return body + digest.hex().encode() + b"\n", digest


def written(texts, identity=b"0" * 32, seconds=0):
    """The journal of these texts."""
    parts, digest = [header(identity)], hashlib.sha256(header(identity)).digest()
    for text in texts:
        bytes_of, digest = record(digest, text, seconds)
        parts += [OPEN, bytes_of]
    return b"".join(parts) + CLOSED


def first(before, rest):
    """The record that bytes begin with: its text, its length and its digest; or None."""
    head = HEAD.match(bytes(rest[:20]))
    if head is None:
        return None
    length = int(head[1], 16)
    if length > LIMIT or len(rest) < 20 + length + 65:
        return None
    text = bytes(rest[20:20 + length])
    digest = hashlib.sha256(before + head[0] + text).digest()
    if PLAIN.fullmatch(text) is None or bytes(rest[20 + length:20 + length + 65]) != digest.hex().encode() + b"\n":
        return None
    return text, 20 + length + 65, digest


def records(journal):
    """The texts of its records, where the last of them begins, and where the closed gate stands."""
    head = HEADER.match(journal)
    if head is None:
        raise Refused("journal of version 1" if is_first(journal) else "no journal")
    texts, digest, at, last = [], hashlib.sha256(head[0]).digest(), len(head[0]), None
    view = memoryview(journal)
    while journal[at:at + 1] == OPEN and (found := first(digest, view[at + 1:])) is not None:
        text, length, digest = found
        texts.append(text)
        last, at = at, at + 1 + length
    if journal[at:at + 1] != CLOSED or OPEN in journal[at + 1:]:
        raise Damaged(len(texts) + 1)
    return texts, at if last is None else last, at


def read(journal):
    """The texts of its records, and its bytes up to the closed gate, with it."""
    texts, _, at = records(journal)
    return texts, journal[:at + 1]


def is_opened(file, front):
    """Whether a file is what a start makes of a journal: what stood up to its closed gate, and behind it zeros alone."""
    return file[:len(front)] == front and not file[len(front):].strip(b"\0")


def torn(journal, front):
    """What stands behind the closed gate, up to the last byte that isn't 0."""
    return journal[len(front):].rstrip(b"\0")


# ---- room

# what a journal keeps behind its closed gate while puts are taken: the largest record and the removals of 10,000 pages; and beyond that
RESERVE = LIMIT + 128 + 10_000 * 1_024
SPARE = 4 * 1024 * 1024
# how many calls of a file a new journal takes: it is read, written and synced, and gets its room and is synced
BEGIN_CALLS = 5


class Fails(Exception):
    """A call of a file fails."""


class Device:
    """A file in memory, of which so many calls go well, and which isn't grown past so many bytes. A write that fails has written half of
    its bytes, and a growth half of its zeros. A write isn't refused for want of room."""

    def __init__(self, file=b"", calls=None, most=0):
        self.file, self.calls, self.most = file, calls, most

    def goes_well(self):
        if self.calls is None:
            return True
        self.calls -= 1
        return self.calls >= 0

    def touch(self):
        """It is read, or synced."""
        if not self.goes_well():
            raise Fails

    def write(self, at, data):
        well = self.goes_well()
        done = data if well else data[:len(data) // 2]
        self.file = self.file[:at] + done + self.file[at + len(done):]
        if not well:
            raise Fails

    def grow(self, count):
        count, well = min(count, max(0, self.most - len(self.file))), self.goes_well()
        self.file += bytes(count if well else count // 2)
        if not well:
            raise Fails


def rooms(zeros=None, calls=None, most=0, text=b"remove a\n", count=2):
    """A journal, a new one or one with so many zeros, makes room for a record of a text and takes it, so often or until there is no room.
    As the trial tells it: whether it made room for the last one, by how many bytes its file may still be grown, and how many records it
    has."""
    texts, identity = [], b"0" * 32
    device = Device(b"" if zeros is None else written([], identity) + bytes(zeros), calls, most)
    try:
        device.touch()
        if zeros is None:
            device.write(0, written([], identity))
            device.touch()
        has = True
        while has and len(texts) < count:
            front = written(texts, identity)
            record = written([*texts, text], identity)[len(front):]
            lacks = len(front) + len(record) - len(device.file)
            if lacks > 0:
                device.grow(lacks)
                device.touch()
            has = len(front) + len(record) <= len(device.file)
            if has:
                for at, data in ((len(front), record), (len(front) - 1, OPEN)):
                    device.write(at, data)
                    device.touch()
                texts.append(text)
        has = f"Some({str(has).lower()})"
    except Fails:
        has = "None"
    try:
        found = f"Ok({len(read(device.file)[0])})"
    except Refused as fault:
        found = f"Err(Damaged({fault.number}))" if isinstance(fault, Damaged) else "Err(NoJournal)"
    return f"{has} {max(0, most - len(device.file))} {found}"


# ---- version 1

FIRST_SEED = hashlib.sha256(b"docs_server journal 1").digest()
FIRST_LIMIT = 16 * 1024 * 1024


def first_record(before, text):
    length = len(text).to_bytes(4, "little")
    digest = hashlib.sha256(before + length + text).digest()
    return length + text + digest, digest


def written_first(texts):
    """The journal of version 1 of these texts."""
    parts, digest = [], FIRST_SEED
    for text in texts:
        bytes_of, digest = first_record(digest, text)
        parts += [b"\x01", bytes_of]
    return b"".join(parts) + b"\x00"


def first_at(before, rest):
    length = int.from_bytes(rest[:4], "little")
    if len(rest) < 36 or length > FIRST_LIMIT or len(rest) < 36 + length:
        return None
    text = bytes(rest[4:4 + length])
    bytes_of, _ = first_record(before, text)
    return text if rest[:len(bytes_of)] == bytes_of else None


def read_first(journal):
    """The texts of its records, or None where it is no whole journal of version 1: without records that is a gate alone."""
    texts, digest, at = [], FIRST_SEED, 0
    if journal[:1] not in (b"\x00", b"\x01"):
        return None
    if len(journal) == 1:
        return texts
    view = memoryview(journal)
    while journal[at:at + 1] == b"\x01" and (text := first_at(digest, view[at + 1:])) is not None:
        _, digest = first_record(digest, text)
        texts.append(text)
        at += 37 + len(text)
    tail = view[at + 1:]
    torn = first_at(digest, tail)
    is_end = journal[at:at + 1] == b"\x00" and (len(tail) <= FIRST_LIMIT + 37 if torn is None else len(tail) <= 36 + len(torn) + 1)
    return texts if is_end and texts else None


def is_first(journal):
    return read_first(journal) is not None
