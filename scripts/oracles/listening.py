"""What the peers of a server over TCP hear, and what its journal has: an outside expectation for `doc_server_serving` and what it stands on.

Replies are those of replies.py, over pages of plain paragraphs; the journal is written and read by journals.py. What the server does with
streams is by docs/RUNNING.md: a peer is read where it is owed nothing, one that was sent its last reply is told the end, one too many
waits, one that is silent for too long is let go, and where the journal can't be written nobody hears of the edit. A server that begins
with the journal that another left has the pages of its edits. One whose journal has no reserve refuses puts. What a journal in memory
makes of its room is by journals.py.

    python3 scripts/oracles/listening.py

writes its lines into stdin and stdout of crates/trial_site.
"""

import re

import journals
from replies import REASONS, Hub, bytes_of
from trial_lines import debug, fnv, write

READERS = {"tok-owner": None, "tok-ann": {"staff"}, "tok-bob": {"ops"}}
OWNER, ANN, BOB = READERS
FULL = 10**6  # more calls than a journal of these lines makes
AMPLE = 10**9  # more bytes than one has
LONG = 2_000  # longer ones are told by their number of bytes and FNV-1a


def told(data):
    try:
        text = data.decode()
    except UnicodeDecodeError:
        text = None
    return f"{len(data)} bytes, {fnv(data):016x}" if text is None or len(data) > LONG else debug(text)


def given(text):
    return text.replace("\\", "\\\\").replace("\n", "\\n").replace("\r", "\\r")


def closing(reply):
    """A reply behind which the connection closes."""
    head, body = reply.split("\r\n\r\n", 1)
    return f"{head}\r\nConnection: close\r\n\r\n{body}"


def fault(code):
    body = f"{code} {REASONS[code]}\n"
    head = f"HTTP/1.1 {code} {REASONS[code]}\r\nContent-Type: text/plain; charset=utf-8\r\nContent-Length: {len(body)}\r\n"
    return closing(head + "\r\n" + body)


REASONS[413] = "Content Too Large"
REASONS[507] = "Insufficient Storage"


class NoRoom(Exception):
    pass


class BoundedHub(Hub):
    """A hub that may be told to take no puts: the pages stay as they are."""

    takes_puts = True

    def put(self, path, groups, text):
        if not self.takes_puts:
            raise NoRoom
        return super().put(path, groups, text)

    def answer(self, token, method, target, body):
        try:
            return super().answer(token, method, target, body)
        except NoRoom:
            return 507, False, "", ""


class Server:
    """A server, and what each of its peers has still to hear. `edits` are those of the journal that it begins with, which is the one that
    the server before has left, `bare` without the zeros behind it. Its file isn't grown past `most` bytes."""

    def __init__(self, what, connections, idle=1_000, calls=FULL, edits=None, most=AMPLE, bare=False):
        begun = f"server {connections} {idle} {calls} {most}{'' if edits is None else ' bare' if bare else ' again'}"
        self.lines = [f"# {what}", (begun, "()" if calls >= journals.BEGIN_CALLS else "no server")]
        self.hub, self.peers, self.owed, self.edits = BoundedHub(), 0, {}, []
        self.hub.readers = dict(READERS)
        for edit in edits or []:
            self.make(edit)
        self.hub.takes_puts = most - self.front() >= journals.RESERVE

    def front(self):
        """How many bytes its journal has up to the closed gate, with it."""
        return len(journals.written([edit.encode() for edit in self.edits]))

    def make(self, edit):
        """Makes an edit of the journal that the server begins with."""
        name, path, *rest = edit.removesuffix("\n").split(" ", 3)
        self.edits.append(edit)
        if name == "put":
            self.hub.put(path, rest[0].replace("-", ""), re.sub(r"\\(.)", lambda m: {"n": "\n"}.get(m[1], m[1]), rest[1]))
        else:
            self.hub.remove(path)

    def note(self, text):
        self.lines.append(f"# {text}")

    def call(self, call, answer="()"):
        self.lines.append((call, answer))

    def open(self):
        self.peers += 1
        self.owed[self.peers] = []
        self.call("open", str(self.peers))
        return self.peers

    def owe(self, peer, *requests):
        """The peer has still to hear the replies to these requests."""
        self.owed[peer] += [(request[1], self.answer(*request)) for request in requests]

    def answer(self, token, method, target, body=""):
        """The reply to a request, and its edit is noted."""
        reply = self.hub.reply(token, method, target, body)
        if method in ("PUT", "DELETE") and reply.split(" ")[1] in ("201", "204"):
            path, _, groups = target.removeprefix("/page/").partition("?groups=")
            text = body.replace("\\", "\\\\").replace("\n", "\\n")
            self.edits.append(f"put {path} {groups or '-'} {text}\n" if method == "PUT" else f"remove {path}\n")
        return reply

    def ask(self, peer, *requests, call="send"):
        """Requests by one write or byte by byte, and then their replies."""
        self.call(f"{call} {peer} " + given("".join(bytes_of(*request) for request in requests)))
        self.owe(peer, *requests)
        self.hear(peer)

    def hear(self, peer):
        """All replies that it has still to hear. Where the last one is to HEAD, they are waited for by the number of their heads."""
        owed, self.owed[peer] = self.owed[peer], []
        text = "".join(reply for _, reply in owed)
        assert "HEAD" not in [method for method, _ in owed[:-1]] and text.count("\r\n\r\n") == len(owed)
        self.call(f"{'heads' if owed[-1][0] == 'HEAD' else 'hear'} {peer} {len(owed)}", told(text.encode()))

    def hear_nothing(self, peer):
        """What has come is heard, without a turn."""
        self.call(f"hear {peer} 0", told(b""))

    def last(self, peer, text, reply):
        """What ends the stream, with the last reply."""
        self.call(f"send {peer} {given(text)}")
        self.call(f"end {peer}", told(reply.encode()) + " end")

    def journal(self, calls=("records",), zeros=0):
        """What is told of the journal's file, with so many zeros behind it."""
        file = journals.written([edit.encode() for edit in self.edits])
        for call in calls:
            self.call(call, journal_told(call, file, zeros))


def reading(file):
    try:
        return f"Ok({len(journals.read(file)[0])})"
    except journals.Damaged as damaged:
        return f"Err(Damaged({damaged.number}))"
    except journals.Refused:
        return "Err(NoJournal)"


def rooms():
    """What journals in memory make of their room, by journals.py."""
    return ["# Room for a record of `remove a`, and the record, twice: in a new file that isn't grown past so many bytes.",
            ("bounds", in_a_row(journals.rooms(most=most) for most in range(56 + 2 * 95 + 4))),
            "# In a file that isn't grown, with so many zeros behind the closed gate.",
            ("zeros", in_a_row(journals.rooms(zeros=zeros, most=0) for zeros in range(2 * 95 + 4))),
            "# In a new file of which so many calls go well.",
            ("faults", in_a_row(journals.rooms(calls=calls, most=1_000) for calls in range(16)))]


def in_a_row(outcomes):
    out, last, count = "", None, 0
    for outcome in [*outcomes, None]:
        if outcome != last and last is not None:
            out += f"{'; ' if out else ''}{last} {count}"
        last, count = outcome, count + 1 if outcome == last else 1
    return out


def journal_told(call, file, zeros=0):
    """What is told of a file of these bytes, with so many zeros behind them."""
    if call == "file":
        return f"({len(file)}, {zeros})"
    if call == "records":
        return told(b"".join(journals.read(file)[0]))
    if call == "cuts":
        return in_a_row(reading(file[:length]) for length in range(len(file) + 1))
    return in_a_row(reading(file[:at] + bytes([file[at] ^ 1]) + file[at + 1:]) for at in range(len(file)))


def readers():
    s = Server("Three readers on connections of their own.", 12)
    owner, ann, bob = s.open(), s.open(), s.open()
    s.ask(owner, (OWNER, "PUT", "/page/a.md?groups=staff", "Hello\n"))
    s.ask(owner, (OWNER, "PUT", "/page/c.md?groups=ops,qa", "One & two.\n\nThree\\four\n"))
    for peer, token in ((owner, OWNER), (ann, ANN), (bob, BOB)):
        for path in ("a.md", "c.md", "absent.md"):
            s.ask(peer, (token, "GET", f"/page/{path}"))
    refused(s, ann)
    edited(s, owner, ann, bob)
    in_parts(s, owner, ann, bob)
    half = half_way(s, ann)
    ended(s, ann, half)
    s.call("fault", "None")
    s.note("The journal has the edits.")
    s.journal()
    return s.lines + after(s)


def refused(s, ann):
    s.note("Other refusals, and HEAD.")
    s.ask(ann, ("tok-none", "GET", "/page/a.md"))
    s.ask(ann, (ANN, "GET", "/nothing"))
    s.ask(ann, (ANN, "POST", "/page/a.md"))
    s.ask(ann, (ANN, "PUT", "/page/a.md", "mine"))
    s.ask(ann, (ANN, "HEAD", "/page/a.md"))
    s.ask(ann, (ANN, "HEAD", "/page/c.md"))


def edited(s, owner, ann, bob):
    s.note("A PUT and a DELETE, and what the others see then.")
    s.ask(owner, (OWNER, "PUT", "/page/a.md?groups=ops", "Anew\n"))
    s.ask(ann, (ANN, "GET", "/page/a.md"))
    s.ask(bob, (BOB, "GET", "/page/a.md"))
    s.ask(owner, (OWNER, "DELETE", "/page/c.md"))
    s.ask(bob, (BOB, "GET", "/page/c.md"))
    s.ask(bob, (BOB, "GET", "/contents"))


def in_parts(s, owner, ann, bob):
    s.note("Several requests by one write; one byte by byte.")
    s.ask(owner, (OWNER, "PUT", "/page/b.md?groups=staff", "first"), (OWNER, "GET", "/page/b.md"), (OWNER, "DELETE", "/page/b.md"),
          (OWNER, "GET", "/page/b.md"), (OWNER, "PUT", "/page/b.md?groups=staff", "again"), (OWNER, "HEAD", "/page/b.md"))
    s.ask(ann, (ANN, "GET", "/page/b.md"), (ANN, "GET", "/page/a.md"), (ANN, "GET", "/page/b.md"))
    s.ask(bob, (BOB, "GET", "/page/a.md"), call="drip")
    s.ask(owner, (OWNER, "PUT", "/page/drop.md", "drop by drop"), call="drip")


def half_way(s, ann):
    """The peer that waits half-way, and then gets its reply."""
    s.note("One that goes away half-way holds up nobody, nor does one that waits half-way.")
    gone = s.open()
    s.call(f"send {gone} " + given(bytes_of(ANN, "GET", "/page/b.md")[:40]))
    s.call(f"close {gone}")
    half = s.open()
    request = bytes_of(ANN, "GET", "/page/b.md")
    s.call(f"send {half} " + given(request[:40]))
    s.ask(ann, (ANN, "GET", "/page/b.md"))
    s.hear_nothing(half)
    s.call(f"send {half} " + given(request[40:]))
    s.owe(half, (ANN, "GET", "/page/b.md"))
    s.hear(half)
    return half


def ended(s, ann, half):
    s.note("A fault, HTTP/1.0 and `close` end the stream behind the reply.")
    get = bytes_of(ANN, "GET", "/page/b.md")
    page = s.answer(ANN, "GET", "/page/b.md")
    s.last(s.open(), "PUT /page/a.md HTTP/1.1\r\nHost: h\r\nContent-Length: 1048577\r\n\r\n", fault(413))
    s.last(s.open(), "GET /page/a.md HTTP/1.1\nHost: h\n\n" + "\r\n\r\n" + get, fault(400))
    s.last(s.open(), get.replace("HTTP/1.1", "HTTP/1.0") + get, closing(page))
    s.last(s.open(), get.replace("Host: h", "Host: h\r\nConnection: close") + get, closing(page))
    s.last(half, get + "GET /page/a.md HTTP/1.1\r\n\r\n", page + fault(400))
    s.ask(ann, (ANN, "GET", "/page/b.md"))


def after(before):
    """What the readers see once the journal is read anew, and again once one more edit was made."""
    s = Server("A server that begins with that journal has its pages.", 4, edits=before.edits)
    owner, ann, bob = s.open(), s.open(), s.open()
    for peer, token in ((owner, OWNER), (ann, ANN), (bob, BOB)):
        for path in ("a.md", "b.md", "c.md", "drop.md"):
            s.ask(peer, (token, "GET", f"/page/{path}"))
    s.ask(owner, (OWNER, "DELETE", "/page/a.md"))
    s.journal()
    t = Server("And so has the next one.", 4, edits=s.edits)
    bob = t.open()
    t.ask(bob, (BOB, "GET", "/page/a.md"))
    t.journal()
    return ["", *s.lines, "", *t.lines]


def bound():
    s = Server("Two connections at most: the third and the fourth wait until another goes.", 2)
    peers = [s.open() for _ in range(4)]
    for peer in peers:
        s.call(f"send {peer} " + given(bytes_of(OWNER, "GET", "/nothing")))
        s.owe(peer, (OWNER, "GET", "/nothing"))
    s.hear(peers[0])
    s.hear(peers[1])
    s.call("turns 2")
    s.hear_nothing(peers[2])
    s.hear_nothing(peers[3])
    s.call(f"close {peers[0]}")
    s.hear(peers[2])
    s.call("turns 2")
    s.hear_nothing(peers[3])
    s.last(peers[1], "GET /nothing HTTP/1.1\r\n\r\n", fault(400))
    s.hear(peers[3])
    s.ask(peers[2], (OWNER, "GET", "/nothing"))
    return s.lines


def slow():
    s = Server("One that doesn't read holds up nobody, and hears all in the end.", 4)
    slow, other = s.open(), s.open()
    text, get = "x" * 65_536, bytes_of(OWNER, "GET", "/page/x.md")
    s.call(f"send {slow} " + given(bytes_of(OWNER, "PUT", "/page/x.md?groups=ops", text)).replace(text, "\\{65536 x}"))
    s.owe(slow, (OWNER, "PUT", "/page/x.md?groups=ops", text))
    s.hear(slow)
    s.call(f"send {slow} \\{{100 {given(get)}}}")
    s.owe(slow, *100 * [(OWNER, "GET", "/page/x.md")])
    s.ask(other, (OWNER, "HEAD", "/page/x.md"))
    s.ask(other, (OWNER, "PUT", "/page/y.md?groups=ops", "Meanwhile"))
    s.ask(other, (BOB, "GET", "/page/y.md"))
    s.hear(slow)
    s.note("More requests by one write than a turn answers.")
    s.call(f"send {other} \\{{300 {given(bytes_of(ANN, 'GET', '/page/x.md'))}}}")
    s.owe(other, *300 * [(ANN, "GET", "/page/x.md")])
    s.hear(other)
    s.journal()
    return s.lines


def silent():
    s = Server("After a second of silence a connection ends, also one that is half-way.", 4, idle=1)
    one, other = s.open(), s.open()
    s.call(f"send {other} " + given(bytes_of(OWNER, "GET", "/nothing")[:30]))
    s.call(f"end {one}", told(b"") + " end")
    s.call(f"end {other}", told(b"") + " end")
    return s.lines


def failing(calls):
    """A server whose journal's file fails in some call: a new one takes five of them, since it is read, written and synced, and gets its
    room and is synced, and each record six: it is written behind the gate and synced, the gate is opened and synced; and behind the
    replies the room that it took is added again and synced. A call that fails has done half: it is the last one."""
    s = Server(f"The journal's file fails behind {calls} calls.", 2, calls=calls)
    if calls < journals.BEGIN_CALLS:
        return s.lines
    peer, texts, room = s.open(), [], journals.RESERVE + journals.SPARE
    file, behind = journals.written([]), room
    for path in ("a", "b", "c"):
        request = (OWNER, "PUT", f"/page/{path}?groups=ops", path)
        well = calls - 6 * len(texts) - journals.BEGIN_CALLS
        if well < 4:
            s.call(f"send {peer} " + given(bytes_of(*request)))
            s.call(f"hear {peer} 1", told(b""))
            s.call("fault", "Some(CannotWrite)")
            s.answer(*request)
            file = left(texts, s.edits[-1].encode(), well)
            behind = room - (len(file) - len(journals.written(texts)))
            break
        s.ask(peer, request)
        texts.append(s.edits[-1].encode())
        took, file = len(journals.written(texts)) - len(file), journals.written(texts)
        behind = room - took + (took if well > 4 else took // 2)
        if well < 6:
            s.call("fault", "Some(CannotWrite)")
            break
    else:
        s.call("fault", "None")
    for call in ("records", "file") if calls not in (13, 23) else ("file", "records", "flips", "cuts"):
        s.call(call, journal_told(call, file, behind))
    t = Server("What was answered is there, and nothing in part.", 2, edits=[text.decode() for text in journals.read(file)[0]])
    peer = t.open()
    for path in ("a", "b", "c"):
        t.ask(peer, (OWNER, "GET", f"/page/{path}"))
    return [*s.lines, *t.lines]


def full():
    """Servers whose journal can't be grown to its reserve."""
    s = Server("A journal that can't be grown to its reserve: puts are refused, and nothing is written.", 2, most=56 + 5_000)
    owner = s.open()
    s.ask(owner, (OWNER, "PUT", "/page/a.md?groups=ops", "Hello\n"))
    s.ask(owner, (OWNER, "GET", "/page/a.md"), (OWNER, "DELETE", "/page/a.md"), (OWNER, "GET", "/contents"))
    s.journal(("file", "records"), 5_000)
    t = Server("The same without room: the file isn't grown by a byte less than it takes.", 2, most=56 + journals.RESERVE - 1)
    owner = t.open()
    t.ask(owner, (OWNER, "PUT", "/page/a.md?groups=ops", "Hello\n"))
    t.journal(("file",), journals.RESERVE - 1)
    u = Server("With just its reserve puts are taken, until one was made.", 2, most=56 + journals.RESERVE)
    owner = u.open()
    u.ask(owner, (OWNER, "PUT", "/page/a.md?groups=ops", "Hello\n"))
    u.hub.takes_puts = False
    u.ask(owner, (OWNER, "PUT", "/page/b.md?groups=ops", "Hello\n"), (BOB, "GET", "/page/a.md"), (BOB, "GET", "/page/b.md"))
    u.journal(("file", "records"), 56 + journals.RESERVE - u.front())
    return [*s.lines, "", *t.lines, "", *u.lines, "", *removed(u)]


def removed(before):
    """Servers over a journal whose zeros are lost, and which can't be grown by many; then by as many as it takes."""
    s = Server("An ample journal.", 2, edits=before.edits)
    owner = s.open()
    for path in ("b", "c", "d"):
        s.ask(owner, (OWNER, "PUT", f"/page/{path}.md?groups=ops", path))
    s.journal(("records",))
    t = Server("Without its zeros and with few instead: pages are read and removed, and not put.", 2, edits=s.edits, bare=True,
               most=s.front() + 3_000)
    owner, bob, most = t.open(), t.open(), s.front() + 3_000
    t.ask(bob, (BOB, "GET", "/page/a.md"), (BOB, "GET", "/page/d.md"))
    for path in ("a", "c"):
        t.ask(owner, (OWNER, "PUT", f"/page/{path}.md?groups=ops", "Anew"))
        t.ask(owner, (OWNER, "DELETE", f"/page/{path}.md"))
        t.ask(bob, (BOB, "GET", f"/page/{path}.md"), (BOB, "GET", "/page/b.md"))
    t.journal(("file", "records"), most - t.front())
    u = Server("The next one has room, and takes puts.", 2, edits=t.edits)
    owner, bob = u.open(), u.open()
    u.ask(owner, (OWNER, "PUT", "/page/e.md?groups=ops", "Room"))
    u.ask(bob, *((BOB, "GET", f"/page/{path}.md") for path in "abcde"))
    u.journal(("file", "records"), journals.RESERVE + journals.SPARE)
    return [*s.lines, "", *t.lines, "", *u.lines]


def left(texts, text, well):
    """What a journal's file holds where so many calls of a further record went well."""
    file = journals.written(texts)
    behind = journals.written([*texts, text])[len(file):]
    if well == 3:
        return journals.written([*texts, text])
    return file + (behind[: len(behind) // 2] if well == 0 else behind)


if __name__ == "__main__":
    parts = [rooms(), readers(), bound(), slow(), silent(), full(), *map(failing, (0, 3, *range(4, 12), 13, 16, 22, 23))]
    write("listening", [line for part in parts for line in [*part, ""]], "trial_site")
