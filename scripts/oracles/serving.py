"""What servers, turns and compactions in memory do: an outside expectation for `doc_server_serving`,
`doc_server_network` and `doc_server_compacting`.

Replies are those of replies.py. Each connection is worked out by itself: its peer is read where it is owed nothing, a piece at a time, and
each whole request is answered; a call moves as much as the peer's text says, and none behind the last that goes well. What a journal's file
holds is by journals.py, and what a compaction makes of it by docs/RUNNING.md.

    python3 scripts/oracles/serving.py

writes its lines into stdin and stdout of crates/trial_site.
"""

import re

import journals
from listening import ANN, BOB, OWNER, READERS, BoundedHub, fault, given, journal_told, told
from replies import Hub, bytes_of
from trial_lines import debug, write

READ = 16_384  # what a read gives at most
MUCH = 10**9  # more bytes and calls than one of these takes
WAITS = 5_000  # and more waits
SLICE = 2**20  # what a turn with edits adds to the room; eight times as much where it lacks the reserve
REMOVAL = 808 + 86  # the longest line of a removal, and what a record has beside its lines


class Peer:
    """A peer with its requests, or with a text and the replies to it, behind which the connection closes: what a read gives of it at most,
    and how much a write takes; how many calls go well, of which each second one alone moves bytes where it pauses; and whether it ends."""

    def __init__(self, *requests, piece=MUCH, budget=MUCH, calls=MUCH, ends=True, pauses=False, text=None, replies=()):
        self.requests, self.piece, self.budget, self.calls, self.ends, self.pauses = requests, piece, budget, calls, ends, pauses
        self.replies, self.input = list(replies), "".join(bytes_of(*request) for request in requests) if text is None else text
        assert " | " not in self.input and self.input.isascii()

    def line(self):
        way = f"{'ends' if self.ends else 'silent'}{'-pauses' * self.pauses}"
        if (self.piece, self.budget, self.calls, way) == (MUCH, MUCH, MUCH, "ends"):
            return f"plain {given(self.input)}"
        return f"peer {self.piece} {self.budget} {self.calls} {way} {given(self.input)}"

    def due(self, answer):
        """How much has come where a reply is due, and what makes it."""
        at = 0
        for reply in self.replies:
            yield self.input.index("\r\n\r\n") + 4, lambda reply=reply: reply
        for request in self.requests:
            at += len(bytes_of(*request))
            yield at, lambda request=request: answer(*request)

    def serve(self, answer):
        """What is told of it, and whether its place is free again."""
        due, owed, came, handed, answers, is_ended = list(self.due(answer)), [], 0, "", [], False
        left = self.calls // 2 if self.pauses else self.calls
        while left > 0 and not is_ended:
            left -= 1
            if owed and self.budget > 0:
                handed += owed[0][1][:self.budget]
                owed[0] = owed[0][0], owed[0][1][self.budget:]
                if not owed[0][1]:
                    answers.append(owed.pop(0)[0])
                    is_ended = bool(self.replies) and not due and not owed
            elif came < len(self.input) and not owed:
                came += min(self.piece, READ, len(self.input) - came)
                while due and due[0][0] <= came:
                    reply = due.pop(0)[1]()
                    owed.append((reply, reply))
            elif self.ends and not owed:
                is_ended = True
            elif self.calls == MUCH:
                return self.told(handed, came, answers), False
        came = len(self.input) if is_ended else came
        return self.told(handed, came, answers, is_ended, True), True

    def told(self, handed, came, answers, is_ended=False, is_closed=False):
        lacks = is_closed and len(answers) < self.input.count("\r\n\r\n")
        codes = "".join(f", {reply.split(' ')[1]} {len(reply)}" for reply in answers)
        much = "all" if came == len(self.input) else came
        return (f"{told(handed.encode())}{' ended' * is_ended}{' closed' * is_closed}{', let go' * lacks}; {much} came"
                f"{', left' * is_closed}{codes}")


def guests_told(guests, connections, answer):
    """What is told of each guest, of whom so many are served at once."""
    out, taken = [], 0
    for guest in guests:
        if isinstance(guest, str):
            out.append(guest)
        elif taken < connections:
            text, is_free = guest.serve(answer)
            out.append(text)
            taken += not is_free
        else:
            out.append("not accepted")
    return out


def host(what, *guests, connections=8, waits=WAITS, ended="served"):
    """A server without a journal and without pages."""
    hub = BoundedHub()
    hub.readers = dict(READERS)
    told_of = ["not accepted"] * len(guests) if waits < 2 else guests_told(guests, connections, hub.reply)
    lines = [guest if isinstance(guest, str) else guest.line() for guest in guests]
    return [f"# {what}", (" | ".join([f"host {waits} {connections}", *lines]), " | ".join([ended, *told_of]))]


PUT, GET = (OWNER, "PUT", "/page/a.md?groups=staff", "Hello\n"), (OWNER, "GET", "/page/a.md")
OTHER = (ANN, "GET", "/nothing")


def hosts():
    """Servers without a journal."""
    many = [(OWNER, "PUT", "/page/a.md?groups=ops", "One\n"), GET, (OWNER, "HEAD", "/page/a.md"), (ANN, "GET", "/page/a.md"),
            (BOB, "GET", "/page/a.md"), (BOB, "GET", "/contents"), (OWNER, "DELETE", "/page/a.md"), GET, ("tok-none", "GET", "/page/a.md")]
    bad = "GET /page/a.md HTTP/1.1\r\n\r\n"
    lines = host("Three peers, each with its replies.", Peer(*many), Peer(OTHER), Peer((BOB, "POST", "/contents"), OTHER))
    lines += host("A peer without a request, one with half of one, and one that goes on behind a fault: it isn't heard any more.",
                  Peer(), Peer(text=bytes_of(*OTHER)[:30]), Peer(text=bad + bytes_of(*OTHER), replies=[fault(400)]), Peer(OTHER))
    for piece, budget, pauses in ((1, MUCH, False), (1, 1, True), (7, 5, False), (64, 1, False), (MUCH, 3, True), (MUCH, MUCH, True)):
        lines += host(f"Reads give {piece} bytes at most, and writes take {budget}{'; each second call alone moves some' * pauses}.",
                      Peer(*many, piece=piece, budget=budget, pauses=pauses), Peer(OTHER, OTHER, piece=budget, budget=piece, pauses=pauses))
    lines += host("Peers that don't end: their connections stay. One that takes nothing holds up nobody.",
                  Peer(OTHER, ends=False), Peer(OTHER, budget=0), Peer(OTHER), Peer(text="", ends=False))
    lines += host("More requests at once than a turn answers, and than a read gives, and another peer beside it.",
                  Peer(*300 * [OTHER]), Peer(OTHER, OTHER))
    return lines + doors() + calls_fail(many)


def doors():
    """Who is accepted."""
    stays = Peer(OTHER, ends=False)
    lines = host("One has gone when it is accepted; for the last one there is no room.", Peer(OTHER), "leaves", Peer(OTHER), "leaves", "leaves",
                 Peer(OTHER), "waits")
    lines += host("One at a time: each is served in turn.", *4 * [Peer(OTHER)], connections=1)
    lines += host("The third place is free again and again, the others aren't.", stays, Peer(OTHER), stays, Peer(OTHER), Peer(OTHER),
                  connections=3)
    lines += host("The one place is taken.", stays, Peer(OTHER), connections=1)
    lines += host("There is no place.", Peer(OTHER), Peer(OTHER), connections=0)
    lines += host("Nobody is accepted in the turn in which standard input has ended.", Peer(OTHER), waits=1)
    return lines + host("The network can't be waited for.", Peer(OTHER), waits=0, ended="refused: the address can't be listened at")


def calls_fail(many):
    """A call on a connection fails, each in turn, while another peer is served."""
    lines = ["# So many calls on the first connection go well."]
    for calls in range(2 * 8):
        lines += host(f"{calls}.", Peer(*many[:2], piece=100, budget=60, calls=calls), Peer(OTHER))[1:]
    lines += ["# The same where each second call alone moves bytes."]
    for calls in range(0, 4 * 8, 3):
        lines += host(f"{calls}.", Peer(*many[:2], piece=100, budget=60, calls=calls, pauses=True), Peer(OTHER, pauses=True))[1:]
    return lines


class Saved:
    """A hub whose edits are saved in a file in memory, by journals.py: of which so many calls go well, and which isn't grown past so many
    bytes. A new journal is read, written and synced; one that is opened is read and synced, and its end is written again and synced; room
    is added and synced, and a record is written, synced, opened and synced."""

    def __init__(self, file=b"", calls=MUCH, most=MUCH):
        self.hub, self.texts, self.lines, self.config = BoundedHub(), [], b"", b""
        self.hub.readers = dict(READERS)
        self.device = journals.Device(file, calls, most)
        self.texts, last, end = journals.records(file) if file else ([], 0, -1)
        for text in self.texts:
            for line in text.decode().splitlines():
                make(self.hub, line)
        self.is_begun = self.goes(lambda: self.begin(last, end))

    def begin(self, last, end):
        again = self.device.file[last:end + 1] if self.device.file else journals.written([])
        self.device.touch()
        if self.device.file:
            self.device.touch()
            again += bytes(self.room())
        self.device.write(last, again)
        self.device.touch()

    def goes(self, calls):
        try:
            calls()
        except journals.Fails:
            return False
        return True

    def front(self):
        return journals.written(self.texts)

    def room(self):
        return len(self.device.file) - len(self.front())

    def see_to_room(self, more=None):
        """Adds to the room, as behind a turn."""
        lacks = self.room() < journals.RESERVE
        target = min(self.room() + (more or (8 * SLICE if lacks else SLICE)), journals.RESERVE + journals.SPARE)
        if target > self.room():
            self.device.grow(target - self.room())
            self.device.touch()
        self.hub.takes_puts = self.room() >= journals.RESERVE

    def answer(self, token, method, target, body=""):
        """The reply to a request, whose edit waits to be settled."""
        reply = self.hub.reply(token, method, target, body)
        if method in ("PUT", "DELETE") and reply.split(" ")[1] in ("201", "204"):
            self.lines += line_of_edit(method, target, body).encode()
        return reply

    def settle(self):
        if not self.lines:
            return
        end, lines, self.lines = len(self.front()), self.lines, b""
        record = journals.written([*self.texts, lines])[end:]
        for at, data in ((end, record), (end - 1, journals.OPEN)):
            self.device.write(at, data)
            self.device.touch()
        self.texts.append(lines)

    def takes_step(self):
        """Whether there is room for one more edit: the reserve, or the line of a removal beside those that wait."""
        return self.room() >= journals.RESERVE if self.hub.takes_puts else len(self.lines) + REMOVAL <= self.room()


def make(hub, line):
    """Makes an edit of a journal."""
    name, path, *rest = line.split(" ", 3)
    if name == "put":
        hub.put(path, rest[0].replace("-", ""), re.sub(r"\\(.)", lambda m: {"n": "\n"}.get(m[1], m[1]), rest[1]))
    elif name == "move":
        hub.move(path, rest[0])
    else:
        hub.remove(path)


def line_of_edit(method, target, body):
    path, _, groups = target.removeprefix("/page/").partition("?groups=")
    text = body.replace("\\", "\\\\").replace("\n", "\\n")
    return f"put {path} {groups or '-'} {text}\n" if method == "PUT" else f"remove {path}\n"


def holds(file):
    """The call that has the file hold these bytes."""
    def part(m):
        if len(m[0]) > 40 and m[0][0] == 0:
            return f"\\{{{len(m[0])} \\\\x00}}"
        return "".join(chr(b) if 32 <= b < 127 and b != 92 else "\\n" if b == 10 else "\\\\" if b == 92 else f"\\\\x{b:02x}" for b in m[0])

    return "holds " + "".join(part(m) for m in re.finditer(rb"\0+|[^\0]+", file, re.S)), "()"


def served(saved, calls, most, *guests):
    """A server with the journal of a file, whose guests are served in one turn, if at all."""
    lines = [f"serve {WAITS} 8 1000 {calls} {most}", *(guest.line() for guest in guests)]
    if not saved.is_begun:
        return [(" | ".join(lines), "refused: no journal")]
    out = []
    if not saved.goes(lambda: saved.see_to_room(journals.RESERVE + journals.SPARE)):
        out = ["refused: cannot write", *["not accepted"] * len(guests)]
    else:
        before = saved.texts[:]
        replies = [[saved.answer(*request) for request in guest.requests] for guest in guests]
        settled = saved.goes(saved.settle)
        going = settled and (saved.texts == before or saved.goes(saved.see_to_room))
        for guest, of_guest in zip(guests, replies):
            answers = of_guest if settled else []
            out.append(guest.told("".join(answers), len(guest.input), answers, going, going))
        out.insert(0, "served" if going else "refused: cannot write")
    return [(" | ".join(lines), " | ".join(out))]


def of_file(saved, calls=("file", "records")):
    return [(call, journal_told(call, saved.front(), saved.room())) for call in calls]


PAGES = [b"put a.md staff One\nput b.md ops,staff Two\n", b"put c.md ops Three\n"]


def serves():
    """Servers with a journal: as many calls of the file go well, and it has room for removals alone."""
    delete, other = Peer((OWNER, "DELETE", "/page/a.md")), Peer((ANN, "GET", "/page/b.md"))
    file = journals.written(PAGES)
    lines = ["# So many calls of the file go well, whose journal has room for removals and not for puts. One peer removes a page, another reads."]
    for calls in range(13):
        saved = Saved(file, calls, len(file) + 3_000)
        lines += [f"# {calls}.", holds(file), *served(saved, calls, len(file) + 3_000, delete, other)]
        lines += left_of(saved)
    put = Peer((OWNER, "PUT", "/page/a.md?groups=ops", "Anew"), (OWNER, "PUT", "/page/d.md?groups=staff", "Four"))
    lines += ["# The same of a new journal that has its reserve. One peer puts two pages, of which both are kept or none."]
    for calls in range(2, 12):
        saved = Saved(b"", calls)
        lines += [f"# {calls}.", holds(b""), *served(saved, calls, MUCH, put, Peer((ANN, "GET", "/page/none.md"))), *left_of(saved)]
    return lines


def left_of(saved):
    """What the file has been left with, and what a server with ample calls then tells of the pages."""
    if not saved.is_begun and not saved.texts:
        return [("records", "no journal")]
    file = saved.device.file
    again = Saved(file, most=len(file) + 3_000)
    asks = Peer(*((OWNER, "GET", f"/page/{path}.md") for path in "abcd"))
    return [("records", told(b"".join(again.texts))), *served(again, MUCH, len(file) + 3_000, asks)]


class Reload:
    """The pages of a configuration that are loaded between two turns."""

    def __init__(self, config):
        self.config = config

    def __str__(self):
        return f"reload {self.config.decode()}"

    def made(self, saved):
        """What is told of it: how many pages it has put and removed, with how many records, or why it is refused."""
        old, new = Site(saved.config + b"".join(saved.texts)), Site()
        if not all(map(new.make, self.config.decode().splitlines())):
            return "no pages"
        for record, text in enumerate(saved.texts, 1):
            for line, edit in enumerate(text.decode().splitlines(), 1):
                if not new.make(edit):
                    return f"refused: journal record {record} refused, line {line}"
        if (len(new.pages) + 1) * REMOVAL > saved.room():
            return "refused: journal is full"
        stays = {path for path in new.pages if path in old.pages and old.of(path)[1] == new.of(path)[1]}
        saved.config, saved.hub.pages = self.config, {}
        for path, (groups, text) in new.pages.items():
            Hub.put(saved.hub, path, ",".join(groups), text)
            saved.hub.pages[path].aliases = set(new.of(path)[1])
        return (f"{sum(old.of(path) != new.of(path) for path in new.pages)} put, {len(old.pages.keys() - stays)} removed, "
                f"{len(saved.texts)} records")


def turns(saved, calls, most, *texts):
    """Turns of one connection: each is a list of requests, or a text without a whole one. A reload may stand between two."""
    whole = ["".join(bytes_of(*request) for request in text) if isinstance(text, list) else str(text) for text in texts]
    call = " | ".join([f"turns {calls} {most}", *map(given, whole)])
    if not saved.is_begun:
        return [(call, "refused: no journal")]
    out, waiting, unread = "", [], 0
    for text, size in zip(texts, map(len, whole)):
        if isinstance(text, Reload):
            out += f"{text.made(saved)} | "
            continue
        if unread + size > BACKLOG:
            return [(call, out + "refused: too many unread bytes")]
        waiting, unread, replies = waiting + (text if isinstance(text, list) else []), unread + size, ""
        while waiting and saved.takes_step():
            request = waiting.pop(0)
            replies += saved.answer(*request)
            unread -= len(bytes_of(*request))
        has_room = saved.takes_step()
        out += f"{'' if has_room else 'no room '}{told(replies.encode())} {unread}"
        if not saved.goes(saved.settle):
            return [(call, out + "; refused to settle: cannot write")]
        if not saved.goes(saved.see_to_room):
            return [(call, out + "; refused the room: cannot write")]
        removes = (len(saved.hub.pages) + 1) * REMOVAL <= saved.room()
        out += f"; {str(saved.hub.takes_puts).lower()} {saved.room()} {str(removes).lower()} | "
    return [(call, out + "true")]


BACKLOG = 4_194_304  # how many bytes may be unread


def saves():
    """A hub that is saved, by its calls."""
    put, get, delete = (OWNER, "PUT", "/page/x.md?groups=ops", "Text\n"), (OWNER, "GET", "/page/x.md"), (OWNER, "DELETE", "/page/x.md")
    saved = Saved()
    lines = ["# A new journal has no room for a step. It grows turn by turn: puts are refused until it has its reserve.", holds(b"")]
    lines += turns(saved, MUCH, MUCH, [put, get], [put], [], [put, put], [get], [get, delete, put], "GET /contents", [])
    lines += of_file(saved)
    file = journals.written(PAGES)
    lines += ["# So many zeros behind the closed gate, and no more: a step is made where they take the removal of a page."]
    for zeros in (0, REMOVAL - 1, REMOVAL, 4 * REMOVAL - 1, 4 * REMOVAL):
        saved = Saved(file + bytes(zeros), most=0)
        lines += [holds(file + bytes(zeros)),
                  *turns(saved, MUCH, 0, [], [(OWNER, "DELETE", "/page/a.md")], [(OWNER, "GET", "/page/b.md")]), *of_file(saved)]
    lines += ["# A turn takes no more removals than there is room for the longest ones."]
    saved = Saved(file + bytes(REMOVAL + 14), most=0)
    lines += [holds(file + bytes(REMOVAL + 14)),
              *turns(saved, MUCH, 0, [], [(OWNER, "DELETE", f"/page/{path}.md") for path in "abc"], [], []), *of_file(saved)]
    lines += ["# So many calls of the file go well."]
    for calls in range(2, 15):
        saved = Saved(file, calls, len(file) + 3_000)
        lines += [holds(file), *turns(saved, calls, len(file) + 3_000, [], [(OWNER, "DELETE", "/page/b.md"), (ANN, "GET", "/page/a.md")], [])]
        lines += [("records", told(b"".join(journals.read(saved.device.file)[0])))]
    lines += ["# As many bytes as may be unread, and one more."]
    half = "x" * (BACKLOG // 2)
    saved = Saved(file, most=0)
    [(call, answer)] = turns(saved, MUCH, 0, half, half, "x")
    return [*lines, holds(file), (call.replace(half, f"\\{{{len(half)} x}}"), answer)]


def reloads():
    """Pages that are loaded anew between two turns: what the journal's edits make of them stands then."""
    asks = [(token, "GET", f"/page/{path}.md") for path in "abce" for token in (OWNER, BOB)]
    put, remove = (OWNER, "PUT", "/page/c.md?groups=staff", "Anew"), (OWNER, "DELETE", "/page/e.md")
    saved = Saved()
    lines = ["# Pages that are loaded anew, again, and others, beside edits of an owner: an edit wins over what is loaded.", holds(b"")]
    grows = 3 * [[]]
    lines += turns(saved, MUCH, MUCH, *grows, asks, Reload(CONFIG), asks, Reload(CONFIG), [put, remove], Reload(CONFIG), asks,
                   Reload(b"put a.md ops Other\nput b.md staff One\nmove b.md k.md\n"), asks, Reload(b""), asks)
    lines += of_file(saved)
    lines += ["# The journal that a server was begun with is read anew: its pages stand over those that are loaded, and moved ones where they went."]
    texts = [*PAGES, b"move b.md k.md\nput d.md qa Four\n"]
    file = journals.written(texts) + bytes(journals.RESERVE)
    saved = Saved(file)
    lines += [holds(file), *turns(saved, MUCH, MUCH, asks, Reload(b"put a.md - Zero\nput e.md staff Five\n"), asks, Reload(b"")), *of_file(saved)]
    lines += ["# A record that can't be made over the pages refuses them, and all is as it was."]
    texts = [b"put a.md staff One\n", b"put b.md ops Two\nmove b.md c.md\n"]
    file = journals.written(texts) + bytes(journals.RESERVE)
    saved = Saved(file)
    lines += [holds(file), *turns(saved, MUCH, MUCH, asks, Reload(CONFIG), asks, Reload(b"put z.md - Last\n"), asks)]
    lines += ["# A journal without room for the removal of each page refuses them; with room for it they are loaded."]
    for zeros in (6 * REMOVAL - 1, 6 * REMOVAL):
        file = journals.written(PAGES) + bytes(zeros)
        saved = Saved(file, most=0)
        lines += [holds(file), *turns(saved, MUCH, 0, Reload(CONFIG + b"put f.md - Six\n"), [], Reload(CONFIG), asks)]
    lines += ["# Edits that make no pages: nothing is loaded."]
    return [*lines, holds(b""), *turns(Saved(), MUCH, MUCH, Reload(b"move a.md b.md\n"))]


def follow(what, texts, *guests, file=None, ended="served", came=None):
    """A server that follows the records of these texts, which its file has behind its first turn: nothing is answered before. It takes no
    edits: a page is asked for as a list is. Where it ends for what it follows, so much of each guest has come."""
    hub = BoundedHub()
    hub.readers = dict(READERS)
    for line in b"".join(texts).decode().splitlines():
        make(hub, line)

    def answer(token, method, target, body=""):
        return hub.reply(token, method, target if method in ("GET", "HEAD") else "/contents", body)

    if came is None:
        told_of = guests_told(guests, 8, answer)
    else:
        told_of = [guest.told("", len(guest.input) if came else 0, []) for guest in guests]
    call = " | ".join([f"follow {WAITS} 8", *(guest.line() for guest in guests)])
    return [f"# {what}", holds(journals.written(texts) if file is None else file), (call, " | ".join([ended, *told_of]))]


def follows():
    """Servers that follow the file as another server's journal."""
    asks = Peer(*((token, "GET", f"/page/{path}.md") for path in "abcd" for token in (OWNER, BOB)), (BOB, "GET", "/contents"))
    edits = Peer((OWNER, "PUT", "/page/a.md?groups=staff", "Mine\n"), (OWNER, "DELETE", "/page/b.md"), (BOB, "PUT", "/page/a.md", "Mine\n"),
                 (OWNER, "GET", "/page/a.md"), ("tok-none", "DELETE", "/page/a.md"))
    lines = follow("What follows another server answers behind its records, and takes no edits.", PAGES, asks, edits)
    lines += follow("Moves, removals and a page that is put again; zeros stand behind the records.", texts := [
        *PAGES, b"move b.md d.md\n", b"remove a.md\nput c.md - Zero\n"], asks, edits, file=journals.written(texts) + bytes(9_000))
    lines += follow("A record that is longer than what is read at first.", [*PAGES, b"put d.md ops " + 90_000 * b"x" + b"\n"], asks)
    lines += follow("No records.", [], asks, edits)
    lines += follow("A record whose gate isn't open yet isn't followed.", PAGES[:1], asks,
                    file=(whole := journals.written(PAGES))[:(end := len(journals.written(PAGES[:1])) - 1)] + b"\xf0" + whole[end + 1:])
    lines += follow("One that is there in part isn't, either.", PAGES[:1], asks, file=whole[:-9])
    broken = bytearray(whole)
    broken[end + 30] ^= 1
    lines += follow("A damaged one ends it.", PAGES[:1], asks, file=bytes(broken), ended="refused: damaged", came=True)
    lines += follow("So does one whose edit is refused.", texts := [*PAGES, b"put d.md - Four\nmove a.md b.md\n"], asks,
                    ended="refused: journal record 3 refused, line 2", came=False)
    refused = f"follow {WAITS} 8 | {asks.line()}", "refused: no journal"
    return [*lines, "# What is no journal isn't followed.", holds(b""), refused, holds(b"docs_server journal 2"), refused]


class Site:
    """Pages with their aliases, by the rules of docs/SITE.md, and the edits that are made on them."""

    def __init__(self, lines=b""):
        self.pages, self.aliases = {}, {}
        for line in lines.decode().splitlines():
            self.make(line)

    def make(self, line):
        """Makes an edit, and answers whether it is accepted."""
        name, path, *rest = line.split(" ", 3)
        if name == "put":
            self.aliases.pop(path, None)
            self.pages[path] = sorted(rest[0].replace("-", "").split(",")), rest[1].replace("\\n", "\n")
        elif name == "remove":
            self.pages.pop(path, None)
            self.aliases = {alias: goal for alias, goal in self.aliases.items() if goal != path}
        elif path not in self.pages or rest[0] in self.pages:
            return False
        else:
            self.aliases.pop(rest[0], None)
            self.aliases = {alias: rest[0] if goal == path else goal for alias, goal in self.aliases.items()} | {path: rest[0]}
            self.pages[rest[0]] = self.pages.pop(path)
        return True

    def of(self, path):
        """A page with its names."""
        return self.pages.get(path), sorted(alias for alias, goal in self.aliases.items() if goal == path)

    def told(self):
        return "".join(f"{debug(text)}{''.join(f' {debug(group)}' for group in groups if group)} at {debug(path)}"
                       f"{''.join(f' {debug(alias)}' for alias in self.of(path)[1])}; "
                       for path, (groups, text) in sorted(self.pages.items()))

    def compacted(self, config):
        """The edits that lead from a configuration's site to this one, which has no aliases."""
        others = [path for path in sorted(self.pages | config.pages) if self.of(path) != config.of(path)]
        gone = [f"remove {path}\n" for path in others if path in config.pages]
        assert not self.aliases
        puts = [line_of_edit("PUT", f"/page/{path}?groups={','.join(self.pages[path][0])}", self.pages[path][1])
                for path in others if path in self.pages]
        return "".join(gone + puts).encode()


# what a compaction's new journal has as its identity
NEW = b"01" * 16


class File:
    """A file that is compacted, and what is told of it then. `texts` are those of its journal, which may be None."""

    def __init__(self, bytes_of_it, texts):
        self.file, self.texts, self.lines = bytes_of_it, texts, [holds(bytes_of_it)]

    def compact(self, config=b"", calls=MUCH, device_calls=MUCH, most=MUCH, refused=None, told_of=True):
        """Compacts it over the site of a configuration. `refused` is what the journal is refused by, whatever goes well."""
        site = Site(config + b"".join(self.texts or []))
        lines = [] if site.aliases or refused else [text for text in [site.compacted(Site(config))] if text]
        new = journals.written(lines, NEW)
        fault = refused or self.fault(calls, device_calls, most, len(new), len(lines))
        is_new = fault is None or fault == "cannot replace journal" and calls == 3
        file = new + bytes(journals.RESERVE + journals.SPARE) if is_new else self.file
        self.lines.append((f"compact {calls} {device_calls} {most} | {given(config.decode())}",
                           f"{'compacted' if fault is None else f'refused: {fault}'}{', as before' * (file == self.file)}"))
        if is_new:
            self.file, self.texts = file, None if site.aliases else lines
            if self.texts is not None and told_of:
                self.lines += [(call, journal_told(call, new, journals.RESERVE + journals.SPARE)) for call in ("file", "records")]
        if told_of and not refused:
            self.pages(config, site)

    def fault(self, calls, device_calls, most, length, records):
        """What refuses it. For its name it is opened, one is made beside it, that is renamed, and the folder is synced. The old file is
        opened, which takes four calls; the new one takes three, and each record its room and a sync beside four calls, and so does the
        reserve."""
        if calls < 2 and not (calls == 1 and device_calls < 4):
            return "cannot open journal"
        if device_calls < 4:
            return "cannot use journal"
        if device_calls < 3 + 6 * records + 2:
            return "cannot use journal"
        if most < length + journals.RESERVE:
            return "no room for the journal"
        return "cannot replace journal" if calls < 4 else None

    def pages(self, config, site):
        self.lines.append((f"pages | {given(config.decode())}", site.told()))


CONFIG = b"put a.md staff One\nput b.md ops,staff Two\nput c.md - Three\nput e.md ops Five\n"


def compactions():
    """What a compaction makes of a file, and what refuses it."""
    edits = [b"put a.md staff One\nput b.md ops Anew\n", b"remove c.md\nput d.md qa Four\nput d.md qa,staff Fourth\n", b"put f.md - Six\\nlines\n",
             b"remove f.md\n"]
    lines = ["# The site of a journal stands over the configuration's, and does so behind a compaction, and behind a second one."]
    file = File(journals.written(edits), edits)
    file.pages(CONFIG, Site(CONFIG + b"".join(edits)))
    file.compact(CONFIG)
    file.compact(CONFIG)
    file.lines.append("# The same journal over no pages, and over its own site: of that it has no edits.")
    file.compact()
    file.compact(b"".join(file.texts))
    return lines + file.lines + moved(edits) + refusals(edits)


def moved(edits):
    """Pages with further names."""
    lines = ["# Pages that were moved keep their further names, and so do those that moved where others were."]
    moves = [*edits, b"move a.md z/a.md\nmove z/a.md m.md\nmove d.md a.md\nmove b.md y.md\nput b.md - New\nmove m.md z/a.md\n", b"move a.md k.md\n"]
    file = File(journals.written(moves), moves)
    file.compact(CONFIG)
    lines += [*file.lines, "# A journal of version 1.", *(first := File(journals.written_first(edits), edits)).lines]
    first.lines.clear()
    first.compact(CONFIG)
    return lines + first.lines


def refusals(edits):
    """What refuses a compaction."""
    file, lines = journals.written(edits), ["# So many calls for the name go well: behind the third the new journal has it."]
    for calls in range(5):
        one = File(file, edits)
        one.compact(CONFIG, calls=calls)
        lines += one.lines
    lines += ["# So many calls of each file go well."]
    one = File(file, edits)
    for calls in range(12):
        one.compact(CONFIG, device_calls=calls, told_of=calls > 10)
    lines += [*one.lines, "# Files aren't grown past so many bytes."]
    new = len(journals.written([Site(CONFIG + b"".join(edits)).compacted(Site(CONFIG))], NEW))
    one = File(file, edits)
    for most in (0, 56, new - 1, new, new + journals.RESERVE - 1, new + journals.RESERVE):
        one.compact(CONFIG, most=most, told_of=False)
    lines += one.lines
    for what, data, why in (("An empty file.", b"", "no journal"), ("Another file.", b"GIF89a", "no journal"),
                            ("A journal that is cut.", file[:-1], "journal record 5"),
                            ("One of which a byte is turned.", file.replace(b"qa Four", b"qa Fear"), "journal record 2"),
                            ("A record that is no edit.", journals.written([*edits, b"shut a.md\n"]), "bad journal record 5"),
                            ("An edit that is refused.", journals.written([*edits, b"remove a.md\nmove c.md d.md\n"]), "journal record 5 refused, line 2")):
        one = File(data, None)
        one.compact(CONFIG, refused=why)
        one.lines.append((f"pages | {given(CONFIG.decode())}", f"refused: {why}"))
        lines += [f"# {what}", *one.lines]
    return lines


if __name__ == "__main__":
    write("serving", [line for part in (hosts(), follows(), serves(), saves(), reloads(), compactions()) for line in [*part, ""]], "trial_site")
