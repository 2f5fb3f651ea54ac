"""Clients that edit pages of their own over `listen`, and what of their edits a server may have that was killed meanwhile: shared by the
scripts that kill it.

Each sends PUTs, with texts of 1 byte to 200 kB, and DELETEs, up to eight at once on one connection. Behind a start its pages are to be
as they were after all edits that were answered and a front of the others, in their order. An edit is made or it isn't; a PUT that may be
refused for want of room (507) may be left out of that front.
"""
import random, re
from scene import Client, page_of

FULL = b"507 Insufficient Storage\nno edit is left\n"


def after(pages, edit):
    """The pages behind an edit."""
    method, path, text = edit
    pages = {**pages, path: text}
    if method == "DELETE":
        del pages[path]
    return pages


class Writer:
    """A client, the pages that are its own, and what became of its edits since the last start. With `puts_are_refused` a PUT may be
    answered 507, which changes nothing."""

    def __init__(self, number, seed, puts_are_refused=False, pages=6):
        self.chance = random.Random(seed * 100 + number)
        self.number, self.edits, self.puts_are_refused = number, 0, puts_are_refused
        self.paths = [f"w{number}/{page}.md" for page in range(pages)]
        # its pages by the replies so far, those behind each edit that was answered, and the edits that weren't
        self.pages, self.states, self.unanswered = {}, [{}], []
        self.answered, self.sent, self.refused, self.fault, self.stops = 0, 0, 0, None, False
        # what stands in front of the texts that were sent and answered, where they are long enough
        self.told, self.asked = set(), set()

    def next_edit(self):
        """Another edit: its method, its path and its text."""
        path = self.chance.choice(self.paths)
        if self.chance.random() < 0.25:
            return "DELETE", path, ""
        self.edits += 1
        length = self.chance.choices((1, 30, 300, 4_000, 60_000, 200_000), (6, 6, 6, 6, 2, 1))[0]
        text = self.mark() + "\n\\x\u00f6\\ " + self.chance.choice("abcdefgh") * length
        return "PUT", path, text[:length].strip() if length > 1 else self.chance.choice("abcdefgh")

    def mark(self):
        return f"edit {self.edits} of {self.number},"

    def send(self, client, count):
        """So many edits at once."""
        for _ in range(count):
            edit = method, path, text = self.next_edit()
            if text.startswith("edit "):
                self.asked.add(self.mark())
            self.unanswered.append(edit)
            self.sent += 1
            client.send("/page/" + path, method, text.encode())

    def hear(self, client):
        """The reply to the first edit without one. Whether it is the right one."""
        method, path, text = edit = self.unanswered[0]
        code, _, body = client.reply(method)
        stands = path in self.pages
        if code == 507 and body == FULL and method == "PUT" and self.puts_are_refused:
            self.refused += 1
        elif code == (404 if method == "DELETE" and not stands else 201 if not stands else 204):
            self.pages = after(self.pages, edit)
            if text.startswith("edit "):
                self.told.add(text.partition("\n")[0])
        else:
            self.fault = f"{method} {path}: {code} {body[:60]}, which {'stands' if stands else 'is absent'}"
            return False
        self.unanswered.pop(0)
        self.answered += 1
        self.states.append(self.pages)
        return True

    def run(self, port):
        """Sends edits until the server is gone, or it is told to stop, and then hears all replies."""
        try:
            client = Client(port, "tok")
            while not self.stops:
                self.send(client, self.chance.randint(1, 8))
                while self.unanswered:
                    if not self.hear(client):
                        return
        except OSError:
            pass

    def may_have(self):
        """The pages that it may have, each with how many of the edits without a reply were made for that."""
        found = [(0, self.pages)]
        yield from found
        for edit in self.unanswered:
            made = [(count + 1, after(pages, edit)) for count, pages in found]
            yield from made
            found = made + found if self.puts_are_refused and edit[0] == "PUT" else made

    def find(self, client):
        """How many edits without a reply were made, by what the server has: what it has is its state from now on. None where it has what
        it can't have: then what is wrong is told too."""
        found = {}
        for path in self.paths:
            code, _, body = client.ask("/page/" + path)
            if code != 404:
                found[path] = code, body
        made, wrong = None, f"none of its states, {self.answered} answered, {self.sent} sent"
        for count, pages in self.may_have():
            if replies(pages) == found:
                made, self.pages = count, pages
                break
        else:
            lost = [back for back, pages in enumerate(reversed(self.states)) if replies(pages) == found]
            wrong = f"without the last {lost[0]} of the edits answered since the start" if lost else wrong
        self.states, self.unanswered = [self.pages], []
        return made, wrong


def kept_marks(torn, writers):
    """What stands in front of texts in a file of torn records: of those that were answered, and of all."""
    marks = {mark.decode() for mark in re.findall(rb"edit \d+ of \d+,", torn)}
    return sorted(marks & set().union(*(writer.told for writer in writers))), marks


def replies(pages):
    """What is answered for these pages."""
    return {path: (200, page_of(path, text)) for path, text in pages.items()}
