"""Contents, report, backlinks and search of a site for a reader: an outside expectation for `doc_links`, `doc_words`, `doc_listings`.

This is the model that sites.py asks: plain maps, each answer made anew of the pages that the reader sees. A reference is resolved by
`urllib.parse.urljoin`, which agrees with RFC 3986 (strict) on references that have no scheme of http, no empty segment, no space and
no `;`: sites.py writes no others.
"""

import re
from collections import Counter
from urllib.parse import quote, unquote_to_bytes, urljoin, urlsplit

from words import words_of

EXTERNAL, NOWHERE = ("external",), ("nowhere",)


def encoded(text):
    """All bytes but letters, digits and `-._~` are written `%XX`."""
    return quote(text, safe="")


def encoded_path(path):
    return "/".join(encoded(segment) for segment in path.split("/"))


def decoded(text):
    """None where that is no UTF-8."""
    try:
        return unquote_to_bytes(text).decode("utf-8")
    except UnicodeDecodeError:
        return None


def is_path(text):
    segments = text.split("/")
    return len(text.encode()) <= 200 and len(segments) <= 16 and not any(
        segment in ("", ".", "..") or re.search(r"[\x00-\x1f\x7f-\x9f\\%?#]", segment) for segment in segments
    )


def classify(page, dest):
    """What a destination in a page leads to."""
    if re.match(r"[^:/?#]+:", dest) or dest.startswith("//"):
        return EXTERNAL
    url = urlsplit(urljoin("http://h/" + encoded_path(page), dest))
    path = url.path[1:]
    if path == "" or path.endswith("/"):
        path += "index.md"
    segments = [decoded(segment) for segment in path.split("/")]
    if any(segment is None or "/" in segment for segment in segments) or not is_path("/".join(segments)):
        return NOWHERE
    anchor = decoded(url.fragment)
    return "page", "/".join(segments), url.fragment if anchor is None else anchor


class Page:
    """A page of a trial: its groups, and its lines, of which `#2 one Two` is a heading and `@a.md` a link."""

    def __init__(self, path, groups, text):
        self.groups, self.texts, self.headings, self.links, self.aliases, self.anchors = groups, [], [], [], set(), set()
        self.text = text
        for line in text.split("\n"):
            if line.startswith("@"):
                self.links.append(line[1:])
            elif line.startswith("#"):
                level, anchor, heading = line[1:].split(" ", 2)
                self.headings.append((level, anchor, heading))
                self.anchors.add(anchor)
                self.texts.append(heading)
            else:
                self.texts.append(line)


class Cut:
    """The pages that a reader sees. A reader is None, who owns the site, or a set of groups."""

    def __init__(self, pages, groups):
        paths = sorted(pages, key=str.encode)
        self.pages = {path: pages[path] for path in paths if groups is None or groups & pages[path].groups}
        self.goals = {name: path for path, page in self.pages.items() for name in {path, *page.aliases}}

    def contents(self):
        out = "<!DOCTYPE html>\n<title>Contents</title>\n<ul>\n"
        for path, page in self.pages.items():
            href = "/page/" + encoded_path(path)
            out += f'<li><a href="{href}">{escaped(path)}</a></li>\n'
            for level, anchor, text in page.headings:
                out += f'<li class="h{level}"><a href="{href}#{encoded(anchor)}">{escaped(text)}</a></li>\n'
        return out + "</ul>\n"

    def fault(self, link):
        """The reason and the target of a broken link, or None."""
        if link == EXTERNAL:
            return None
        if link == NOWHERE:
            return "path", "-"
        _, path, anchor = link
        if path not in self.goals:
            return "page", path
        if anchor == "" or anchor in self.pages[self.goals[path]].anchors:
            return None
        return "anchor", f"{path}#{encoded(anchor)}"

    def report(self):
        out = ""
        for path, page in self.pages.items():
            for place, dest in enumerate(page.links, 1):
                fault = self.fault(classify(path, dest))
                if fault:
                    out += f"{path}\t{place}\t{fault[0]}\t{fault[1]}\n"
        return out

    def backlinks(self, target):
        out = ""
        for path, page in self.pages.items():
            links = [classify(path, dest) for dest in page.links]
            count = sum(1 for link in links if link[0] == "page" and self.goals.get(link[1]) == target)
            out += f"{path}\t{count}\n" if count else ""
        return out

    def search(self, query):
        """By the sum of each word's count times how many times rarer it is than a page, then by path; at most 100."""
        words = [word for word, _ in words_of([query])]
        counts = {path: Counter(dict(words_of(page.texts))) for path, page in self.pages.items()}
        holders = {word: sum(1 for count in counts.values() if count[word]) for word in words}
        hits = [
            (-sum(count[word] * (len(self.pages) // holders[word]) for word in words), path)
            for path, count in counts.items()
            if all(count[word] for word in words)
        ]
        best = sorted(hits, key=lambda hit: (hit[0], hit[1].encode()))[:100]
        return "".join(f"{-score}\t{path}\n" for score, path in best)


def escaped(text):
    return text.replace("&", "&amp;").replace("<", "&lt;").replace(">", "&gt;").replace('"', "&quot;")
