"""Where cmark-gfm reads an extension otherwise than `docs/COMMONMARK.md` says, for gfm.py. A kind is told by a mend: a change of the text
at the points of that kind, behind which both read it alike. So what a mend doesn't explain stays in sight.
"""
import re
import subprocess

# what may stand before the text of a line, and a delimiter row
PREFIX = r"(?:[ \t]|>|[-*+][ \t]|\d{1,9}[.)][ \t])*"
CELL = r"[ \t\f\v]*:?-+:?[ \t\f\v]*"
ROW = re.compile(rf"({PREFIX})(\|?{CELL}(?:\|{CELL})*\|?[ \t\f\v]*)$")


# ---- lines

def delimiter_rows(lines):
    """The lines that a delimiter row ends, each with where that begins."""
    for at, line in enumerate(lines):
        found = ROW.match(line)
        if found:
            yield at, len(found[1])


def shown(lines, at, line):
    """The HTML of the lines with another one in the place of one, by cmark-gfm with its tables."""
    text = "\n".join([*lines[:at], line, *lines[at + 1:]])
    return subprocess.run(["cmark-gfm", "--unsafe", "-e", "table"], input=text.encode(), stdout=subprocess.PIPE, check=True).stdout.decode()


def depth_of(html, word):
    """How many container blocks stand round a word."""
    before = html.partition(word)[0]
    return sum(before.count(f"<{tag}") - before.count(f"</{tag}") for tag in ("blockquote", "li"))


def is_lazy(lines, at, start):
    """Whether the line goes on with a paragraph although its containers weren't matched: a heading in its place stands in fewer. One that
    stands too far in to be a heading is moved to the left until it is."""
    before = lines[at][:start]
    depth = depth_of(shown(lines, at, before + "zzq"), "zzq")
    before = before.expandtabs(4)
    while True:
        heading = shown(lines, at, before + "# zzq")
        if "# zzq" not in heading or not before.endswith(" "):
            return depth_of(heading, "zzq") != depth
        before = before[:-1]


def each_line(text, changed):
    """A text whose lines are changed: by a function of the lines, a number and the line."""
    lines = text.split("\n")
    return "\n".join(changed(lines, at, line) for at, line in enumerate(lines))


def spoil(text, is_spoilt):
    """A text without those delimiter rows: a letter stands before each."""
    lines = text.split("\n")
    starts = [(at, start) for at, start in delimiter_rows(lines) if at and is_spoilt(lines, at, start)]
    for at, start in starts:
        lines[at] = lines[at][:start] + "x" + lines[at][start:]
    return "\n".join(lines)


# ---- tables

def lazy_rows(text):
    return spoil(text, is_lazy)


def rows_far_in(text):
    return spoil(text, lambda lines, at, start: re.search(r"(\t| {4})[ \t]*(?:[-*+][ \t]+)?$", lines[at][:start]) is not None)


def wide_rows(text):
    return spoil(text, lambda lines, at, start: lines[at].count("-|") > 99)


def lazy_headers(text):
    """A header that is lazy without the spaces before it."""
    lines = text.split("\n")
    for at, _ in delimiter_rows(text.split("\n")):
        before = lines[at - 1]
        start = len(re.match(PREFIX, before)[0])
        if at and before[:start].endswith((" ", "\t")) and is_lazy(lines, at - 1, start):
            lines[at - 1] = before[:start].rstrip(" \t") + before[start:]
    return "\n".join(lines)


def single_pipes(text):
    return re.sub(rf"(?m)^({PREFIX})\|[ \t\f\v]*$", r"\1||", text)


def cells_in(line):
    """How many cells a line has as a header."""
    parts = re.split(r"(?<!\\)\|", re.sub(rf"^{PREFIX}\|?", "", line))
    return len(parts) - (parts[-1].strip(" \t") == "")


def pipes_before(text):
    """A text whose lines before the header of a table have no pipe behind a backslash."""
    lines = text.split("\n")
    rows = {at for at, _ in delimiter_rows(lines)}
    headers = {at - 1 for at in rows if at and cells_in(lines[at - 1]) == cells_in(lines[at])}
    last = max(rows, default=0)
    return each_line(text, lambda lines, at, line: re.sub(r"\\+\|", "/", line) if at < last - 1 and at not in headers else line)


def rowless_tables(text):
    """A text in which a row stands behind each delimiter row."""
    lines = text.split("\n")
    for at, start in reversed(list(delimiter_rows(lines))):
        row = re.sub(r"[-*+.)\d]", " ", lines[at][:start]) + "|x"
        if lines[at + 1:at + 2] != [row]:
            lines.insert(at + 1, row)
    return "\n".join(lines)


def definitions_before(text):
    return text.replace("]:", "];")


def other_spaces(text):
    return re.sub(r"[\f\v]", "x", text)


def tags_behind_items(text):
    """A text without lines of one tag, which version 0.29 of CommonMark lets begin HTML behind the paragraph of an item or a quote."""
    return re.sub(r"(?m)^([ \t]*)<b>[ \t]*$", r"\1b", text)


# ---- strikethrough

def seen_through(text):
    return re.sub(r"(?<=~)(?=[*_])|(?<=[*_])(?=~)", "x", text)


def other_lengths(text):
    return re.sub(r"(?<!~)~{1,2}(?!~)", "~~", text)


# ---- tasks

BOX = r"\[[ xX]\]"


def boxes_inside(text):
    """A text without markers in quotes, or in items that begin behind another one's start on a line."""
    start = r"(?:[-*+]|\d{1,9}[.)])[ \t]+"
    return re.sub(rf"(?m)^({PREFIX}){BOX}", lambda found: found[0] if re.fullmatch(rf"[ \t]*{start}", found[1]) else found[1] + "/x/", text)


def boxes_behind(text):
    return re.sub(rf"(?m)^({PREFIX}\[ \])(.*)$", lambda found: found[1] + re.sub(r"\[[xX]\]", "/x/", found[2]), text)


def boxes_alone(text):
    """A text without markers that nothing stands behind, or definitions."""
    return re.sub(rf"(?m)^({PREFIX}){BOX}(?=[ \t]*$|[ \t]*\[[^\]\n]*\]:)", r"\1/x/", text)


def boxes_of_headings(text):
    """A text without markers on lines that an underline makes headings."""
    behind = r"(?=.*(?:\n[ \t>]*[^ \t>\n].*)*?\n[ \t>]*(?:=+|-+)[ \t]*$)"
    return re.sub(rf"(?m)^({PREFIX}){BOX}{behind}", r"\1/x/", text)


def box_first(html):
    """Boxes of cmark-gfm in loose items where they stand here."""
    return re.sub(r'(<li>)(<input type="checkbox"[^>]*/> )\n?(<p>)', r"\1\n\3\2", html)


# ---- bare links

HOST = r"[0-9A-Za-z\-_\u0080-\U0010ffff]"


def bare_www(text):
    return re.sub(rf"(?i)(w)ww(?=\.(?!{HOST}))", r"\1xw", text)


def underscores(text):
    return text.replace("_", "x")


def ends_of_hosts(text):
    """A text in which no address ends with its line."""
    return re.sub(r"(?m)(\S)$", r"\1 x", text)


def images(text):
    return text.replace("![", "! (")


def dead_brackets(text):
    """A text without brackets that begin no link: a link in them has made them dead."""
    return re.sub(r"\[(?![^\[\]]*\]\()", "(", text)


def mail(text):
    return text.replace("@", "a")


# For each extension of cmark-gfm its key in [markdown], and the kinds with their mends.
EXTENSIONS = {
    "table": ("tables", {
        "a delimiter row that is lazy makes no table": lazy_rows,
        "a line of one pipe ends the table": single_pipes,
        "backslashes before pipes go in the paragraph before a table": pipes_before,
        "definitions before a table are text": definitions_before,
        "a delimiter row four columns in makes no table": rows_far_in,
        "a lazy header keeps its front spaces": lazy_headers,
        "a list with a table of no rows is loose": rowless_tables,
        "form feeds and vertical tabs are spaces": other_spaces,
        "more than 100 columns": wide_rows,
        "a tag alone on its line begins HTML behind an item's paragraph (CommonMark 0.29)": tags_behind_items,
    }),
    "strikethrough": ("strikethrough", {
        "a tilde is seen through for the neighbours of * and _": seen_through,
        "the nearest opener of any length is taken": other_lengths,
    }),
    "tasklist": ("tasks", {
        "no marker in a quote, or behind another item's on its line": boxes_inside,
        "checked where a mark stands anywhere on the line": boxes_behind,
        "a marker with nothing behind is a task": boxes_alone,
        "a heading's marker is a task": boxes_of_headings,
    }),
    "autolink": ("bare_links", {
        "www. without a host behind": bare_www,
        "a host's end at the end of the text isn't looked at": ends_of_hosts,
        "an underscore behind a host forbids the link": underscores,
        "an image's bracket is taken as closed": images,
        "a bracket that is dead is taken as open": dead_brackets,
        "mail addresses": mail,
    }),
}
