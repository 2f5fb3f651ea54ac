"""Texts in which much of an extension is begun and little found, or little is read and much written, for
scripts/bench/extensions_bench.py: for a key of [markdown] and a name what makes a text of about so many bytes."""


def repeated(text, before="", behind=""):
    return lambda size: before + text * (size // len(text)) + behind


def lines_of(*parts):
    """As many lines as there is room for, each in turn."""
    return repeated("".join(part + "\n" for part in parts))


def halves(first, then):
    return lambda size: first * (size // 2 // len(first)) + then * (size // 2 // len(then))


def wide(columns, row):
    """Rows under a header of so many columns."""
    header = "a|" * columns + "\n" + "-|" * columns + "\n"
    return lambda size: header + row * ((size - len(header)) // len(row))


def in_quotes(*parts):
    """Lines, each in one more quote than the one before."""

    def made(size):
        lines, length = [], 0
        while length < size:
            lines.append("> " * (len(lines) % 200) + parts[len(lines) % len(parts)])
            length += len(lines[-1]) + 1
        return "\n".join(lines)

    return made


TEXTS = {
    ("tables", "lines that could be headers"): lines_of("a|b"),
    ("tables", "delimiter rows"): lines_of("|-|"),
    ("tables", "delimiter rows of other lengths in turn"): lines_of("|-|", "|-|-|"),
    ("tables", "a header and one delimiter row less"): lambda size: "a|" * (size // 4) + "\n" + "-|" * (size // 4 - 1),
    ("tables", "a header of too many columns"): lambda size: "a|" * (size // 4) + "\n" + "-|" * (size // 4),
    ("tables", "delimiter rows that fail at their end"): lines_of("-|" * 60 + "x"),
    ("tables", "a long paragraph before a table"): lambda size: "a\n" * (size // 2) + "a|b\n-|-\n",
    ("tables", "definitions before a table"): lambda size: "[a]: /u\n" * (size // 8) + "a|b\n-|-\n",
    ("tables", "no definitions before a table"): lambda size: "[a]: \n" * (size // 6) + "a|b\n-|-\n",
    ("tables", "empty rows of 100 columns"): wide(100, "|\n"),
    ("tables", "rows of more cells than columns"): wide(1, "|" * 400 + "\n"),
    ("tables", "one row of cells that go"): wide(1, "|"),
    ("tables", "pipes behind backslashes"): wide(1, "\\|"),
    ("tables", "rows of pipes behind backslashes"): wide(2, "\\|\\||\\|\n"),
    ("tables", "backslashes"): wide(1, "\\"),
    ("tables", "spaces in a row"): wide(1, " "),
    ("tables", "tables in turn with paragraphs"): lines_of("a", "-|", "", "a", ""),
    ("tables", "brackets in cells"): wide(2, "[|](\n"),
    ("tables", "runs of backticks in cells"): wide(2, "`|``\n"),
    ("tables", "tables in quotes"): in_quotes("a|b", "-|-", "c"),
    ("tables", "tables in items"): lines_of("- a", "  -|", "  b"),
    ("tables", "lazy delimiter rows"): lines_of("> a", "-|", ""),
    ("strikethrough", "openers"): repeated("~a "),
    ("strikethrough", "openers of two lengths"): repeated("~a ~~b "),
    ("strikethrough", "closers"): repeated("a~ "),
    ("strikethrough", "openers, then closers of the other length"): halves("~a ", "a~~ "),
    ("strikethrough", "openers and closers of two lengths"): halves("~a ~~b ", "a~ b~~ "),
    ("strikethrough", "emphasis between"): repeated("~a *b ~~c _d "),
    ("strikethrough", "emphasis that crosses"): halves("*a ~b ", "c* d~ "),
    ("strikethrough", "one long run"): lambda size: "a" + "~" * size,
    ("strikethrough", "runs in words"): repeated("a~b~~c"),
    ("strikethrough", "runs in brackets"): repeated("[~a](u)~ "),
    ("tasks", "tasks"): lines_of("- [ ] a", "- [x] b"),
    ("tasks", "markers alone"): lines_of("- [ ]"),
    ("tasks", "a marker and spaces"): repeated(" ", "- [ ]"),
    ("tasks", "markers in a row"): repeated("[x] ", "- "),
    ("tasks", "items in items"): repeated("- [ ] "),
    ("bare_links", "www. and no more"): repeated("www. "),
    ("bare_links", "www. many times"): repeated("www."),
    ("bare_links", "_www. many times"): repeated("_www."),
    ("bare_links", "links in turn with words"): repeated("www.a.b word "),
    ("bare_links", "schemes"): repeated("http://"),
    ("bare_links", "letters that could begin one"): repeated("hHfFwW"),
    ("bare_links", "one link"): repeated("a", "http://a/"),
    ("bare_links", "punctuation at its end"): repeated("?", "http://a/"),
    ("bare_links", "parentheses at its end"): repeated(")", "http://a/"),
    ("bare_links", "parentheses on both sides"): halves("http://a/(", "a)"),
    ("bare_links", "references at its end"): repeated("&a;", "http://a/"),
    ("bare_links", "names without a reference at its end"): repeated("a;", "http://a/&"),
    ("bare_links", "underscores in a host"): repeated("a_", "www."),
    ("bare_links", "dots behind a host"): repeated(".", "www.a"),
    ("bare_links", "in brackets"): repeated("[www.a "),
    ("bare_links", "in images"): repeated("![www.a "),
    ("bare_links", "behind closed brackets"): repeated("[a] www.a "),
}
