"""Questions about many pages, by the model of listings.py: searches with 101 hits, of which 100 are told, also after each page was put
again; questions about few of many pages; and 100,000 links to as many headings.

    python3 scripts/oracles/large.py

writes its lines into stdin and stdout of crates/trial_pages.
"""

from listings import Cut, Page
from trial_lines import debug, digest, several, write

READERS = (("owner", None), ("staff", {"staff"}), ("ops", {"ops"}))


def put_each(count, text):
    """Pages `0.md` and so on of `staff`, in whose text `\\#` is the number; and the line that begins a site and puts them."""
    pages = {f"{number}.md": Page(f"{number}.md", {"staff"}, text.replace("\\#", str(number))) for number in range(count)}
    written = text.replace("\n", "\\n")
    line = f"digest \\{{{count} put \\#.md | staff | {written} ; }}put 7.md | ops,staff | kiwi kiwi kiwi7\\n@77.md"
    pages["7.md"] = Page("7.md", {"ops", "staff"}, "kiwi kiwi kiwi7\n@77.md")
    return pages, [("new", "()"), (line, digest(["Ok(Created)"] * count + ["Ok(Replaced)"]))]


def hidden_first():
    """101 pages, each put and then put again."""
    pages = {f"s{number:03}.md": Page("", {"staff"}, "kiwi") for number in range(1, 101)}
    pages["s000.md"] = Page("", {"ops"}, "kiwi kiwi")
    calls = [f"put {path} | {','.join(page.groups)} | {page.text}" for path, page in sorted(pages.items())]
    asked = [(f"search {name} | KIWI", debug(Cut(pages, groups).search("KIWI"))) for name, groups in READERS]
    created, replaced = several([(call, "Ok(Created)") for call in calls]), several([(call, "Ok(Replaced)") for call in calls])
    return [("new", "()"), created, *asked, replaced, *asked]


def many_links():
    headings = "".join(f"#1 {number} \n" for number in range(100_000))
    links = "".join(f"@h#{number}\n" for number in range(100_000)) + "@h#none"
    pages = {"h": Page("h", {"staff"}, headings.removesuffix("\n")), "l": Page("l", {"staff"}, links)}
    puts = [("put h | staff | \\{100000 #1 \\# \\n}", "Ok(Created)"), ("put l | staff | \\{100000 @h#\\#\\n}@h#none", "Ok(Created)")]
    cut = Cut(pages, None)
    return [("new", "()"), *puts, ("report staff", debug(cut.report())), ("backlinks staff | h", debug(cut.backlinks("h")))]


def main():
    pages, lines = put_each(101, "kiwi")
    lines = ["# 101 pages hold the word, of which the last is left out; one of them has it twice."] + lines
    for name, groups in READERS:
        lines.append((f"search {name} | KIWI", debug(Cut(pages, groups).search("KIWI"))))
    lines += ["# A word that stands twice in a query is one.", ("search owner | kiwi KIWI", debug(Cut(pages, None).search("KIWI")))]
    lines += ["# The first of 101 pages is hidden from all but one reader, and has the word twice.", *hidden_first()]
    pages, more = put_each(1000, "kiwi\\#\n@7.md")
    lines += ["# A question about few of 1,000 pages.", *more]
    cut = Cut(pages, None)
    lines += [
        ("search owner | kiwi7", debug(cut.search("kiwi7"))),
        ("search owner | kiwi7 KIWI", debug(cut.search("kiwi7 KIWI"))),
        ("backlinks owner | 77.md", debug(cut.backlinks("77.md"))),
        ("backlinks_under owner | 77.md", debug(cut.backlinks("77.md"))),
    ]
    lines += ["# 100,000 links to headings of one page, each of which has an anchor of its own, and one to none.", *many_links()]
    write("large.py", lines)


if __name__ == "__main__":
    main()
