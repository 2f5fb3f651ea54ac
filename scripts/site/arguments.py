"""Tries the arguments: each command with the words that it takes and with others, each order of options up to four words, and words that
hold what isn't for a terminal, by what is printed and the status at the end. What is wanted is worked out from docs/RUNNING.md, for
options from the lines that are good alone: the first word behind which no good line goes on is the one that is told.

    python3 scripts/site/arguments.py PROGRAM

Builds nothing: PROGRAM is crates/docs_server/out/docs_server, or any other build. Half a minute.
"""
import itertools, os, re, subprocess, sys
sys.path.insert(1, os.path.dirname(__file__) + "/../lib")
from scene import HOST, OWNER, TOP, Client, Scene, free_port, put, start

scene = Scene(seconds=600, told="{right} of {all} as they should be")
ADDR = "ADDR is an IP address or localhost, and a port: 127.0.0.1:8080"
EXCLUDED = "--journal and --follow exclude each other"
VERSION = b"docs_server 0.9.0\njournal 2\njournal 1 (compact alone)\n"
# no file has this name, so a line that is understood ends at it
NOWHERE = "nowhere.toml"
UNDERSTOOD = f"cannot read {NOWHERE}"
# lines that are understood, each with a configuration or a file that isn't there
TAKEN = (["examples", NOWHERE], ["check", NOWHERE, "tok"], ["check", NOWHERE, ""], ["check", NOWHERE, "--log"], ["replay", NOWHERE],
         ["folders", NOWHERE], ["lint", NOWHERE], ["lint", NOWHERE, "--journal", "j"], ["lint", NOWHERE, "--journal", "--journal"],
         ["compact", NOWHERE, "--journal", "j"], ["compact", NOWHERE, "--journal", "--log"], ["compact", NOWHERE, "--journal", ""],
         ["serve", NOWHERE, f"{HOST}:0", "0", "0"], ["serve", NOWHERE, "[::1]:65535", "4294967295", "007"])
# lines that no command takes, and of which nothing more is told
REFUSED = ([], [""], ["Demo"], ["dem"], ["demo", ""], ["demo", "x"], ["render", "x"], ["examples"], ["examples", "a", "b"], ["check"],
           ["check", NOWHERE], ["check", NOWHERE, "tok", "x"], ["replay"], ["replay", NOWHERE, "x"], ["folders"], ["folders", NOWHERE, "x"],
           ["listen"], ["listen", NOWHERE], ["lint"], ["Lint", NOWHERE], ["compact"], ["compact", NOWHERE], ["serve"], ["serve", NOWHERE],
           ["serve", NOWHERE, f"{HOST}:0"], ["serve", NOWHERE, f"{HOST}:0", "1"], ["serve", NOWHERE, f"{HOST}:0", "1", "1", "--log"],
           ["--version", "x"], ["--Version"], ["-version"], ["--help", "listen"], ["-h"], ["help"], ["version"], ["--journal", "j"],
           ["--log"])
NO_COUNTS = ("", "+1", "-1", " 1", "1 ", "1.0", "0x1", "one", "4294967296", "99999999999999999999")
ADDRESSES = (f"{HOST}:0", f"{HOST}:00", f"{HOST}:65535", "[::1]:0", "0.0.0.0:1", "[::ffff:127.0.0.1]:9")
LOCAL = ("localhost:0", "localhost:65535", "localhost:000080")
NO_ADDRESSES = ("", HOST, ":80", f"{HOST}:", f"{HOST}:65536", f"{HOST}:+1", "256.0.0.1:80", "::1:80", f" {HOST}:80", f"{HOST}:80 ",
                "localhost", "localhost:", "localhost:65536", "localhost:+1", "localhost:-1", "localhost: 1", "localhost:80x",
                "Localhost:80", "localhost.:80", "localhost4:80", "local:80", "xlocalhost:80", "--log", "--journal")
# what stands behind `--status`; FILE, which is any word, is None
MONITORS = object()
# what stands behind `--watch`
PAUSE = object()
PAUSES = ("1", "60", "3600", "0060")
NO_PAUSES = ("", "0", "00", "3601", "4294967297", "+1", "-1", " 1", "1 ", "1.0", "1s", "one", "--log", "--watch")
NEEDS_SECONDS = "--watch needs seconds: 1 to 3600"
# the options of `listen`, each in all its forms
LISTEN = ((["--journal", None],), (["--follow", None],), (["--log"], ["--log=json"]), (["--status", MONITORS],), (["--watch", PAUSE],))
# two that exclude each other, which is told of a line that is good but for that
EITHER = ("--journal", "--follow")
# the words behind CONFIG and ADDR that `listen` takes, which are some of its options in any order, and those behind CONFIG that the others do
GOOD = {"listen": [sum(forms, []) for count in range(len(LISTEN) + 1) for order in itertools.permutations(LISTEN, count)
                   for forms in itertools.product(*order)],
        "lint": ([], ["--journal", None]), "compact": (["--journal", None],)}
FRONTS = {"listen": [NOWHERE, f"{HOST}:0"], "lint": [NOWHERE], "compact": [NOWHERE]}


# ---- one call

def call(words, stdin=b""):
    done = subprocess.run([scene.program, *words], input=stdin, capture_output=True, timeout=60)
    return done.returncode, done.stdout, done.stderr


def check(words, wanted, **given):
    found = call(words, **given)
    scene.check(repr(words), found == wanted, f"{found}, wanted {wanted}")


def stops(words, *lines):
    """It ends with status 2, and prints these lines alone, on standard error."""
    check(words, (2, b"", b"".join(b"docs_server: " + (line if isinstance(line, bytes) else line.encode()) + b"\n" for line in lines)))


# ---- what is wanted of options

def fits(word, it):
    """Whether a word may stand for one of a good line."""
    if it is PAUSE:
        return word in PAUSES
    return word in ADDRESSES + LOCAL if it is MONITORS else it in (None, word)


def begins(words, good):
    """Whether a good line begins with these words."""
    return len(words) <= len(good) and all(map(fits, words, good))


def wrong(command, words):
    """What is told of the words behind a command's other words: nothing where they are good, `usage` alone where an option is lacking."""
    for count, word in enumerate(words, 1):
        if not any(begins(words[:count], good) for good in GOOD[command]):
            # the word stands where an address does
            if any(MONITORS in good[count - 1:count] and begins(words[:count - 1], good) for good in GOOD[command]):
                return ADDR, "usage"
            if any(PAUSE in good[count - 1:count] and begins(words[:count - 1], good) for good in GOOD[command]):
                return NEEDS_SECONDS, "usage"
            # an option of the command, since some good line begins with it
            known = any(word in good[:1] for good in GOOD[command])
            # the log's two forms are one option
            return (f"{word.removesuffix('=json')} stands twice" if known else f"unknown option: {word}", "usage")
    for good in GOOD[command]:
        if len(words) == len(good) and begins(words, good):
            return (EXCLUDED, "usage") if all(word in good for word in EITHER) else ()
    if words and words[-1] == "--watch":
        return NEEDS_SECONDS, "usage"
    return (f"{words[-1]} needs {'an address' if words[-1] == '--status' else 'a file'}", "usage") if words else ("usage",)


# ---- the lines

def commands():
    for words in TAKEN:
        stops(words, UNDERSTOOD)
    for words in REFUSED:
        stops(words, "usage")
    check(["--version"], (0, VERSION, b""))
    check(["demo"], (0, b"", b""))
    check(["render"], (0, b"<p>a</p>\n", b""), stdin=b"a\n")


def numbers_and_addresses():
    for count in NO_COUNTS:
        stops(["serve", NOWHERE, f"{HOST}:0", count, "1"], "usage")
        stops(["serve", NOWHERE, f"{HOST}:0", "1", count], "usage")
    for address in ADDRESSES:
        stops(["serve", NOWHERE, address, "1", "1"], UNDERSTOOD)
        stops(["listen", NOWHERE, address], UNDERSTOOD)
        stops(["listen", NOWHERE, f"{HOST}:0", "--status", address], UNDERSTOOD)
    for address in LOCAL:
        stops(["serve", NOWHERE, address, "1", "1"], "usage")
        stops(["listen", NOWHERE, address], UNDERSTOOD)
        stops(["listen", NOWHERE, f"{HOST}:0", "--status", address], UNDERSTOOD)
    for address in NO_ADDRESSES:
        stops(["serve", NOWHERE, address, "1", "1"], "usage")
        for options in ([], ["--log"], ["--log", "--log"], ["x"], ["--journal"], ["--status"], ["--journal", "j", "--follow", "j"]):
            stops(["listen", NOWHERE, address, *options], ADDR, "usage")
        for options in ([], ["--log"], ["x"], ["--status"]):
            stops(["listen", NOWHERE, f"{HOST}:0", "--status", address, *options], ADDR, "usage")
    for pause in PAUSES:
        stops(["listen", NOWHERE, f"{HOST}:0", "--watch", pause], UNDERSTOOD)
    for pause in NO_PAUSES:
        for options in ([], ["--log"], ["x"], ["--watch"]):
            stops(["listen", NOWHERE, f"{HOST}:0", "--watch", pause, *options], NEEDS_SECONDS, "usage")


def options():
    """Each line of up to four words of either five, and some of more."""
    words = ("--journal", "--log", "--log=json", "j", "--Log")
    others = ("--journal", "--log", "--status", LOCAL[0], "j")
    files = ("--journal", "--follow", "--log", "j", "--Follow")
    looks = ("--journal", "--watch", "--log", "60", "--Watch")
    lines = list(dict.fromkeys(line for five in (words, others, files, looks) for count in range(5)
                               for line in itertools.product(five, repeat=count)))
    lines += [(*front, "j", last, "x") for front in (("--log", "--journal"), ("--log", "--follow")) for last in (*words, *others, *files, *looks)]
    # each order of three options and of more, alone, and with one of them behind it a second time
    lines += [tuple("j" if it is None else LOCAL[0] if it is MONITORS else "60" if it is PAUSE else it for it in good) + more
              for good in GOOD["listen"] if len(good) >= 5
              for more in ((), ("--journal",), ("--follow", "k"), ("--log",), ("--log=json",), ("--status", "x"), ("--watch", "1"))]
    lines += [("--status=",), (f"--status={LOCAL[0]}",), ("--Status", LOCAL[0]), ("--status", LOCAL[0], LOCAL[0])]
    lines += [("--watch=",), ("--watch=1",), ("--Watch", "1"), ("--watch", "1", "1")]
    lines += [("--log=",), ("--log=text",), ("--log=JSON",), ("--log", "json"), ("--journal=j",), ("--follow=j",), ("-log",), ("--",), ("-",)]
    for command, front in FRONTS.items():
        for line in map(list, lines):
            stops([command, *front, *line], *(wrong(command, line) or (UNDERSTOOD,)))
    for option in (["--log"], ["--journal", "j"]):
        stops(["listen", *option, NOWHERE, f"{HOST}:0"], ADDR, "usage")


def shown(word):
    """A word as it is told: what is printable ASCII, and no space, as it stands, and each other byte by its number; 1,000 bytes of it."""
    front = b"".join(bytes([byte]) if 0x21 <= byte <= 0x7E else b"%%%02X" % byte for byte in word[:1000])
    return front + (b"..." if len(word) > 1000 else b"")


def words_told():
    """Words with bytes that a terminal would obey. One that isn't UTF-8 is understood nowhere, and not told."""
    for word in ("\x1b[2J", "\x1b]0;x\x07", "a\nb", "a\rb", "a\tb", "\x7f", "\x9b31m", "é", "\u202e", "😀", " ", "", "%1B", "a b", '"', "\\",
                 "~", "x" * 1000, "x" * 1001, "é" * 500, "é" * 501, "x" + "é" * 500):
        for command, front in FRONTS.items():
            stops([command, *front, word], b"unknown option: " + shown(word.encode()), "usage")
        stops([word], "usage")
    for words in ([b"\xff"], [b"listen", NOWHERE, f"{HOST}:0", b"--\xff"], [b"compact", b"\xff", "--journal", "j"]):
        stops(words, "usage")


def meanings():
    """What the words of a good line are taken for."""
    put("good.toml", OWNER + '[[page]]\npath = "a.md"\ntext = "[a](absent.md)"\n')
    put("spec", "`" * 32 + " example\na\n.\n<p>a</p>\n" + "`" * 32 + "\n")
    check(["examples", "spec"], (0, b"1 passed, 0 failed\n", b""))
    check(["check", "good.toml", "tok"], (1, b"a.md\t1\tpage\tabsent.md\n", b""))
    check(["check", "good.toml", "good.toml"], (2, b"", b"docs_server: unknown token\n"))
    check(["replay", "good.toml"], (0, b"conn 1\n", b""), stdin=b"connect\n")
    check(["folders", "good.toml"], (0, b"0 pages, 0 media, 0 bad\n", b""))
    check(["serve", "good.toml", f"{HOST}:0", "0", "0"], (0, f"listening {HOST}:0\n".encode(), b""))
    check(["compact", "good.toml", "--journal", "absent"], (2, b"", b"docs_server: cannot open journal\n"))
    for address in (f"{HOST}:0", "localhost:0"):
        for number, order in enumerate((["--journal", None], ["--journal", None, "--log"], ["--log", "--journal", None])):
            journal = f"{address}-{number}"
            line = [journal if word is None else word for word in order]
            check(["listen", "good.toml", address, *line],
                  (0, f"listening {address}\n".encode(), f"docs_server: new journal {journal}\n".encode()))
            scene.check(f"the journal of {line}", os.path.exists(journal))


# a line of the log by its option
LOGGED = {"--log": r"1 GET /page/a\.md 200 \d+ \d+",
          "--log=json": r'\{"time":"[-\d]{10}T[:\d]{8}\.\d{6}Z","conn":1,"reader":"reader-1","method":"GET","path":"/page/a\.md",'
                        r'"code":200,"bytes":\d+,"us":\d+\}'}


def logs():
    """A request has a line on standard error with `--log` or `--log=json`, wherever that stands, and none without."""
    for address, line in ((HOST, []), (HOST, ["--log"]), ("localhost", []), ("localhost", ["--log"]),
                          ("localhost", ["--journal", "k", "--log"]), ("localhost", ["--log", "--journal", "k"]),
                          (HOST, ["--log=json"]), ("localhost", ["--journal", "k", "--log=json"])):
        port = free_port()
        server = start([scene.program, "listen", "good.toml", f"{address}:{port}", *line], stdin=subprocess.PIPE, stdout=subprocess.PIPE,
                       stderr=subprocess.PIPE)
        told = server.stdout.readline()
        client = Client(port, "tok")
        code = client.ask("/page/a.md")[0]
        client.close()
        said = server.communicate(timeout=20)[1]
        lines = [it for it in said.decode().splitlines() if not it.startswith("docs_server: ")]
        form = next((it for it in line if it in LOGGED), None)
        right = len(lines) == (form is not None) and all(re.fullmatch(LOGGED[form], it) for it in lines)
        scene.check(f"{address} {line}", (told, code, server.returncode) == (f"listening {address}:{port}\n".encode(), 200, 0) and right,
                    f"{told} {code} {server.returncode} {said}")


def help_told():
    """Each command of docs/RUNNING.md has a line of its own, as it is written there, and no line is longer than 100 characters."""
    status, told, said = call(["--help"])
    lines = told.decode("ascii").splitlines()
    scene.check("--help", (status, said, told[-1:]) == (0, b"", b"\n") and max(map(len, lines)) <= 100, f"{status} {told} {said}")
    with open(TOP + "/docs/RUNNING.md") as page:
        rows = re.findall(r"(?m)^\| `((?:listen|lint|folders|compact|check|replay|serve)\b[^`]*)` \|", page.read())
    # a `|` within a table's cell stands behind a backslash
    forms = [row.replace(r"\|", "|") for row in rows]
    for form in [*forms, "demo", "render", "examples FILE", "--version", "--help"]:
        scene.check(f"the line of {form}", sum(it == form or it.startswith(form + "  ") for it in lines) == 1)


def main():
    for part in (commands, numbers_and_addresses, options, words_told, meanings, logs, help_told):
        part()


scene.run(main)
