"""Tries what stops the program, by the line and the status that it ends with: each command with each of its faults, and with two at once,
of which the earlier one is told. What is wanted is worked out from the table of faults in docs/RUNNING.md.

    python3 scripts/site/faults.py PROGRAM

Builds nothing: PROGRAM is crates/docs_server/out/docs_server, or any other build. Takes a few seconds, and listens at one address of
this machine, which is taken twice.
"""
import os, resource, socket, subprocess, sys
sys.path.insert(1, os.path.dirname(__file__) + "/../lib")
from scene import OWNER, Scene, put

scene = Scene(seconds=600, told="{right} of {all} as they should be")
COMMANDS = {"check": ["tok"], "replay": [], "serve": ["127.0.0.1:0", "0", "0"]}
USAGES = ([], [""], ["dem"], ["Demo"], ["demo", "x"], ["render", "x"], ["examples"], ["examples", "a", "b"], ["check"],
          ["check", "good.toml"], ["check", "good.toml", "tok", "x"], ["replay"], ["replay", "good.toml", "x"], ["serve"],
          ["serve", "good.toml"], ["serve", "good.toml", "127.0.0.1:0"], ["serve", "good.toml", "127.0.0.1:0", "1"],
          ["serve", "good.toml", "127.0.0.1:0", "1", "1", "x"])
NO_COUNTS = ("", "+1", "-1", " 1", "1 ", "1.0", "0x1", "one", "4294967296", "99999999999999999999")
NO_ADDRESSES = ("", "127.0.0.1", "localhost:80", ":80", "127.0.0.1:", "127.0.0.1:65536", "127.0.0.1:+1", "256.0.0.1:80", "::1:80",
                " 127.0.0.1:80")


# ---- files

def site(name, pages="", entities=""):
    """A configuration with one reader, and this behind it."""
    put(name, (f'entities = "{entities}"\n' if entities else "") + OWNER + pages)


def page(path, file):
    return f'[[page]]\npath = "{path}"\nfile = "{file}"\n'


def files():
    """What the configurations name, and those that are refused by themselves."""
    os.mkdir("folder")
    put("bytes", b"\xff\xfe\n")
    put("whole.md", "[a](absent.md)\n")
    put("plain.md", "Hello\n")
    put("long.md", b"a" * 1_048_577)
    put("table", "zwp 200B\n")
    put("bad_row", "1x 41\n")
    put("twice", "copy AE\n")
    put("spec", "`" * 32 + " example\na\n.\n<p>a</p>\n" + "`" * 32 + "\n")
    put("no.toml", "x =\n")
    put("row.toml", '[[reader]]\ntoken = "a b"\n')
    put("setting.toml", "cache = 0\n")
    put("page.toml", "[[page]]\n")
    put("page_and_file.toml", "[[page]]\n" + page("a.md", "absent"))


def sites():
    """Configurations with pages and tables."""
    site("good.toml", page("a.md", "whole.md"), "table")
    site("whole.toml", page("a.md", "plain.md"))
    site("absent.toml", page("a.md", "absent"))
    site("absent_second.toml", page("a.md", "whole.md") + page("b.md", "absent_b") + page("c.md", "absent_c"))
    site("folder.toml", page("a.md", "folder"))
    site("bytes.toml", page("a.md", "bytes"))
    site("no_table.toml", page("a.md", "absent_b"), "absent_table")
    site("table_folder.toml", "", "folder")
    site("table_bytes.toml", "", "bytes")
    site("bad_row.toml", page("a.md", "whole.md"), "bad_row")
    site("twice.toml", page("a.md", "whole.md"), "twice")
    site("table_and_page.toml", page("a.md", "absent"), "bad_row")
    site("long.toml", page("a.md", "long.md"))
    site("table_and_long.toml", page("a.md", "long.md"), "bad_row")
    most = "".join(page(f"{number}.md", "plain.md") for number in range(10_000))
    site("most.toml", most)
    site("most_and_again.toml", most + page("0.md", "whole.md"))
    site("too_many.toml", most + page("a.md", "plain.md"))


# ---- one call

def closed_pipe():
    back, front = os.pipe()
    os.close(back)
    return front


def few_files():
    """The listener is the last file that may be opened."""
    resource.setrlimit(resource.RLIMIT_NOFILE, (4, 4))


def call(words, stdin=b"", stdout="kept", limit=None):
    """The status, the output that is kept, and what is printed on standard error."""
    given = {}
    if isinstance(stdin, bytes):
        given["input"] = stdin
    else:
        given["stdin"] = os.open(stdin, os.O_RDONLY)
    if stdout == "kept":
        given["stdout"] = subprocess.PIPE
    elif stdout == "pipe":
        given["stdout"] = closed_pipe()
    else:
        given["stdout"] = os.open(stdout, os.O_WRONLY)
    done = subprocess.run([scene.program, *words], stderr=subprocess.PIPE, timeout=60, preexec_fn=limit, **given)
    for name in ("stdin", "stdout"):
        if name in given and given[name] != subprocess.PIPE:
            os.close(given[name])
    return done.returncode, done.stdout or b"", done.stderr


def show(words, stdin, stdout):
    return f"{' '.join(repr(it) if ' ' in it or not it else it for it in words)} < {stdin[:20]!r} > {stdout}"


def check(words, wanted, stdin=b"", stdout="kept", limit=None, output=b""):
    status, told, fault = call(words, stdin, stdout, limit)
    scene.check(show(words, stdin, stdout), (status, told, fault) == (*wanted[:1], output, wanted[1]),
                f"status {status}, output {told[:80]!r}, fault {fault!r}; wanted {wanted}, {output[:80]!r}")


def stops(words, line, **given):
    check(words, (2, f"docs_server: {line}\n".encode()), **given)


def ends(words, status, output, **given):
    check(words, (status, b""), output=output, **given)


# ---- what stops a command, in the order in which it is found

def usage():
    for words in USAGES:
        stops(words, "usage")
    for count in NO_COUNTS:
        stops(["serve", "good.toml", "127.0.0.1:0", count, "1"], "usage")
        stops(["serve", "good.toml", "127.0.0.1:0", "1", count], "usage")
    for address in NO_ADDRESSES:
        stops(["serve", "good.toml", address, "1", "1"], "usage")
    stops(["serve", "absent.toml", "127.0.0.1:0", "1", "x"], "usage")
    stops(["serve", "nowhere.toml", "here", "1", "1"], "usage", stdout="/dev/full")


def named_files():
    """A file that the arguments name."""
    for name in ("nowhere", "folder", "bytes", ""):
        stops(["examples", name], f"cannot read {name}")
        stops(["examples", name], f"cannot read {name}", stdout="/dev/full")
        for command, rest in COMMANDS.items():
            stops([command, name, *rest], f"cannot read {name}")
            stops([command, name, *rest], f"cannot read {name}", stdin=b"\xff", stdout="/dev/full")


def configurations():
    """A configuration, and the files that it names."""
    for command, rest in COMMANDS.items():
        for name in ("no.toml", "row.toml", "setting.toml", "page.toml", "page_and_file.toml"):
            stops([command, name, *rest], "config", stdin=b"\xff", stdout="/dev/full")
        for name, file in (("absent", "absent"), ("absent_second", "absent_b"), ("folder", "folder"), ("bytes", "bytes"),
                           ("no_table", "absent_table"), ("table_folder", "folder"), ("table_bytes", "bytes"),
                           ("table_and_page", "absent")):
            stops([command, name + ".toml", *rest], f"cannot read {file}")
            stops([command, name + ".toml", *rest], f"cannot read {file}", stdin=b"\xff", stdout="/dev/full")
        for name in ("bad_row", "twice", "table_and_long"):
            stops([command, name + ".toml", *rest], "bad table", stdin=b"\xff", stdout="/dev/full")
        stops([command, "long.toml", *rest], "refused", stdin=b"\xff", stdout="/dev/full")
        stops([command, "too_many.toml", *rest], "refused", stdin=b"\xff", stdout="/dev/full")


def configurations_and_more():
    """Sites at the limit of pages, and a configuration with something else that stops its command."""
    stops(["check", "too_many.toml", "tok-x"], "refused")
    ends(["check", "most.toml", "tok"], 0, b"")
    ends(["check", "most_and_again.toml", "tok"], 1, b"0.md\t1\tpage\tabsent.md\n")
    ends(["replay", "most.toml"], 0, b"conn 1\n", stdin=b"connect\n")
    stops(["check", "absent.toml", "tok-x"], "cannot read absent")
    stops(["check", "bad_row.toml", "tok-x"], "bad table")
    stops(["check", "long.toml", "tok-x"], "refused")
    stops(["serve", "long.toml", "192.0.2.1:80", "1", "1"], "refused")


def tokens():
    """A token, and the report."""
    ends(["check", "good.toml", "tok"], 1, b"a.md\t1\tpage\tabsent.md\n")
    ends(["check", "whole.toml", "tok"], 0, b"")
    for token in ("tok-x", "", "tok ", "Bearer tok"):
        stops(["check", "good.toml", token], "unknown token")
        stops(["check", "good.toml", token], "unknown token", stdout="/dev/full")


def inputs():
    """Standard input."""
    for name in ("folder", "bytes"):
        stops(["render"], "cannot read -", stdin=name)
        stops(["render"], "cannot read -", stdin=name, stdout="/dev/full")
        stops(["replay", "good.toml"], "cannot read -", stdin=name)
        stops(["replay", "good.toml"], "cannot read -", stdin=name, stdout="/dev/full")
    stops(["demo"], "cannot read -", stdin="folder")
    ends(["demo"], 0, b"", stdin=b"\xff")
    stops(["demo"], "refused", stdin=b"a" * 4_194_305, stdout="/dev/full")
    for number, script in ((1, b"connec\n"), (1, b"\n"), (1, b"connect\r\n"), (2, b"connect\npush 1\n"),
                           (3, b"connect\nstep 1\nput a.md -\n"), (2, b"connect\nx\ny\n"), (1, b"remove ../a.md\n")):
        stops(["replay", "good.toml"], f"bad script line {number}", stdin=script)
        stops(["replay", "good.toml"], f"bad script line {number}", stdin=script, stdout="/dev/full")
    stops(["replay", "good.toml"], "cannot read -", stdin=b"connec\n\xff\n")
    ends(["replay", "good.toml"], 0, b"", stdin=b"")
    ends(["replay", "good.toml"], 0, b"conn 1\nmore\nrefused NoConnection\ntrue\n", stdin=b"connect\nstep 1\nstep 2\nremove a.md")


def outputs():
    """An output that takes nothing."""
    head = b"GET /page/a.md HTTP/1.1\r\nHost: docs\r\nAuthorization: Bearer tok-ann\r\n\r\n"
    for stdout in ("/dev/full", "pipe"):
        stops(["demo"], "cannot write", stdin=head, stdout=stdout)
        stops(["render"], "cannot write", stdin=b"a\n", stdout=stdout)
        stops(["examples", "spec"], "cannot write", stdout=stdout)
        stops(["check", "good.toml", "tok"], "cannot write", stdout=stdout)
        stops(["replay", "good.toml"], "cannot write", stdin=b"connect\n", stdout=stdout)
        stops(["serve", "good.toml", "127.0.0.1:0", "0", "0"], "cannot write", stdout=stdout)
    ends(["examples", "spec"], 0, b"1 passed, 0 failed\n")


def sockets():
    ends(["serve", "good.toml", "127.0.0.1:0", "0", "0"], 0, b"listening 127.0.0.1:0\n")
    ends(["serve", "good.toml", "127.0.0.1:00", "000", "4294967295"], 0, b"listening 127.0.0.1:00\n")
    stops(["serve", "good.toml", "192.0.2.1:80", "1", "1"], "socket")
    stops(["serve", "good.toml", "192.0.2.1:80", "1", "1"], "socket", stdout="/dev/full")
    with socket.socket() as taken:
        taken.bind(("127.0.0.1", 0))
        taken.listen()
        stops(["serve", "good.toml", f"127.0.0.1:{taken.getsockname()[1]}", "1", "1"], "socket")
    stops(["serve", "whole.toml", "127.0.0.1:0", "1", "1"], "socket", limit=few_files, output=b"listening 127.0.0.1:0\n")
    stops(["serve", "whole.toml", "127.0.0.1:0", "1", "1"], "cannot write", limit=few_files, stdout="/dev/full")


def main():
    files()
    sites()
    for part in (usage, named_files, configurations, configurations_and_more, tokens, inputs, outputs, sockets):
        part()


scene.run(main)
