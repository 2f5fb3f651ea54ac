"""Tries `token`: rows of new readers, read as TOML, with tokens that are all different; digests against hashlib's; each order of options,
and words that it doesn't take; what it is given and where it writes, failing. What is wanted is worked out from docs/RUNNING.md.

    python3 scripts/site/token.py PROGRAM

Builds nothing: PROGRAM is crates/docs_server/out/docs_server, or any other build. Half a minute.
"""
import base64, hashlib, itertools, os, random, re, subprocess, sys, tomllib
sys.path.insert(1, os.path.dirname(__file__) + "/../lib")
from scene import Scene, put, start

scene = Scene(seconds=300, needs=["strace"], told="{right} of {all} as they should be")
NAME = "NAME is 1 to 32 of a-z, 0-9, -, _, . and @"
GROUP = "a group's name is 1 to 32 of a-z, 0-9 and -"
MANY = "more than 32 groups"
NEEDS = "--groups needs names of groups: a,b"
ROW = re.compile(r'# token, shown once: ([A-Za-z0-9_-]{43})\n\[\[reader\]\]\nname = "([^"\n]*)"\ntoken_sha256 = "([0-9a-f]{64})"\n'
                 r'(owner = true\n)?(?:groups = \[("[^\]\n]*)\]\n)?')
NAMES = ("ann", "a", "0", "_", "-", "--owner", "a.b", "ann@example.org", "x" * 32, "0-9_a.z@")
NO_NAMES = ("", "Ann", "x" * 33, "a b", "a\n", "ä", "a,b", 'a"', "a\\", "a/b", "a#b", "a+b", "~a", "\x1b[2J", "😀", "a" * 5000)
GROUPS = {"": [], "a": ["a"], "staff,ops": ["ops", "staff"], "a,a,a": ["a"], "-,0,z": ["-", "0", "z"], "x" * 32: ["x" * 32],
          ",".join(f"g{it}" for it in range(32)): sorted(f"g{it}" for it in range(32)),
          ",".join(f"g{it % 32}" for it in range(100)): sorted(f"g{it}" for it in range(32)), "--owner": ["--owner"]}
NO_GROUPS = {",": GROUP, "a,": GROUP, ",a": GROUP, "a,,b": GROUP, "A": GROUP, "a b": GROUP, "a, b": GROUP, "a_b": GROUP, "x" * 33: GROUP,
             "ä": GROUP, '"': GROUP, ",".join(f"g{it}" for it in range(33)): MANY,
             ",".join(["A", *(f"g{it}" for it in range(33))]): GROUP}
# each is a token, of which the digest is told
TOKENS = ("a", "tok", "abc", "A-Z.a_z~0+9/", "a=", "a==", "x" * 43, "x" * 1000, "x" * 16383, "test")
NO_TOKENS = ("", " ", "=", "a b", " a", "a ", "a\r", "a=b", "ä", "\0", "a\t", "a,b", '"a"', "x" * 16384, "x" * 100000)


def call(words, stdin=b"", before=(), **given):
    done = subprocess.run([*before, scene.program, "token", *words], input=stdin, timeout=60, **{"capture_output": True, **given})
    return done.returncode, done.stdout, done.stderr


def stops(words, *lines, **given):
    """It ends with status 2, and prints these lines alone, on standard error."""
    found = call(words, **given)
    wanted = 2, b"", b"".join(f"docs_server: {line}\n".encode() for line in lines)
    scene.check(repr(words)[:200], found == wanted, f"{found}, wanted {wanted}")


def row(words, name, is_owner, groups):
    """The token of a row, which is as it should be."""
    status, told, said = call(words)
    found = ROW.fullmatch(told.decode("ascii", "replace"))
    if not scene.check(repr(words), (status, said) == (0, b"") and found, f"{status} {told} {said}"):
        return None
    token = found[1]
    wanted = {"name": name, "token_sha256": hashlib.sha256(token.encode()).hexdigest()}
    wanted |= {"owner": True} if is_owner else {}
    wanted |= {"groups": groups} if groups else {}
    read = tomllib.loads(told.decode())
    scene.check(f"the row of {words}", read == {"reader": [wanted]}, f"{read}, wanted {wanted}")
    scene.check(f"the bytes of {token}", len(bytes_of(token)) == 32 and base64.urlsafe_b64encode(bytes_of(token)) == token.encode() + b"=")
    return token


def bytes_of(token):
    return base64.urlsafe_b64decode(token + "=")


# ---- the lines

def rows():
    for name in NAMES:
        row([name], name, False, [])
    for groups, wanted in GROUPS.items():
        row(["ann", "--groups", groups], "ann", False, wanted)
        row(["ann", "--owner", "--groups", groups], "ann", True, wanted)
        row(["ann", "--groups", groups, "--owner"], "ann", True, wanted)
    row(["ann", "--owner"], "ann", True, [])


def wrong_words():
    stops([], "usage")
    for name in NO_NAMES:
        for options in ([], ["--owner"], ["--groups", "a"], ["--groups", "A"]):
            stops([name, *options], NAME, "usage")
    for groups, line in NO_GROUPS.items():
        stops(["ann", "--groups", groups], line, "usage")
        stops(["ann", "--groups", groups, "--owner"], line, "usage")
    stops(["ann", "--groups"], NEEDS, "usage")
    for word in ("what", "--Owner", "--owner=", "--groups=a", "-o", "", "--journal", "--log", "--hash"):
        stops(["ann", word], f"unknown option: {word}", "usage")
        stops(["--hash", word], f"unknown option: {word}", "usage")
    stops(["Ann", "\x1b[2J"], "unknown option: %1B[2J", "usage")
    stops([b"\xff"], "usage")


def options():
    """Each line of up to four words behind a name."""
    for count in range(5):
        for line in map(list, itertools.product(("--owner", "--groups", "a"), repeat=count)):
            wanted, is_owner, groups = wanted_of(line)
            if wanted:
                stops(["ann", *line], wanted, "usage")
            else:
                row(["ann", *line], "ann", is_owner, groups)


def wanted_of(line):
    """What is told of the first word that isn't understood, or what the row has."""
    is_owner, groups, words = False, None, list(line)
    while words:
        word = words.pop(0)
        if word == "--owner" and not is_owner:
            is_owner = True
        elif word == "--groups" and groups is None:
            if not words:
                return NEEDS, None, None
            groups = [words.pop(0)]
        else:
            return f"{word} stands twice" if word.startswith("--") else f"unknown option: {word}", None, None
    return None, is_owner, groups


def names_by_chance():
    chance = random.Random(1)
    for _ in range(200):
        name = "".join(chance.choice("abz09-_.@") for _ in range(chance.randint(1, 34)))
        if chance.random() < 0.2:
            name += chance.choice("AZ ,;:/+~'ß")
        if re.fullmatch("[a-z0-9_.@-]{1,32}", name):
            row([name], name, False, [])
        else:
            stops([name], NAME, "usage")


def tokens():
    """1,000 tokens are different, and each place of 43 has all that it may: of the last one's six bits the last two are none."""
    found = [ROW.fullmatch(call(["ann"])[1].decode())[1] for _ in range(1000)]
    scene.check("1,000 tokens are different", len(set(found)) == 1000)
    scene.check("tokens are of 43 characters", all(re.fullmatch("[A-Za-z0-9_-]{43}", it) for it in found))
    for place in range(43):
        kinds = {it[place] for it in found}
        scene.check(f"place {place}", len(kinds) >= (16 if place == 42 else 60), f"{len(kinds)}")
    ones = sum(bin(int.from_bytes(bytes_of(it), "big")).count("1") for it in found)
    scene.check("as many ones as zeros", abs(ones - 128_000) < 1_500, f"{ones} of 256,000")


def digests():
    for token in TOKENS:
        wanted = 0, hashlib.sha256(token.encode()).hexdigest().encode() + b"\n", b""
        for end in ("", "\n", "\n\n", "\nmore\n", "\n\0"):
            found = call(["--hash"], stdin=(token + end).encode())
            scene.check(f"the digest of {token[:50]}", found == wanted, f"{found}")
    for token in NO_TOKENS:
        for end in ("", "\n", "\ntok\n"):
            stops(["--hash"], "not a bearer token", stdin=(token + end).encode())
    token = row(["ann"], "ann", False, [])
    told = subprocess.run(f"printf %s {token} | sha256sum", shell=True, capture_output=True).stdout
    scene.check("as sha256sum has it", call(["--hash"], stdin=token.encode())[1] == told[:64] + b"\n")
    known = b"9f86d081884c7d659a2feaa0c55ad015a3bf4f1b2b0b822cd15d6c15b0f00a08\n"
    scene.check("the digest of test", call(["--hash"], stdin=b"test\n")[1] == known)


def line_by_line():
    """The digest is told once the line is there, though the input goes on; and of a line that comes in pieces."""
    for pieces in ((b"tok\n",), (b"t", b"o", b"k\n"), (b"tok", b"\n")):
        process = start([scene.program, "token", "--hash"], stdin=subprocess.PIPE, stdout=subprocess.PIPE, stderr=subprocess.PIPE)
        for piece in pieces:
            os.write(process.stdin.fileno(), piece)
        told = process.stdout.readline()
        scene.check(f"the digest of {pieces}", (told, process.wait(timeout=20)) == (hashlib.sha256(b"tok").hexdigest().encode() + b"\n", 0))
        process.communicate()


def failures():
    """Randomness, standard input and standard output that aren't given."""
    stops(["ann"], "cannot make a token", before=["strace", "-o", "trace", "-e", "trace=getrandom", "-e", "inject=getrandom:error=EIO"])
    scene.check("the randomness is asked for", "getrandom" in open("trace").read())
    stops(["Ann"], NAME, "usage", before=["strace", "-o", "trace", "-e", "trace=getrandom", "-e", "inject=getrandom:error=EIO"])
    # a folder as standard input, of which no read is answered
    folder = os.open(".", os.O_RDONLY)
    done = subprocess.run([scene.program, "token", "--hash"], stdin=folder, capture_output=True, timeout=60)
    os.close(folder)
    scene.check("a folder as input", (done.returncode, done.stdout, done.stderr) == (2, b"", b"docs_server: cannot read -\n"), f"{done}")
    for words in (["ann"], ["--hash"]):
        with open("/dev/full", "wb") as full:
            status, _, said = call(words, stdin=b"tok\n", capture_output=False, stdout=full, stderr=subprocess.PIPE)
        scene.check(f"{words} on a full disk", (status, said) == (2, b"docs_server: cannot write\n"), f"{status} {said}")


def signs_in():
    """A token that is made is one that a configuration takes."""
    for _ in range(20):
        token = row(["ann", "--owner"], "ann", True, [])
        put("site.toml", f'[[reader]]\ntoken = "{token}"\nowner = true\n[[page]]\npath = "a.md"\ntext = "[a](absent.md)"\n')
        done = subprocess.run([scene.program, "check", "site.toml", token], capture_output=True)
        scene.check(f"a reader of {token}", (done.returncode, done.stdout) == (1, b"a.md\t1\tpage\tabsent.md\n"), f"{done}")


def main():
    for part in (rows, wrong_words, options, names_by_chance, tokens, digests, line_by_line, failures, signs_in):
        part()


scene.run(main)
