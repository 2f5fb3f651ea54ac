"""Gives random configurations to `check`, good ones and broken ones, and compares whether each is taken with what another reader of
TOML (tomllib of Python's standard library, TOML 1.0) and the rules of docs/RUNNING.md and docs/SITE.md make of it. What TOML 1.1
takes beyond 1.0, as the reader here does, is counted apart and listed.

    python3 scripts/site/random_toml.py PROGRAM [COUNT [SEED]]

Builds nothing: PROGRAM is crates/docs_server/out/docs_server, or any other build. 500 texts take some seconds.
"""
import os, random, re, subprocess, sys, tomllib
sys.path.insert(1, os.path.dirname(__file__) + "/../lib")
from scene import Scene, put

scene = Scene(seconds=600, seconds_each=1, numbers=(500, 1), told="{right} passed, {wrong} failed")
pick = random.choice
# how many entries of the present text are odd ones
share = 0


def one_of(good, odd):
    """One of the good forms, or now and then an odd one: each text has its own share of these."""
    return pick(odd if random.random() < share else good)


def text(value):
    """A string in one of TOML's forms, now and then in none."""
    return one_of([f'"{value}"'] * 4 + [f"'{value}'", f'"""{value}"""', f"'''{value}'''", f'"""\n{value}"""', f'"{value}" # behind it',
                                        f'"""{value}\\\n   """'],
                  [f'"{value}', value, f'"{value}\\u0041"', f'"\\u{random.randrange(65536):04x}{value}"', f'"{value}\\q"',
                   f'"{value}\\x41"',
                   f'"{value}\\e"', f"'{value}\\n'", f'"\\U{random.randrange(0x120000):08X}"'])


def number():
    return one_of(["1", "64", "4096", "4_096", "0x10", "0o17", "0b11", "+5", "2 "],
                  ["0", "-1", "4097", "1.0", "1e3", "01", "1__0", "true", '"64"', "1979-05-27", "07:32:00", "07:32", "nan",
                   "9223372036854775808", "_1", "0X10"])


def truth():
    return one_of(["true", "false"], ["True", "1", '"true"', "[true]", "tru"])


def groups():
    names = [text(one_of(["team-a", "ops", "x" * 32, "0"], ["x" * 33, "A", "", "a_b"])) if random.random() < 0.3 else f'"g{i}"'
             for i in range(one_of([0, 1, 1, 2, 3, 32], [33]))]
    written = ", ".join(names)
    return one_of([f"[{written}]"] * 4 + [f"[{written},]" if names else "[]", "[\n  " + ",\n  ".join(names) + " # the last\n]"],
                  ['"ops"', "[1]", '[["ops"]]', "[,]"])


def token():
    return text(one_of(["tok", "a.b-c~d+e/f"], ["", "ö", "two words", "t=k"]) + str(random.randrange(1000)) + pick(["", "=="]))


def path():
    return text(one_of(["a.md", "guide/start.md", "a/b/c", "index.md", "ä.md", "/".join("s" * 16), "x" * 200],
                       ["", "/a", "a//b", "../a", ".", "a%20b", "a?b", "/".join("s" * 17), "x" * 201]))


def row(*entries):
    chosen = [(key, value()) for key, value, often in entries if random.random() < often]
    if random.random() < share / 3 and chosen:
        chosen.append(pick(chosen))
    random.shuffle(chosen)
    return chosen


def reader():
    return row(("token", token, 1 - share / 3), ("owner", truth, 0.5), ("groups", groups, 0.6), ("name", lambda: text("unknown key"), 0.1))


def page():
    both = random.random() < share / 3
    is_text = random.random() < 0.5
    return row(("path", path, 1 - share / 3), ("groups", groups, 0.6), ("text", lambda: text("[a](b.md)"), both or is_text),
               ("file", lambda: text(one_of(["page.md"], ["absent.md"])), both or not is_text))


def browse():
    """The table of the pages for people, which `check` passes over whatever it holds."""
    entries = row(("title", lambda: text(one_of(["Handbook"], ["", " Handbook"])), 0.5),
                  ("language", lambda: text(one_of(["en", "de-CH"], ["e", "en_GB"])), 0.5), ("home", path, 0.5), ("guest", groups, 0.5),
                  ("login", lambda: one_of(['"basic"'], ['"digest"', "true"]), 0.5))
    return f"[{key('browse')}]\n" + "".join(f"{key(k)} = {v}\n" for k, v in entries)


def key(name):
    return pick([name] * 6 + [f'"{name}"', f"'{name}'", f" {name} "])


def tables(name, rows):
    """An array of tables in one of its forms."""
    if random.random() < 0.75:
        return "".join(f"[[{key(name)}]]\n" + "".join(f"{key(k)} = {v}\n" for k, v in entries) for entries in rows)
    end = one_of([" "], [", ", "\n"])
    inline = ["{ " + ", ".join(f"{k} = {v}" for k, v in entries) + end + "}" for entries in rows]
    return one_of([f"{name} = [{', '.join(inline)}]\n"], [f"{name} = {inline[0] if inline else '[]'}\n"])


def configuration():
    settings = row(("keep_alive", truth, 0.4), ("cache", number, 0.4), ("entities", lambda: text(one_of(["table"], ["absent"])), 0.2),
                   ("unknown", number, 0.1), ("listen.connections", number, 0.05))
    whole = "".join(f"{k} = {v}\n" for k, v in settings)
    parts = [tables("reader", [reader() for _ in range(pick([0, 1, 1, 2]))]), tables("page", [page() for _ in range(pick([0, 1, 1, 2]))])]
    if random.random() < 0.2:
        parts.append(browse())
    random.shuffle(parts)
    inline = [it for it in parts if not it.startswith("[")]
    whole += "".join(inline) + "".join(it for it in parts if it.startswith("["))
    if random.random() < 2 * share and whole:
        at = random.randrange(len(whole))
        whole = pick([whole[:at] + whole[at + 1:], whole[:at] + pick('"\'[]{}=,.#\n\r\t\\ \x00\x7fé') + whole[at:], whole[:at]])
    return whole.replace("\n", "\r\n") if random.random() < 0.1 else whole


def is_path(value):
    parts = value.split("/") if isinstance(value, str) else []
    return (1 <= len(parts) <= 16 and len(value.encode()) <= 200 and not any(it in ("", ".", "..") for it in parts)
            and not re.search(r"[\x00-\x1f\x7f-\x9f\\%?#]", value))


def are_groups(value):
    return (isinstance(value, list) and all(isinstance(it, str) and re.fullmatch(r"[a-z0-9-]{1,32}", it) for it in value)
            and len(set(value)) <= 32)


def is_reader(it):
    return (isinstance(it, dict) and isinstance(it.get("token"), str) and re.fullmatch(r"[A-Za-z0-9._~+/-]+=*", it["token"])
            and isinstance(it.get("owner", False), bool) and are_groups(it.get("groups", [])))


def is_page(it):
    return (isinstance(it, dict) and is_path(it.get("path")) and are_groups(it.get("groups", [])) and ("text" in it) != ("file" in it)
            and isinstance(it.get("text", it.get("file")), str))


def integers(it):
    if isinstance(it, dict):
        it = list(it.values())
    return sum(map(integers, it), []) if isinstance(it, list) else [it] if type(it) is int else []


def wanted(whole):
    """The fault line that the text asks for, behind the program's name."""
    try:
        found = tomllib.loads(whole)
    except (tomllib.TOMLDecodeError, ValueError, RecursionError):
        return "config"
    readers, pages, cache = found.get("reader", []), found.get("page", []), found.get("cache", 64)
    good = (isinstance(readers, list) and all(map(is_reader, readers)) and len({it["token"] for it in readers}) == len(readers)
            and isinstance(pages, list) and all(map(is_page, pages)) and isinstance(found.get("keep_alive", True), bool)
            and type(cache) is int and 1 <= cache <= 4096 and isinstance(found.get("entities", ""), str)
            and all(-2 ** 63 <= it < 2 ** 63 for it in integers(found)))
    if not good:
        return "config"
    for name in [found[it] for it in ["entities"] if it in found] + [it["file"] for it in pages if "file" in it]:
        if name not in ("page.md", "table"):
            return f"cannot read {name}"
        if name == "page.md" and found.get("entities") == name:
            return "bad table"
    return "unknown token"


BEYOND = [(r"\\x[0-9A-Fa-f]{2}", "an escape of two digits"), (r"\\e", "the escape of ESC"),
          (r"\{[^{}]*\n[^{}]*\}", "an inline table on several lines"),
          (r",\s*\}", "a comma behind the last key of an inline table"), (r"\b\d\d:\d\d\b(?!:)", "a time without seconds")]
# how often a text is wanted to end so, and how often it has what TOML 1.1 alone takes
TOLD, BEYOND_1_0 = {}, {}


def count(counts, name):
    counts[name] = counts.get(name, 0) + 1


def tried(number):
    """Another text, and what `check` says of it."""
    global share
    share = pick([0, 0, 0.02, 0.05, 0.1])
    whole = configuration()
    put("site.toml", whole)
    ran = subprocess.run([scene.program, "check", "site.toml", "nobody"], capture_output=True, timeout=20)
    found = ran.stderr.decode(errors="replace").removeprefix("docs_server: ").removesuffix("\n")
    want = wanted(whole)
    count(TOLD, want.split(" ")[0])
    is_right = (found, ran.returncode, ran.stdout) == (want, 2, b"")
    reasons = [why for form, why in BEYOND if re.search(form, whole)] if not is_right and want == "config" and found != "config" else []
    for why in reasons:
        count(BEYOND_1_0, why)
    scene.check(f"text {number}", is_right or reasons, f"wanted {want!r}, found {found!r}, status {ran.returncode}\n{whole}")


def main():
    texts, seed = scene.numbers
    random.seed(seed)
    put("page.md", "A page\n")
    put("table", "zwp 200B\n")
    for number in range(texts):
        tried(number)
    print(f"{texts} texts:", ", ".join(f"{times} {it}" for it, times in sorted(TOLD.items())))
    print("taken as TOML 1.1 alone has it:", ", ".join(f"{it} {times}" for it, times in sorted(BEYOND_1_0.items())) or "none")


scene.run(main)
