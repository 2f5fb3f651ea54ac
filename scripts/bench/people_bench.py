"""Loads the pages for people of `listen` with 64 connections of wrk over 127.0.0.1, kept alive (`Accept: text/html`), and in the same run
nginx, tuned for such files (`open_file_cache`, `sendfile off`), with files of the same bytes. Each server is on one core and wrk on
another. The pages of the site are of 4 kB of CommonMark with 20 links and 6 headings, 50 in a folder and 10 in the first one; the reader
who asks sees the first 100. Of sites of 10, of 60 and of 10,000 pages these are asked for, kept in the server's cache:

- a page in the folder of 10, which 9 pages link to;
- a page in the folder of 50, which some 20 pages link to;
- a page in the folder of 50, which also each page links to that the reader doesn't see.

The bytes of a page are the same on each site. Prints requests a second, the server's processor time a request (its own code, the kernel's;
from /proc/PID/stat), and the time within which 99 in 100 and half were answered: of RUNS runs, which take turns, that with the least
processor time, and the least times. Then, with 10,000 pages, the processor time of a list, for an owner and for that reader, asked one
after another for a second: the least of RUNS runs. Then resident memory, now and at most, with `[browse]` and without, with 2,500, 5,000
and 10,000 pages.

The goals: at most 2.0 times the processor time of nginx, tuned, and 99 in 100 no later; with 10,000 pages within one fifth of what the same
page takes on the small site. The last line says how many of them are met.

    python3 scripts/bench/people_bench.py PROGRAM [SECONDS [RUNS [PART]]]

PART is 1 (the load), 2 (the lists), 3 (memory) or 0 (these three); or 4: how many instructions the same pages take, and where, as
valgrind counts them, which no other load changes. Builds nothing. Needs python3, taskset, wrk and nginx (Debian's nginx-light), which it
has installed where they lack. Takes 9 times SECONDS (3) times RUNS (3), and some minutes more. What else runs on the machine changes the
other figures, and the ratios less.
"""
import itertools, os, random, re, shutil, subprocess, sys
sys.path.insert(1, os.path.dirname(__file__) + "/../lib")
from beside import CONNECTIONS, TUNED, Nginx, cheapest, microseconds, tell
from scene import HOST, Client, Scene, needs, put, used
from timing import measured

scene = Scene(seconds=1_200, seconds_each=120, numbers=(3, 3, 0), needs=["nginx=nginx-light", "wrk", "taskset=util-linux"])
CORE, PEOPLE, BROWSE = ("taskset", "-c", "0"), "Accept: text/html", '[browse]\ntitle = "Our handbook"\n'
COUNTS, SEEN, LENGTH, LINKS = (10, 60, 2_500, 5_000, 10_000), 100, 4_096, 20
FEW, SOME, *MORE, MANY = COUNTS
SYLLABLES = [one + two for one in "bdfghklmnprstvz" for two in "aeiou"]
READERS = '[[reader]]\ntoken = "own"\nowner = true\n[[reader]]\ntoken = "tok"\ngroups = ["press", "team"]\n'
TEN, FIFTY, CENTER = "folder-000/page-05.md", "folder-001/page-25.md", "folder-001/page-00.md"
KINDS = ((TEN, "a page in a folder of 10", (FEW, MANY)), (FIFTY, "a page in a folder of 50", (SOME, MANY)),
         (CENTER, "a page in a folder of 50 that all hidden pages link to", (SOME, MANY)))


# ---- the site

def words_of_site():
    """5,000 words, of which 100 begin with `con`."""
    chance, words = random.Random(1), {}
    while len(words) < 5_000:
        word = "".join(chance.choices(SYLLABLES, k=chance.choice((2, 3, 3, 4))))
        words["con" + word if len(words) % 50 == 7 else word] = None
    return list(words)


WORDS = words_of_site()
# a word is met the less often the later it stands
OFTEN = list(itertools.accumulate(1 / at for at in range(1, len(WORDS) + 1)))


def place(number):
    """The folder of a page, and its number there: ten pages are in the first folder and fifty in each other one."""
    return (0, number) if number < 10 else divmod(number + 40, 50)


def path_of(number):
    return "folder-{:03}/page-{:02}.md".format(*place(number))


def targets_of(number, count, chance):
    """Where the links of a page lead. Those of the pages that the reader sees stay in their folder, so they are the same on each site."""
    folder, _ = place(number)
    here = range(10) if folder == 0 else range(folder * 50 - 40, min(folder * 50 + 10, count))
    targets = [path_of(chance.choice(here)) for _ in range(LINKS)]
    if number >= SEEN:
        targets[:4] = [CENTER, *(path_of(chance.randrange(count)) for _ in range(3))]
    if number >= count * 9 // 10 and number >= SEEN and number % 10 == 0:
        targets[4] = "folder-000/gone.md"
    return targets


def text_of(number, count):
    """Twenty paragraphs with a link each, and six headings: some 300 different words, 16 of them the page's own."""
    chance = random.Random(number)
    text = f"# {chance.choice(WORDS)} {chance.choice(WORDS)} {number}\n\n"
    for part, target in enumerate(targets_of(number, count, chance)):
        if part % 4 == 0:
            text += f"## {chance.choice(WORDS)} {chance.choice(WORDS)}\n\n"
        text += f"[{chance.choice(WORDS)} {chance.choice(WORDS)}](/{target})" + (f" own{number:05}{part:02}" if part < 16 else "")
        words = iter(chance.choices(WORDS, cum_weights=OFTEN, k=60))
        while len(text) < LENGTH * (part + 1) // LINKS - 12:
            text += " " + next(words)
        text += ".\n\n"
    return text


def site(count, browse=True):
    """The configuration of a site of so many pages, whose files it writes."""
    pages = []
    for number in range(count):
        if not os.path.exists(f"{count}/{number}.md"):
            put(f"{count}/{number}.md", text_of(number, count))
        groups = '"staff"' + (', "team"' if number % 3 else ', "press"') * (number < SEEN)
        pages.append(f'[[page]]\npath = "{path_of(number)}"\ngroups = [{groups}]\nfile = "{count}/{number}.md"\n')
    name = f"{count}-{'browse' if browse else 'plain'}.toml"
    put(name, BROWSE * browse + READERS + "".join(pages))
    return name


def serve(count, browse=True):
    return scene.listen(site(count, browse), before=CORE, wait=400)


def served(server, target, token="tok", fields=PEOPLE + "\r\n"):
    """What a request is answered."""
    client = Client(server.port, token, timeout=120)
    code, _, body = client.ask(target, fields=fields)
    client.close()
    if code != 200:
        sys.exit(f"{target}: {code}")
    return body


# ---- speed

def loaded(server, target):
    """A run of wrk: the processor time of a request in the server's own code and in the kernel, requests a second, and the times of 99 in
    100 and of half."""
    seconds = scene.numbers[0]
    words = ["taskset", "-c", "1", "wrk", "-t", "1", "-c", str(CONNECTIONS), "-d", f"{seconds}s", "--latency", "-H", PEOPLE,
             "-H", "Authorization: Bearer tok", f"http://{HOST}:{server.port}{target}"]
    before = used(server.pid)
    said = subprocess.run(words, capture_output=True, text=True, timeout=seconds + 60).stdout
    if re.search(r"Non-2xx|Socket errors", said) or "requests in" not in said:
        sys.exit(f"wrk saw failures:\n{said}")
    rate, requests = (float(re.search(it, said)[1]) for it in (r"Requests/sec:\s+([\d.]+)", r"(\d+) requests in"))
    times = [microseconds(re.search(rf"(?m)^\s+{part}%\s+(\S+)", said)[1]) for part in (99, 50)]
    return tuple((now - then) / requests for now, then in zip(used(server.pid), before)), rate, times


def told(name, found):
    """Prints the run with the least processor time, with the least times; that time, and that of 99 in 100."""
    slow, half = (min(it[2][part] for it in found) for part in (0, 1))
    return tell(f"  {name:34}", cheapest(found), f"{slow / 1e3:.2f} ms, half within {half / 1e3:.2f} ms"), slow


def compared(found, path, name, counts, length):
    """The rows of a page on each site and of nginx, and whether the goals are met."""
    print(f"{CONNECTIONS} connections, {name}, {length:,} bytes, the least of {scene.numbers[1]} runs of {scene.numbers[0]} s")
    there, slow_there = told("nginx, tuned", found[path, "nginx"])
    rows = [(count, *told(f"docs_server listen, {count:,} pages", found[path, count])) for count in counts]
    for count, here, slow in rows:
        print(f"  {count:,} pages: {here / there:.2f} times the processor time of nginx, tuned (goal 2.0)")
        scene.check(f"{name}, {count:,} pages: processor time", here <= 2.0 * there, f"{here / there:.2f}")
        scene.check(f"{name}, {count:,} pages: 99 in 100", slow <= slow_there, f"{slow:.0f} us, nginx {slow_there:.0f}")
    few, many = rows[0][1], rows[-1][1]
    print(f"  {rows[-1][0]:,} pages: {many / few:.2f} times that of {rows[0][0]:,} pages (goal 1.2)", flush=True)
    scene.check(f"{name}: many pages as few", many <= 1.2 * few, f"{many / few:.2f}")


def all_loaded(servers):
    """The runs of wrk for each page, on each site and of nginx, which take turns."""
    nginx, found = Nginx(scene.scratch, "tuned", TUNED, CORE), {}
    for _ in range(scene.numbers[1]):
        for path, _, counts in KINDS:
            found.setdefault((path, "nginx"), []).append(loaded(nginx, "/" + path))
            for count in counts:
                found.setdefault((path, count), []).append(loaded(servers[count], "/page/" + path))
    nginx.end()
    return found


def speed():
    servers = {count: serve(count) for count in (FEW, SOME, MANY)}
    for path, name, counts in KINDS:
        first, other = (served(servers[count], "/page/" + path) for count in counts)
        scene.check(f"{name}: the same bytes on each site", first == other, f"{len(first)} {len(other)}")
        scene.check(f"{name}: links", first.split(b"</article>")[0].count(b'<a href="/page/') == LINKS)
        put("files/" + path, first)
    found = all_loaded(servers)
    for path, name, counts in KINDS:
        compared(found, path, name, counts, os.path.getsize("files/" + path))
    for count, server in servers.items():
        scene.ends(server, f"speed, {count} pages")


# ---- lists

LISTS = [(name, target, PEOPLE + "\r\n") for name, target in (
    ("a page in a folder of 50", "/page/" + FIFTY),
    ("search: a word of one page", "/search?q=own0004203"),
    ("search: a word on each page", f"/search?q={WORDS[0]}"),
    ("search: that word and a rarer one", f"/search?q={WORDS[0]}+{WORDS[50]}"),
    ("search: a word of each path", "/search?q=page"),
    ("search: a prefix of 100 words", "/search?q=con"),
    ("backlinks: some 20 sources", "/backlinks/" + FIFTY),
    ("backlinks: each page", "/backlinks/" + CENTER),
    ("broken: the first is on page 9,000", "/broken"),
    ("broken: from page 9,000 on, one link in 200", "/broken?from=" + path_of(9_000)),
    ("contents of all", "/contents"),
    ("contents of a folder of 50", "/contents/folder-001/"),
)] + [("a page in a folder of 50, as programs get it", "/page/" + FIFTY, "")]


def asked(server, token, target, fields):
    """The processor time of a request in microseconds: of as many as a second has, and three at least."""
    client, before, count = Client(server.port, token, timeout=120), server.used(), 0
    while count < 3 or sum(server.used()) - sum(before) < 1e6:
        for _ in range(max(1, count // 3)):
            client.ask(target, fields=fields)
            count += 1
    client.close()
    return (sum(server.used()) - sum(before)) / count


def lists():
    server = serve(MANY)
    print(f"lists with {MANY:,} pages, processor time of a request, the least of {scene.numbers[1]} runs: an owner, who sees all; a reader "
          f"who sees {SEEN}")
    for name, target, fields in LISTS:
        row = ""
        for token in ("own", "tok"):
            took = min(asked(server, token, target, fields) for _ in range(scene.numbers[1]))
            row += f"{took:12,.1f} us ({len(served(server, target, token, fields)):6,} bytes)"
        print(f"  {name:46}{row}", flush=True)
    scene.ends(server, "lists")


# ---- memory

def sizes(server):
    """Its resident size now, and the largest one so far, in MB."""
    with open(f"/proc/{server.pid}/status") as lines:
        found = dict(line.split(":", 1) for line in lines)
    return [int(found[name].split()[0]) / 1000 for name in ("VmRSS", "VmHWM")]


def memory():
    base = {}
    for count in (FEW, *MORE, MANY):
        for browse in (False, True):
            server = serve(count, browse)
            started = sum(server.used()) / 1e6
            served(server, "/page/" + TEN)
            now, most = sizes(server)
            base.setdefault(browse, now)
            each = f", {(now - base[browse]) / count * 1000:.1f} kB a page" if count > FEW else ""
            print(f"resident with {count:,} pages, {'with' if browse else 'without'} [browse]: {now:.1f} MB, {most:.1f} at most{each}; "
                  f"{started:.1f} s to start", flush=True)
            scene.ends(server, f"{count} pages")


# ---- instructions

def control(server, *words):
    subprocess.run(["callgrind_control", *words, str(server.pid)], check=True, capture_output=True)


def counted(server, dumps, asked, count=1):
    """How many instructions of its own code a request takes; and the functions that take the most, with all that they call."""
    target, token, fields = asked
    client = Client(server.port, token, timeout=600)
    client.ask(target, fields=fields)
    control(server, "-z")
    control(server, "-i", "on")
    for _ in range(count):
        client.ask(target, fields=fields)
    control(server, "-i", "off")
    control(server, "-d")
    client.close()
    words = ["callgrind_annotate", "--inclusive=yes", f"counts.{next(dumps)}"]
    said = subprocess.run(words, capture_output=True, text=True, check=True).stdout
    rows = [(int(it[0].replace(",", "")) / count, it[1]) for it in re.findall(r"(?m)^ *([\d,]+) \([ \d.]+%\) +(\S.*)$", said)]
    return rows[0][0], [(each, name.split("???:")[-1].split("::<#")[0].split(" [")[0]) for each, name in rows[1:]]


def pages_counted(server, dumps, count):
    for path, name, counts in KINDS:
        if count in counts:
            every, parts = counted(server, dumps, ("/page/" + path, "tok", PEOPLE + "\r\n"), 100)
            print(f"  {count:6,} pages: {every:12,.0f}  {name}", flush=True)
            for each, part in parts[5:25] if path == FIFTY else ():
                print(f"{each:28,.0f}  {100 * each / every:5.1f}%  {part}")


def instructions():
    needs("valgrind")
    print("instructions of the server's own code for a request, as valgrind counts them")
    before = ("valgrind", "--tool=callgrind", "--instr-atstart=no", "--callgrind-out-file=counts", "--separate-recs=1")
    for count in (FEW, SOME, MANY):
        server, dumps = scene.listen(site(count), before=before, wait=900), itertools.count(1)
        pages_counted(server, dumps, count)
        for name, target, fields in LISTS if count == MANY else ():
            row = "".join(f"{counted(server, dumps, (target, token, fields))[0]:14,.0f}" for token in ("own", "tok"))
            print(f"  {name:46}{row}", flush=True)
        server.end()


def main():
    measured()
    os.chmod(scene.scratch, 0o755)
    for number, part in enumerate((speed, lists, memory, instructions), 1):
        if scene.numbers[2] in (number, 0 if number < 4 else number):
            part()
    for count in COUNTS:
        shutil.rmtree(str(count), ignore_errors=True)


scene.run(main)
