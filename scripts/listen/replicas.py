"""Starts two servers from copies of one journal behind haproxy, which gives each of them every other request, and compares replies byte
for byte: to each of four readers (the owner, two groups, an unknown token) 10,000 replies, each request once to either server. So what
is said in docs/RUNNING.md of more than one machine is seen.

The journal is that of a third server, which takes 300 edits of the handbook in site/ by its owner first: PUTs and DELETEs, of a fixed
seed. Requests are GET and HEAD of pages (seen, hidden, absent, of bad paths), the contents, backlinks, searches, reports of broken
links, other methods, and what readers may not do.

    python3 scripts/listen/replicas.py PROGRAM [REPLIES]

Builds nothing. Needs python3, and haproxy, which it has installed where it lacks. Half a minute.
"""
import collections, os, random, shutil, sys, tomllib
sys.path.insert(1, os.path.dirname(__file__) + "/../lib")
from scene import HOST, TOP, Client, Scene, free_port, got, listens, put, start, stop, until
from journals import is_opened, read

scene = Scene(seconds=400, numbers=(10_000,), needs=["haproxy"], at_top=True)
chance = random.Random(1)
CONFIG = "site/config.toml"
READERS = ("tok-owner", "tok-ann", "tok-bob", "tok-x")
WORDS = "incident rollback alert deployment certificate customer phone budget review the".split()
with open(f"{TOP}/{CONFIG}", "rb") as file:
    PATHS = [page["path"] for page in tomllib.load(file)["page"]] + [f"new/{number}.md" for number in range(40)]


def some_text():
    """A page of headings, words and links."""
    blocks = [f"# {chance.choice(WORDS).title()}"]
    for _ in range(chance.randint(1, 12)):
        words = [chance.choice(WORDS) for _ in range(chance.randint(1, 30))]
        words.insert(0, f"[{chance.choice(WORDS)}](/{chance.choice(PATHS)}#{chance.choice(WORDS)})")
        blocks.append(" ".join(words))
    return "\n\n".join(blocks).encode() + b"\n"


def edited(journal):
    """A journal of 300 edits."""
    server = scene.listen(CONFIG, journal=journal)
    owner = Client(server.port, "tok-owner")
    for number in range(300):
        path = chance.choice(PATHS)
        if chance.random() < 0.2:
            code = owner.ask("/page/" + path, "DELETE")[0]
        else:
            groups = chance.choice(("staff", "ops", "staff,ops", ""))
            code = owner.ask(f"/page/{path}?groups={groups}", "PUT", some_text())[0]
        scene.check(f"edit {number} of {path}", code in (201, 204, 404), code)
    owner.close()
    scene.ends(server, "the first server")


def some_request(reader):
    path = chance.choice(PATHS)
    return chance.choice((
        [("GET", "/page/" + path)] * 8 + [("HEAD", "/page/" + path), ("GET", "/page/never.md"), ("GET", "/page/ops/"), ("GET", "/contents"),
                                          ("GET", "/broken"), ("HEAD", "/contents"), ("GET", "/page/../a.md"), ("GET", "/nothing"),
                                          ("GET", "/backlinks/" + path), ("GET", "/backlinks/" + path), ("PATCH", "/page/" + path),
                                          ("GET", "/search?q=" + chance.choice(WORDS)), ("GET", "/search?q="),
                                          ("GET", "/search?q=" + "+".join(chance.sample(WORDS, 3)))]
        + ([] if reader == "tok-owner" else [("DELETE", "/page/" + path), ("PUT", "/page/" + path)])))


def behind(port, servers):
    """haproxy's configuration: each request goes to the next server, and the reply tells to which one it went."""
    name = f"{scene.scratch}/haproxy.cfg"
    put(name, "defaults\n  mode http\n  timeout connect 5s\n  timeout client 30s\n  timeout server 30s\n  http-reuse always\n"
        f"frontend docs\n  bind {HOST}:{port}\n  default_backend replicas\n"
        "backend replicas\n  balance roundrobin\n  http-response add-header x-replica %s\n"
        + "".join(f"  server {name} {HOST}:{server.port}\n" for name, server in servers.items()))
    return name


def split(reply):
    """Which server sent a reply, and the reply without haproxy's word of it."""
    code, head, body = reply
    lines = head.split(b"\r\n")
    told = [line for line in lines if line.startswith(b"x-replica: ")]
    return told[0][11:] if told else b"", (code, [line for line in lines if line not in told], body)


def compared(port, reader, count):
    """So many replies to a reader, by pairs."""
    client = Client(port, reader)
    codes, went = collections.Counter(), collections.Counter()
    for _ in range(count // 2):
        method, target = some_request(reader)
        pair = [split(client.ask(target, method, b"x" if method == "PUT" else b"")) for _ in range(2)]
        went.update(name for name, _ in pair)
        codes[pair[0][1][0]] += 1
        scene.check(f"{reader} {method} {target}", pair[0][1] == pair[1][1] and pair[0][0] != pair[1][0], pair)
    scene.check(f"{reader}: both servers replied", went == {b"one": count // 2, b"two": count // 2}, went)
    told = ", ".join(f"{2 * number} of {code}" for code, number in sorted(codes.items()))
    print(f"{reader}: {sum(went.values())} replies, {told}", flush=True)
    client.close()


def main():
    first = f"{scene.scratch}/journal"
    edited(first)
    servers = {}
    for name in ("one", "two"):
        shutil.copyfile(first, f"{scene.scratch}/{name}")
        servers[name] = scene.listen(CONFIG, journal=f"{scene.scratch}/{name}")
    port = free_port()
    haproxy = start(["haproxy", "-f", behind(port, servers), "-db"])
    try:
        until(lambda: listens(port), 10)
        for reader in READERS:
            compared(port, reader, scene.numbers[0])
    finally:
        stop(haproxy)
    for name, server in servers.items():
        scene.ends(server, name)
        scene.check(f"the journal of {name} is as it was", is_opened(got(f"{scene.scratch}/{name}"), read(got(first))[1]))


scene.run(main)
