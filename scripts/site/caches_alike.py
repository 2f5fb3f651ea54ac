"""Three hubs with caches of 1, 64 and 4,096 documents are fed the same 10,000 random events, by `docs_server replay`: puts, removals and
moves of 40 paths with links and headings, changes of readers, and requests of each route by readers who see more and less. What they
print has to be the same, byte for byte.

    python3 scripts/site/caches_alike.py PROGRAM [SEED]

Builds nothing. Needs python3. A second.
"""
import hashlib, os, random, subprocess, sys
sys.path.insert(1, os.path.dirname(__file__) + "/../lib")
from scene import Scene, put

scene = Scene(seconds=600, numbers=(1,), told=None)
draw = random.Random()
SIZES = (1, 64, 4096)
PATHS = [f"{folder}p{n}.md" for folder in ("", "a/", "a/b/") for n in range(12)]
PATHS += [f"{folder}index.md" for folder in ("", "a/", "a/b/", "c/")]
WORDS = "kiwi plum fig leaf Straße STRASSE stone".split()
TOKENS = ["tok-owner", "tok-ann", "tok-bob", "tok-new"]
GROUPS = ["-", "staff", "ops", "ops,staff"]


def reference():
    kind = draw.randrange(6)
    path = draw.choice(PATHS)
    anchored = path + draw.choice(["", "#kiwi", "#plum-1", "?q", "#"])
    return [path, "../" + path, "./", "#kiwi", "http://h/" + path, anchored][kind]


def text():
    parts = []
    for _ in range(draw.randrange(4)):
        parts.append("#" * draw.randrange(1, 4) + " " + draw.choice(WORDS))
        spans = [draw.choice(WORDS) if draw.random() < 0.6 else f"[{draw.choice(WORDS)}]({reference()})" for _ in range(draw.randrange(6))]
        parts.append(" ".join(spans))
    return "\\n\\n".join(parts)


def target():
    path = draw.choice(PATHS)
    search = "/search?q=" + "+".join(draw.sample(WORDS, draw.randrange(3)))
    return draw.choice(["/page/" + path] * 6 + ["/backlinks/" + path] * 2 + ["/contents", "/broken", search])


def request():
    token, method = draw.choice(TOKENS), draw.choices(["GET", "HEAD", "PUT", "DELETE"], [20, 2, 3, 1])[0]
    head = f"{method} {target()} HTTP/1.1\\r\\nHost: docs\\r\\nAuthorization: Bearer {token}\\r\\n"
    if method != "PUT":
        return head + "\\r\\n"
    body = text()
    plain = body.replace("\\n", "\n").encode()
    return head.replace(" HTTP", f"?groups={draw.choice(['', 'staff', 'ops'])} HTTP", 1) + f"Content-Length: {len(plain)}\\r\\n\\r\\n{body}"


def event():
    kind = draw.random()
    if kind < 0.10:
        return [f"put {draw.choice(PATHS)} {draw.choice(GROUPS)} {text()}"]
    if kind < 0.12:
        return [f"remove {draw.choice(PATHS)}"]
    if kind < 0.16:
        return [f"move {draw.choice(PATHS)} {draw.choice(PATHS)}"]
    if kind < 0.17:
        return [f"reader {draw.choice(TOKENS[1:])} {draw.choice(['plain', 'plain', 'owner'])} {draw.choice(GROUPS)}"]
    if kind < 0.175:
        return [f"unreader {draw.choice(TOKENS[1:])}"]
    return [f"push 1 {request()}", "step 1"]


def script():
    lines = ["connect"]
    while len(lines) < 10_000:
        lines += event()
    return "\n".join(lines) + "\n"


def replayed(size):
    """What a hub prints whose cache holds so many documents."""
    put(f"{size}.toml", f'cache = {size}\n[[reader]]\ntoken = "tok-owner"\nowner = true\n[[reader]]\ntoken = "tok-ann"\n'
        'groups = ["staff"]\n')
    with open("script", "rb") as stdin:
        return subprocess.run([scene.program, "replay", f"{size}.toml"], stdin=stdin, stdout=subprocess.PIPE, check=True).stdout


def main():
    draw.seed(scene.numbers[0])
    put("script", script())
    first, *others = map(replayed, SIZES)
    for size, other in zip(SIZES[1:], others):
        if not scene.check(f"a cache of {size}: the same", other == first, f"{len(other)} bytes, and {len(first)} of a cache of 1"):
            return
    lines = first.splitlines()
    good = sum(line.startswith(b"sent HTTP/1.1 200") for line in lines)
    print(f"the same, for caches of 1, 64 and 4,096 documents: {len(lines)} outcomes, {good} of them 200, "
          f"{hashlib.sha256(first).hexdigest()[:16]}")


scene.run(main)
