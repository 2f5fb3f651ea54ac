"""Turns of `listen` are shared: over 10,000 pages with 20 links each, one good reader asks for a kept page again and again, while others

- have 300 HEADs of `/broken` waiting on one connection, then 300 searches of a word of every page, then 300 contents;
- ask for `/broken`, each of a hundred on a connection of its own, and again once they are answered;
- send 16 kB of such requests and are reset.

Then all but the resets again with nginx between. The good reader's times are printed: the median, within which 99 in 100 come, and the
longest. Each of its replies has to be the page, and, where a bound is given in milliseconds, 99 in 100 come within it, and all within two
and a half times as long. Of the peers that are reset, or go while 300 requests wait, nothing is done once they are gone: the server then
rests. (Of those with one request each that isn't judged: a peer that only ends its sending is answered.) A report is answered within 5 seconds beside two owners with 300 edits waiting each.

    python3 scripts/listen/shared.py PROGRAM [BOUND [PAGES]]

Builds nothing. Needs python3, and nginx, which it has installed where it lacks. Four minutes. A BOUND of 0 judges no time.
"""
import multiprocessing, os, socket, struct, sys, time
sys.path.insert(1, os.path.dirname(__file__) + "/../lib")
from scene import HOST, OWNER, Client, Scene, free_port, listens, page_of, put, request, start, stop, until

scene = Scene(seconds=900, numbers=(0, 10_000), needs=["nginx=nginx-light"])
ASKED = 400
LINE = "A word of every page, and twenty links."


def site(pages):
    """A configuration and its folder: the pages are for all, and each links to the twenty behind it."""
    put("config.toml", OWNER + '[[reader]]\ntoken = "ann"\ngroups = ["all"]\n'
        f'[[page]]\npath = "good.md"\ngroups = ["all"]\ntext = "{LINE}"\n[[folder]]\npath = "pages"\ngroups = ["all"]\n')
    for at in range(pages - 1):
        links = " ".join(f"[to {number}](p{(at + number) % (pages + 20)}.md)" for number in range(1, 21))
        text = "".join(f"## Part {part}\n\n{LINE} Number {at * 7 + part}.\n\n" for part in range(6))
        put(f"pages/p{at}.md", f"# Page {at}\n\n{links}\n\n{text}" + "Some more words to fill the page up. " * 80)


def many(port, target, method="GET", count=300):
    """Requests that wait on one connection, whose replies are read."""
    while True:
        peer = socket.create_connection((HOST, port))
        peer.sendall(request("tok", target, method) * count)
        peer.settimeout(None)
        while peer.recv(1 << 20):
            pass


def waiting_reports(port):
    many(port, "/broken", "HEAD")


def waiting_searches(port):
    many(port, "/search?q=every")


def waiting_contents(port):
    many(port, "/contents")


def a_hundred_reports(port):
    """A hundred connections, each with one request that waits."""
    import selectors
    ready, asked = selectors.DefaultSelector(), request("tok", "/broken", "HEAD")
    for _ in range(100):
        peer = socket.create_connection((HOST, port))
        peer.sendall(asked)
        ready.register(peer, selectors.EVENT_READ)
    while True:
        for key, _ in ready.select():
            if key.fileobj.recv(65_536):
                key.fileobj.sendall(asked)


def resets(port):
    """Peers that send what a read gives at once, and are reset."""
    asked = request("tok", "/broken", "HEAD")
    while True:
        peer = socket.create_connection((HOST, port))
        peer.sendall(asked * (16_384 // len(asked)))
        time.sleep(0.005)
        peer.setsockopt(socket.SOL_SOCKET, socket.SO_LINGER, struct.pack("ii", 1, 0))
        peer.close()


def waiting_edits(port):
    many(port, "/page/p0.md?groups=all", "PUT")


ATTACKS = (waiting_reports, waiting_searches, waiting_contents, a_hundred_reports, resets)


def proxied(port):
    """nginx before a server, and its port."""
    here, room = free_port(), f"{scene.scratch}/nginx"
    os.chmod(scene.scratch, 0o755)
    temps = " ".join(f"{it}_temp_path {room}/{it};" for it in ("client_body", "proxy", "fastcgi", "uwsgi", "scgi"))
    put(f"{room}/nginx.conf", f"""daemon off; pid {room}/pid; error_log stderr crit; worker_processes 1; events {{}}
http {{
    access_log off; {temps} proxy_buffering on;
    upstream docs {{ server {HOST}:{port}; keepalive 64; }}
    server {{ listen {HOST}:{here}; location / {{ proxy_pass http://docs; proxy_http_version 1.1; proxy_set_header Connection ""; }} }}
}}
""")
    process = start(["nginx", "-p", room, "-c", f"{room}/nginx.conf"])
    if not until(lambda: listens(here), 10):
        sys.exit("nginx doesn't listen")
    return process, here


def good(port, name, bound):
    """The good reader's times beside what goes on."""
    client, times, right = Client(port, "ann", timeout=120), [], True
    page = page_of("good.md", LINE)
    for _ in range(ASKED):
        then = time.perf_counter()
        code, _, body = client.ask("/page/good.md")
        times.append((time.perf_counter() - then) * 1e3)
        right = right and (code, body) == (200, page)
        if sum(times) > 60_000:
            break
    client.close()
    scene.check(f"each reply beside {name}", right)
    times.sort()
    last = times[len(times) * 99 // 100]
    print(f"beside {name:25} median {times[len(times) // 2]:8.2f} ms, 99 in 100 within {last:9.2f} ms, longest {times[-1]:9.2f} ms", flush=True)
    if bound:
        scene.check(f"99 in 100 beside {name}", last <= bound, f"{last:.1f} ms")
        scene.check(f"the longest beside {name}", times[-1] <= 2.5 * bound, f"{times[-1]:.1f} ms")


def beside(port, attack, bound, way):
    process = multiprocessing.get_context("fork").Process(target=attack, args=(port,), daemon=True)
    process.start()
    time.sleep(0.3)
    good(port, attack.__name__.replace("_", " ") + way, bound)
    process.kill()
    process.join()


def reports_beside_edits(server):
    """A stream of edits keeps nobody off a list."""
    others = [multiprocessing.get_context("fork").Process(target=waiting_edits, args=(server.port,), daemon=True) for _ in range(2)]
    for process in others:
        process.start()
    time.sleep(0.3)
    client, times = Client(server.port, "tok", timeout=60), []
    for _ in range(5):
        then = time.perf_counter()
        try:
            code, _, _ = client.ask("/broken", "HEAD")
        except OSError:
            code = None
        times.append(time.perf_counter() - then)
        if not scene.check("a report beside edits", code == 200 and times[-1] <= 5, f"{code} after {times[-1]:.1f} s"):
            break
    print(f"a report beside edits: {max(times) * 1e3:.0f} ms at most", flush=True)
    for process in others:
        process.kill()
        process.join()


def rests(server, name):
    """Once those have gone who had much waiting nothing is done any more."""
    time.sleep(1.0)
    before = sum(server.used())
    time.sleep(1.0)
    spent = sum(server.used()) - before
    scene.check(f"the server rests behind {name}", spent <= 50_000, f"{spent / 1000:.0f} ms of a second")


def cases():
    bound, pages = scene.numbers
    site(pages)
    then = time.monotonic()
    server = scene.listen("config.toml", wait=120)
    print(f"{pages} pages, start {time.monotonic() - then:.2f} s, resident {server.resident() / 1000:.0f} MB", flush=True)
    good(server.port, "nobody", bound)
    for attack in ATTACKS:
        beside(server.port, attack, bound, "")
        if attack is not a_hundred_reports:
            rests(server, attack.__name__)
    reports_beside_edits(server)
    nginx, port = proxied(server.port)
    # a proxy ends its own connection in order where its client is reset, and whoever only ends their sending is answered
    for attack in ATTACKS[:-1]:
        beside(port, attack, bound, ", nginx")
    stop(nginx)
    scene.ends(server, "listen")


scene.run(cases)
