"""Hostile peers of `listen` beside one good client, which asks for a page of 4 kB again and again and finds each reply as it should be:
1,000 idle ones, one that never reads, one byte a second, half a request, pipelines of 8,000 requests, resets, a flood of connects, and
PUTs of 2 MiB. Beside each of them the median and the 99th percentile of the good client's times are printed, and the server's resident
size. Then what becomes of such peers:

- a pipeline is answered whole and in order, also to one that begins to read late, and to one that has ended its sending;
- a PUT of 2 MiB gets its 413 before the connection ends, and the connection does end; so does that of a peer that goes on sending;
- connection 1,001 of 1,000 waits, and is served when another one goes;
- idle connections on which something was answered end after `idle_seconds`, and not before.

    python3 scripts/bench/listen_peers.py PROGRAM

Builds nothing. Needs python3, and 4,000 files that may be open at once. A minute.
"""
import multiprocessing, os, sys, time
sys.path.insert(1, os.path.dirname(__file__) + "/../lib")
import hostile
from hostile import connected, large_put, pipeline
from scene import OWNER, Client, Scene, allow_files, put, until
from timing import measured

scene = Scene(seconds=300)
ASKED, IDLE = 2_000, 4
LINE = "Each page has sixty-four lines, and each of them has this text.\n"
BODY = f"<!DOCTYPE html>\n<title>a.md</title>\n<p>{(LINE * 64).strip()}</p>\n".encode()


def site(name, connections, idle):
    put(name, f'[listen]\nconnections = {connections}\nidle_seconds = {idle}\nstranger_seconds = 60\n{OWNER}[[page]]\npath = "a.md"\ntext = """\n{LINE * 64}"""\n')
    return name


# ---- a good client beside the others

def good(server, name):
    """The good client's times beside what goes on."""
    client, times = Client(server.port, "tok"), []
    for _ in range(ASKED):
        then = time.perf_counter()
        code, _, body = client.ask("/page/a.md")
        times.append((time.perf_counter() - then) * 1e6)
        if (code, body) != (200, BODY):
            break
    client.close()
    scene.check(f"each reply to the good client, beside {name}", len(times) == ASKED)
    times.sort()
    print(f"beside {name:22} median {times[len(times) // 2]:7,.0f} us, 99 in 100 within {times[len(times) * 99 // 100]:8,.0f} us, "
          f"server {server.resident() / 1000:6.1f} MB", flush=True)


def beside(server, attack):
    before = server.resident()
    process = multiprocessing.get_context("fork").Process(target=attack, args=(server.port,), daemon=True)
    process.start()
    time.sleep(0.5)
    good(server, attack.__name__.replace("_", " "))
    scene.check(f"{attack.__name__} goes on", process.is_alive(), process.exitcode)
    grown = server.resident() - before
    # a request that isn't whole is kept, and else no more than what waits to be sent
    scene.check(f"{attack.__name__}: memory", grown < (70_000 if attack is hostile.half_a_request else 5_000), f"{grown} kB more")
    process.kill()
    process.join()


def attacked(server):
    good(server, "nobody")
    idle = connected(server.port, 1_000)
    good(server, "1,000 idle ones")
    for attack in hostile.ALL:
        beside(server, attack)
    for peer in idle:
        peer.close()
    good(server, "nobody again")


# ---- what becomes of the others

def pipelines(server, reply):
    for late in (0.0, 1.0):
        came = pipeline(connected(server.port)[0], 8_000, len(reply), late)
        scene.check(f"a pipeline of 8,000, read after {late} s", came == reply * 8_000, len(came))
    came = pipeline(connected(server.port)[0], 8_000, 0)
    scene.check("a pipeline of 8,000 by a peer that has ended what it sends", came == reply * 8_000, len(came))


def puts(server):
    for _ in range(50):
        got, is_ended = large_put(server.port)
        scene.check("413 for 2 MiB", got.startswith(b"HTTP/1.1 413 ") and is_ended, f"{got[:40]} {is_ended}")
    took = hostile.endless_put(server.port)
    scene.check("who goes on sending behind a last reply is cut off after two seconds", took and 1.5 < took < 4, took)


# ---- bounds

def next_one(server, peers):
    """Connection 1,001 of 1,000, which is served when another one goes."""
    client = Client(server.port, "tok", timeout=1)
    client.send("/page/a.md")
    try:
        client.reply()
        scene.check("connection 1,001 waits", False)
    except TimeoutError:
        scene.check("connection 1,001 waits", True)
    peers.pop().close()
    then = time.monotonic()
    try:
        scene.check("connection 1,001 is served when another goes", client.reply()[::2] == (200, BODY))
        print(f"connection 1,001 was served {(time.monotonic() - then) * 1e3:.0f} ms after another one went")
    except OSError as fault:
        scene.check("connection 1,001 is served when another goes", False, fault)
    return client


def known(peer):
    """Asks once, so that it is no stranger's any more: one of those would end sooner."""
    peer.sendall(b"HEAD /page/a.md HTTP/1.1\r\nHost: docs\r\nAuthorization: Bearer tok\r\n\r\n")
    head = b""
    while not head.endswith(b"\r\n\r\n"):
        head += peer.recv(1)


def ended(peer):
    try:
        return peer.recv(1) == b""
    except BlockingIOError:
        return False


def bounds():
    server = scene.listen(site("narrow.toml", 1_000, IDLE))
    began = time.monotonic()
    peers = connected(server.port, 1_000)
    for peer in peers:
        known(peer)
    last = next_one(server, peers)
    for peer in peers:
        peer.setblocking(False)
    scene.check("none ends early", time.monotonic() - began < IDLE - 0.5 and not any(map(ended, peers)))
    scene.check("the idle ones end", until(lambda: all(map(ended, peers)), IDLE + 3 - (time.monotonic() - began)), sum(map(ended, peers)))
    print(f"999 idle ones were ended {time.monotonic() - began:.1f} s after they came; idle_seconds is {IDLE}")
    last.close()
    scene.ends(server, "bounds")


def main():
    measured()
    allow_files(8_000)
    server = scene.listen(site("wide.toml", 4_000, 60))
    client = Client(server.port, "tok")
    _, head, body = client.ask("/page/a.md")
    client.close()
    attacked(server)
    pipelines(server, head + b"\r\n\r\n" + body)
    puts(server)
    scene.ends(server, "hostile peers")
    bounds()


scene.run(main)
