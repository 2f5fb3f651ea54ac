"""Loads `serve` with 64 connections of wrk over 127.0.0.1 for some seconds, and nginx with a file of the same bytes in the same run, each
server on one core and wrk on another. Prints requests a second, the server's processor time a request (its own code, the kernel's),
and the time within which 99 in 100 were answered: of three runs the one with the least processor time.

    python3 scripts/bench/load_bench.py PROGRAM [SECONDS]

Builds nothing: PROGRAM is crates/docs_server/out/docs_server, or any other build. Needs python3, taskset, wrk and nginx (Debian's
nginx-light). Takes 6 times SECONDS, 3 if left out.
"""
import os, subprocess, sys
sys.path.insert(1, os.path.dirname(__file__) + "/../lib")
from beside import CONNECTIONS, Nginx, cheapest, loaded, tell, wrk
from scene import HOST, Client, Scene, free_port, put, start
from timing import measured

scene = Scene(seconds=120, seconds_each=6, numbers=(3,), told=None)
RUNS = 3


def serve(port, count):
    """The server, once it has told that it listens."""
    words = ["taskset", "-c", "0", scene.program, "serve", "site.toml", f"{HOST}:{port}", str(count), "4294967295"]
    server = start(words, stdout=subprocess.PIPE)
    if server.stdout.readline() != f"listening {HOST}:{port}\n".encode():
        sys.exit("the server didn't begin")
    return server


def page_served():
    """The page's bytes as the server sends them."""
    port = free_port()
    server = serve(port, 1)
    code, _, body = Client(port, "tok", timeout=10).ask("/page/a.md", fields="Connection: close\r\n")
    server.wait(timeout=10)
    if code != 200:
        sys.exit(f"the server answered {code}")
    return body


def run_here():
    # wrk first opens one connection more, to see whether it can, and closes it
    port = free_port()
    server = serve(port, CONNECTIONS + 1)
    rate, requests, slow = wrk(port, "/page/a.md", scene.numbers[0])
    _, status, usage = os.wait4(server.pid, 0)
    server.returncode = status
    if status:
        sys.exit(f"the server ended with {status}")
    return (usage.ru_utime * 1e6 / requests, usage.ru_stime * 1e6 / requests), rate, slow


def main():
    measured()
    put("page.md", "Each page has sixty-four lines, and each of them has this text.\n" * 64)
    put("site.toml", '[[reader]]\ntoken = "tok"\ngroups = ["team"]\n[[page]]\npath = "a.md"\ngroups = ["team"]\nfile = "page.md"\n')
    body = page_served()
    put("files/page", body)
    nginx = Nginx(scene.scratch, "nginx", before=("taskset", "-c", "0"))
    try:
        runs = [(run_here(), loaded(nginx.pid, nginx.port, "/page", scene.numbers[0])) for _ in range(RUNS)]
        print(f"{CONNECTIONS} connections, a page of {len(body)} bytes")
        for name, found in zip(("docs_server serve", "nginx"), zip(*runs)):
            best = cheapest(found)
            tell(name, best, best[2])
    finally:
        nginx.end()


scene.run(main)
