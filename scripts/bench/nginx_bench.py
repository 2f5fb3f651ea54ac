"""Measures the processor time of nginx for a GET of a file of 4,096 bytes, to stand beside that of a hub's step
(`scripts/bench/http_bench.py`): 20,000 requests one after another on one connection that is kept alive, over 127.0.0.1. Prints the
least of five such runs, for one request: the time in nginx's own code, and the kernel's for it. A step has no sockets, so its time
stands beside the former. The second line is of an nginx that is tuned for such files: `open_file_cache`, `sendfile off`.

    python3 scripts/bench/nginx_bench.py

Needs python3 and nginx (Debian's nginx-light), or NGINX set to that program.
"""
import os, signal, socket, sys, tempfile
sys.path.insert(1, os.path.dirname(__file__) + "/../lib")
from beside import PLAIN, TUNED, Nginx
from scene import HOST, needs, put, used
from timing import RUNS, measured

REQUESTS = 20_000
REQUEST = b"GET /page HTTP/1.1\r\nHost: docs\r\nAuthorization: Bearer token\r\n\r\n"
PAGE = "Each page has sixty-four lines, and each of them has this text.\n" * 64


def asked(connection, left):
    """Asks once, and takes a whole reply; `left` is its length, or 0 where that isn't known yet."""
    connection.sendall(REQUEST)
    reply = b""
    while not left or len(reply) < left:
        got = connection.recv(65_536)
        if not got:
            sys.exit("nginx closed the connection")
        reply += got
        if not left and b"\r\n\r\n" in reply:
            left = reply.index(b"\r\n\r\n") + 4 + len(PAGE)
    if not reply.startswith(b"HTTP/1.1 200 ") or len(reply) != left:
        sys.exit("nginx gave another reply")
    return left


class Connected:
    """A server, and a connection to it that is kept."""

    def __init__(self, nginx):
        self.nginx = nginx
        self.socket = socket.create_connection((HOST, nginx.port), timeout=10)
        self.socket.setsockopt(socket.IPPROTO_TCP, socket.TCP_NODELAY, 1)
        self.left = asked(self.socket, 0)

    def run(self):
        """The times of a request in nginx's own code and in the kernel, in microseconds."""
        before = used(self.nginx.pid)
        for _ in range(REQUESTS):
            asked(self.socket, self.left)
        return [(now - then) / REQUESTS for now, then in zip(used(self.nginx.pid), before)]

    def end(self):
        self.socket.close()
        self.nginx.end()


def main():
    signal.signal(signal.SIGTERM, lambda *_: sys.exit("stopped"))
    needs()
    measured()
    with tempfile.TemporaryDirectory() as scratch:
        put(scratch + "/files/page", PAGE)
        servers = {"nginx": Connected(Nginx(scratch, "plain", PLAIN)), "nginx, tuned": Connected(Nginx(scratch, "tuned", TUNED))}
        try:
            runs = [{name: server.run() for name, server in servers.items()} for _ in range(RUNS)]
        finally:
            for server in servers.values():
                server.end()
    for name in servers:
        own, kernel = min((run[name] for run in runs), key=sum)
        print(f"{name}, a file of {len(PAGE)} bytes: {own + kernel:.1f} us a request, {own:.1f} in its own code and {kernel:.1f} in the "
              "kernel")


main()
