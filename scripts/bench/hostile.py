"""Hostile peers of a server, each for as long as it is let, for scripts/bench/listen_peers.py."""
import os, socket, struct, time
from scene import HOST, request

GET = request("tok", "/page/a.md")


def connected(port, count=1):
    return [socket.create_connection((HOST, port), timeout=20) for _ in range(count)]


def one_that_never_reads(port):
    peer = connected(port)[0]
    peer.settimeout(None)
    peer.sendall(GET * 1_000_000)


def one_byte_a_second(port):
    peer = connected(port)[0]
    for byte in GET * 1_000:
        peer.sendall(bytes([byte]))
        time.sleep(1)


def half_a_request(port):
    peers = connected(port, 100)
    for peer in peers:
        peer.sendall(request("tok", "/page/b.md", "PUT", b"b" * 1_000_000)[:500_000])
    time.sleep(1_000)


def pipelines_of_8000(port):
    while True:
        pipeline(connected(port)[0], 8_000, 0)


def resets(port):
    while True:
        for number, peer in enumerate(connected(port, 20)):
            peer.sendall(GET[:-2] if number % 2 else GET * 3)
            peer.setsockopt(socket.SOL_SOCKET, socket.SO_LINGER, struct.pack("ii", 1, 0))
            peer.close()


def a_flood_of_connects(port):
    while True:
        for peer in connected(port, 200):
            peer.close()


def puts_of_2_mib(port):
    while True:
        large_put(port)


ALL = (one_that_never_reads, one_byte_a_second, half_a_request, pipelines_of_8000, resets, a_flood_of_connects, puts_of_2_mib)


def pipeline(peer, count, length, late=0.0):
    """So many requests at once, by a peer that begins to read late; what came, up to so many bytes for each, or up to the end of the
    connection where `length` is 0, which the peer asks for behind its last request."""
    child = os.fork()
    if not child:
        try:
            peer.sendall(GET * count)
            if not length:
                peer.shutdown(socket.SHUT_WR)
        finally:
            os._exit(0)
    time.sleep(late)
    parts, left = [], count * length
    while (left or not length) and (got := peer.recv(1_048_576)):
        parts.append(got)
        left -= len(got) if length else 0
    os.waitpid(child, 0)
    peer.close()
    return b"".join(parts)


def large_put(port):
    """A PUT of 2 MiB by a peer that writes it all before it reads; its reply, and whether the connection ended behind it."""
    peer, got = connected(port)[0], b""
    try:
        peer.sendall(request("tok", "/page/b.md", "PUT", bytes(2_097_152)))
    except OSError:
        pass
    try:
        while more := peer.recv(65_536):
            got += more
        return got, True
    except OSError:
        return got, False
    finally:
        peer.close()


def endless_put(port):
    """A PUT of 1 GiB, of which no end is sent; after how many seconds the connection ended, or None after 10."""
    peer, then = connected(port)[0], time.monotonic()
    peer.sendall(request("tok", "/page/b.md", "PUT", fields="Content-Length: 1073741824\r\n").replace(b"Content-Length: 0\r\n", b""))
    peer.settimeout(5)
    try:
        while time.monotonic() < then + 10:
            peer.sendall(bytes(65_536))
    except OSError:
        return time.monotonic() - then
    finally:
        peer.close()
    return None
