"""Measures how the time of reading requests, and of a hub's steps, grows:

- a request with a body of 256 KiB, 512 KiB and 1 MiB, given by its length, in chunks of 4,096 bytes, and in chunks of 1 byte (these of a
  quarter of the sizes, since no body may take more than 2 MiB with its chunks), pushed in pieces of 1, 16 and 16,384 bytes with a reading
  after each;
- 1,000, 2,000, 4,000 and 8,000 pipelined requests, taken off one buffer;
- one step of a hub with 3, 100, 1,000 and 10,000 pages of 4 kB, a GET of one of them.

Prints the least processor time of five runs of each, and its ratio to the one before: of twice as much, 2 is linear. A body in pieces of
16,384 and in one chunk or few is only copied, three times; copies within the processor's caches are faster than past them, so the ratio
there is that of memory (a program in C that makes the same copies had 3.5 and 2.7). What a run takes to start and to make its input is
measured apart and taken off. `scripts/bench/nginx_bench.py` has the time of nginx for such a page. Needs python3, and in BENCH
the program `bench`, which is built in a copy of the repository (scripts/gate/lay_out.sh).

    BENCH=PROGRAM python3 scripts/bench/http_bench.py
"""
import os, sys
sys.path.insert(1, os.path.dirname(__file__) + "/../lib")
from timing import bench, measured, taken

KIB = 1024
HEAD = "PUT /page/a.md HTTP/1.1\r\nHost: docs\r\n"
REPLY = len(
    "HTTP/1.1 200 OK\r\nContent-Type: text/html; charset=utf-8\r\nContent-Length: 4149\r\n\r\n"
    "<!DOCTYPE html>\n<title>guide/00000.md</title>\n<p></p>\n"
) + 64 * 64 - len("\n")
STEPS = 20_000


def time_of(task, bare, wanted):
    return taken([bench(), *task.split()], [bench(), *bare.split()], wanted)


def row(name, size, took, before):
    ratio = "" if before is None else f"  {took / before:5.2f} times the one before"
    print(f"{name:58} {size:>8}: {took:10.1f} us{ratio}", flush=True)


def by_length(size):
    return len(f"{HEAD}Content-Length: {size}\r\n\r\n") + size


def in_chunks(chunk):
    """How many bytes a request takes whose body has chunks of one size."""
    encoded = len(f"{chunk:x}\r\n") + chunk + len("\r\n")
    return lambda size: len(f"{HEAD}Transfer-Encoding: chunked\r\n\r\n") + size // chunk * encoded + len("0\r\n\r\n")


BODIES = (
    ("by length", "length", "", by_length, 256),
    ("in chunks of 4096", "chunks", " 4096", in_chunks(4096), 256),
    ("in chunks of 1", "chunks", " 1", in_chunks(1), 64),
)


def bodies():
    for name, task, chunk, length, least_size in BODIES:
        for piece, rounds in ((1, 1), (16, 8), (16_384, 64)):
            before = None
            for size in (least_size, 2 * least_size, 4 * least_size):
                words = f"{task} {size * KIB} {piece}"
                took = time_of(f"{words} {rounds}{chunk}", f"{words} 0{chunk}", rounds * length(size * KIB)) / rounds
                row(f"a body {name}, pushed in pieces of {piece}", f"{size} KiB", took, before)
                before = took


def pipelined():
    before = None
    for count in (1_000, 2_000, 4_000, 8_000):
        took = time_of(f"pipelined {count} 16", f"pipelined {count} 0", 16 * count) / 16
        row("pipelined requests", count, took, before)
        before = took


def steps():
    before = None
    for pages in (3, 100, 1_000, 10_000):
        took = time_of(f"steps {pages} {STEPS}", f"steps {pages} 0", STEPS * REPLY) / STEPS
        row("a step of a hub with so many pages", pages, took, before)
        before = took


def main():
    measured()
    bodies()
    pipelined()
    steps()


main()
