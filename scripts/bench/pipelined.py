"""Measures how the time of `docs_server demo` grows with the number of requests in one push: 1,000,
2,000, 4,000 and 8,000 copies of one request. Prints the best of five runs of each, and its ratio
to the one before (2 is linear). Run `rt run` in crates/docs_server first, which builds the program.

    python3 scripts/bench/pipelined.py
"""
import os, subprocess, sys, tempfile, time
sys.path.insert(1, os.path.dirname(__file__) + "/../lib")
from timing import RUNS, TOP, measured

PROGRAM = TOP + "/crates/docs_server/out/docs_server"
REQUEST = b"GET /page/a.md HTTP/1.1\r\nHost: docs\r\nAuthorization: Bearer tok-ann\r\n\r\n"
REPLY = (b"HTTP/1.1 200 OK\r\nContent-Type: text/html; charset=utf-8\r\nContent-Length: 49\r\n\r\n"
         b"<!DOCTYPE html>\n<title>a.md</title>\n<p>Hello</p>\n")


def best_of(count):
    """The best time of some runs with so many requests, in seconds."""
    times = []
    with tempfile.TemporaryFile() as stdin:
        stdin.write(REQUEST * count)
        for _ in range(RUNS):
            stdin.seek(0)
            start = time.perf_counter()
            done = subprocess.run([PROGRAM, "demo"], stdin=stdin, stdout=subprocess.PIPE, check=True)
            times.append(time.perf_counter() - start)
            if done.stdout != REPLY * count:
                sys.exit(f"{count} requests: wrong replies")
    return min(times)


def main():
    if not os.access(PROGRAM, os.X_OK):
        sys.exit("run 'rt run' in crates/docs_server first")
    measured()
    before = None
    for count in (1000, 2000, 4000, 8000):
        best = best_of(count)
        ratio = "" if before is None else f"  {best / before:.2f} times the one before"
        print(f"{count:5} requests: {best * 1000:8.1f} ms{ratio}")
        before = best


main()
