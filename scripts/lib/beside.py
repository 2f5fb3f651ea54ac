"""What the scripts of scripts/bench share that load a server: wrk, and nginx beside it. Loopback alone."""
import os, re, subprocess, sys
from scene import HOST, free_port, listens, put, start, stop, until, used

CONNECTIONS = 64
# as Debian sets it up, and for small files that are asked for again and again
PLAIN = "sendfile on; tcp_nopush on;"
TUNED = "sendfile off; open_file_cache max=1000 inactive=60s; open_file_cache_valid 60s;"
UNITS = {"us": 1, "ms": 1e3, "s": 1e6}


class Nginx:
    """nginx with the files of the folder `files` beside its own, at a free port: one process, as it is set up by default but for `ways`
    and without a log of requests."""

    def __init__(self, scratch, name, ways=PLAIN, before=()):
        self.port, room = free_port(), f"{scratch}/{name}"
        os.chmod(scratch, 0o755)
        temps = " ".join(f"{it}_temp_path {room}/{it};" for it in ("client_body", "proxy", "fastcgi", "uwsgi", "scgi"))
        put(f"{room}/nginx.conf", f"""daemon off; master_process off; pid {room}/pid; error_log stderr crit;
events {{}}
http {{
    access_log off; {ways} keepalive_requests 100000000;
    {temps}
    server {{ listen {HOST}:{self.port}; root {scratch}/files; default_type text/html; }}
}}
""")
        self.process = start([*before, os.environ.get("NGINX", "nginx"), "-p", room, "-c", f"{room}/nginx.conf"])
        self.pid = self.process.pid
        if not until(lambda: listens(self.port), 10):
            sys.exit("nginx doesn't listen")

    def end(self):
        stop(self.process)


def wrk(port, target, seconds):
    """What wrk counted: requests a second, requests in all, and the time of 99 in 100 as it writes it."""
    words = ["taskset", "-c", "1", "wrk", "-t", "1", "-c", str(CONNECTIONS), "-d", f"{seconds}s", "--latency",
             "-H", "Authorization: Bearer tok", f"http://{HOST}:{port}{target}"]
    said = subprocess.run(words, capture_output=True, text=True, timeout=seconds + 60).stdout
    if re.search(r"Non-2xx|Socket errors", said) or "requests in" not in said:
        sys.exit(f"wrk saw failures:\n{said}")
    return (float(re.search(r"Requests/sec:\s+([\d.]+)", said)[1]), int(re.search(r"(\d+) requests in", said)[1]),
            re.search(r"(?m)^\s+99%\s+(\S+)", said)[1])


def microseconds(time):
    """A time as wrk writes it."""
    number, unit = re.fullmatch(r"([\d.]+)(\w+)", time).groups()
    return float(number) * UNITS[unit]


def loaded(pid, port, target, seconds):
    """A run of wrk: the processor time of a request in the server's own code and in the kernel, requests a second, and the time of 99
    in 100."""
    before = used(pid)
    rate, requests, slow = wrk(port, target, seconds)
    return tuple((now - then) / requests for now, then in zip(used(pid), before)), rate, slow


def cheapest(found):
    """The run with the least processor time a request."""
    return min(found, key=lambda it: sum(it[0]))


def tell(name, run, slow):
    """Prints a run, and answers its processor time a request."""
    (own, kernel), rate, _ = run
    print(f"{name}: {rate:,.0f} requests a second, {own + kernel:.1f} us a request ({own:.1f} its own code, {kernel:.1f} the kernel), "
          f"99 in 100 within {slow}", flush=True)
    return own + kernel
