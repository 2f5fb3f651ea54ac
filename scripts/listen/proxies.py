"""What the scripts share that put a proxy before `listen`: nginx as site/nginx.conf.template sets it up, with a certificate and logins;
haproxy by site/haproxy.cfg.template; and curl, which asks through them."""
import base64, os, subprocess
from scene import HOST, free_port, put, start, stop, until

UNLIMITED = {"rate=20r/s": "rate=100000r/s", "docs_connections 50": "docs_connections 10000"}
LOGINS = {"owner": "tok-owner", "ann": "tok-ann", "bob": "tok-bob", "eve": ""}


def run(scene, *words, seconds=60, **given):
    """A command in the scratch folder, and what it prints."""
    return subprocess.run(words, stdin=subprocess.DEVNULL, capture_output=True, timeout=seconds, cwd=scene.scratch, **given)


def keys(scene):
    """A certificate, the logins and the tokens, as files in the scratch folder."""
    os.chmod(scene.scratch, 0o755)
    run(scene, "openssl", "req", "-x509", "-newkey", "rsa:2048", "-nodes", "-keyout", "key", "-out", "cert", "-days", "2",
        "-subj", "/CN=docs", "-addext", f"subjectAltName=IP:{HOST},DNS:localhost")
    hashed = {who: run(scene, "openssl", "passwd", "-apr1", f"secret-{who}").stdout.decode().strip() for who in LOGINS}
    put(f"{scene.scratch}/users", "".join(f"{who}:{hashed[who]}\n" for who in LOGINS))
    put(f"{scene.scratch}/tokens", "".join(f"{who} {token};\n" for who, token in LOGINS.items() if token))
    os.chmod(f"{scene.scratch}/tokens", 0o600)


def fields(lines, name):
    """The values of a field in the lines of a head."""
    return [line.partition(": ")[2] for line in lines if line.lower().startswith(name.lower() + ": ")]


def filled(text, words):
    """A template with words replaced, each of which has to be there."""
    for word, value in words.items():
        if word not in text:
            raise ValueError(f"{word} isn't in the template")
        text = text.replace(word, value)
    return text


class Direct:
    """A server that listens, without a proxy, and what curl reads of it."""

    def __init__(self, scene, port):
        self.scene, self.port, self.base = scene, port, f"http://{HOST}:{port}"

    def authorization(self, who):
        """The field by which somebody is known."""
        return f"Authorization: Bearer {LOGINS[who]}"

    def login(self, who):
        return ("--header", self.authorization(who))

    def curl(self, who, target, *words):
        """A reply: its code, its fields but for a proxy's own date, its body."""
        done = run(self.scene, "curl", "--silent", "--show-error", "--max-time", "20", "--path-as-is", "--cacert", "cert", "--include",
                   *(self.login(who) if who else ()), *words, self.base + target)
        head, _, body = done.stdout.partition(b"\r\n\r\n")
        while head.startswith(b"HTTP/1.1 100 "):
            head, _, body = body.partition(b"\r\n\r\n")
        lines = [line for line in head.decode().split("\r\n") if not line.lower().startswith("date:")]
        return int((lines[0].split() + ["0", "0"])[1]), lines, body


class Nginx(Direct):
    """nginx in front of a server, by the template. `more` are lines of its own beside the template's server. A script asks more than a
    reader does, so its limits are out of reach where they aren't what is tried."""

    def __init__(self, scene, backend, more="", limited=False):
        super().__init__(scene, free_port())
        self.base, self.limited = f"https://{HOST}:{self.port}", limited
        self.process = start(["nginx", "-p", scene.scratch, "-c", self.configured(backend, more)])

    def configured(self, backend, more):
        """Its configuration: the template in the least of a frame."""
        folder = f"{self.scene.scratch}/nginx-{self.port}"
        with open("site/nginx.conf.template") as template:
            text = filled(template.read(), {} if self.limited else UNLIMITED)
        words = {word: f"{self.scene.scratch}/{word.lower()}" for word in ("CERT", "KEY", "USERS", "TOKENS")}
        words |= {"LISTEN": f"{HOST}:{self.port}", "NAME": HOST, "BACKEND": f"{HOST}:{backend}"}
        put(f"{folder}/site.conf", filled(text, {f"@{word}@": value for word, value in words.items()}))
        paths = "".join(f"{name}_temp_path {folder}/{name};" for name in ("client_body", "proxy", "fastcgi", "uwsgi", "scgi"))
        put(f"{folder}/nginx.conf", f"daemon off; pid {folder}/pid; error_log stderr crit; worker_processes 1; events {{}}\n"
            f"http {{ access_log off; {paths} {more} include {folder}/site.conf; }}\n")
        return f"{folder}/nginx.conf"

    def authorization(self, who):
        return "Authorization: Basic " + base64.b64encode(f"{who}:secret-{who}".encode()).decode()

    def begins(self):
        return until(lambda: self.curl("", "/")[0] or self.process.poll() is not None, 10) and self.process.poll() is None

    def ends(self):
        stop(self.process)


class Haproxy(Direct):
    """haproxy by the template, in front of a server that takes edits, of another one that reads are shared with, and of the address at
    which a third may take the first one's place. `more` are lines of the backend that is read of."""

    def __init__(self, scene, writer, follower, standby=None, more=""):
        super().__init__(scene, free_port())
        ports = {"LISTEN": self.port, "WRITER": writer, "FOLLOWER": follower, "STANDBY": standby or free_port()}
        with open("site/haproxy.cfg.template") as template:
            text = filled(template.read(), {f"@{word}@": f"{HOST}:{port}" for word, port in ports.items()})
        put(f"{scene.scratch}/haproxy.cfg", text + more)
        self.process = start(["haproxy", "-f", f"{scene.scratch}/haproxy.cfg", "-db"], stderr=subprocess.DEVNULL)

    begins, ends = Nginx.begins, Nginx.ends
