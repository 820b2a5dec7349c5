"""For the tests beside this: starts parts and ends them, talks to them as a party, and counts what is right."""
import atexit
import json
import os
import pathlib
import shutil
import signal
import socket
import ssl
import subprocess
import sys
import tempfile
import time

ROOT = pathlib.Path(__file__).resolve().parent.parent.parent
DEPLOY = ROOT / "deploy"
PROGRAM = os.environ.get("OMPTASKD", str(ROOT / "crates/omptaskd/out/omptaskd"))
COMPANION = os.environ.get("OMPTASK", str(ROOT / "crates/omptask/out/omptask"))
GOODBYE = '["bye"]\n'
# Adds 1 to a cell that is called n, in a task.
ADDS = '["run",["program",[["n",0,1]],[["task",[["inout",["n",0,1]]],[["add",["c","n",0],1]]],["wait"]]]]'

right = wrong = 0


def check(what, found, wanted):
    """`wanted` is a value, or a test of one."""
    global right, wrong
    good = wanted(found) if callable(wanted) else found == wanted
    right, wrong = right + good, wrong + (not good)
    print(("ok    " + what) if good else f"WRONG {what}: {found!r}, wanted {wanted!r}", flush=True)


def note(what, found):
    print(f"      {what}: {found}", flush=True)


def finish():
    end_all()
    print(f"{right} passed, {wrong} failed")
    sys.exit(wrong > 0)


def is_unproved():
    """Whether the program is one of scripts/build_unproved: the checks in it take more addresses than a limit on them leaves."""
    with open(PROGRAM, "rb") as file:
        return b"AddressSanitizer" in file.read()


# ---- parts

_parts = []
_folders = []


def folder():
    """A folder for this test, which goes when it ends. Others may pass through it: parts run as several users."""
    path = tempfile.mkdtemp(prefix="deploy-")
    os.chmod(path, 0o755)
    _folders.append(path)
    return path


def start(command, log=None, environment=None, **more):
    out = open(log, "ab") if log else subprocess.DEVNULL
    environment = {**os.environ, **(environment or {})}
    part = subprocess.Popen(
        list(map(str, command)), stdin=subprocess.DEVNULL, stdout=out, stderr=out, env=environment, **more
    )
    _parts.append(part)
    return part


def end(part, how=signal.SIGTERM):
    if part.poll() is None:
        part.send_signal(how)
        try:
            part.wait(10)
        except subprocess.TimeoutExpired:
            part.kill()
            part.wait()


@atexit.register
def end_all():
    while _parts:
        end(_parts.pop())
    while _folders:
        shutil.rmtree(_folders.pop(), ignore_errors=True)


def wait_for(test, what, seconds=20):
    until = time.monotonic() + seconds
    while not test():
        if time.monotonic() > until:
            end_all()
            sys.exit(f"waited in vain for {what}")
        time.sleep(0.02)


def omptaskd(path, tenants, workers=2, sessions=16):
    words = ["serve", "--socket", path, "--workers", workers, "--sessions", sessions, *tenants]
    if os.path.exists(path):
        os.unlink(path)
    part = start([PROGRAM, *words])
    wait_for(lambda: os.path.exists(path), f"omptaskd at {path}")
    return part


def etcd(at):
    """Three members of etcd, with their data in a folder; the parts, and where they answer."""
    ports = [12371, 12372, 12373]
    peers = ",".join(f"m{k}=http://127.0.0.1:{port + 10}" for k, port in enumerate(ports))
    members = []
    for k, port in enumerate(ports):
        client, peer = f"http://127.0.0.1:{port}", f"http://127.0.0.1:{port + 10}"
        words = ["--name", f"m{k}", "--data-dir", f"{at}/m{k}", "--listen-client-urls", client]
        words += ["--advertise-client-urls", client, "--listen-peer-urls", peer, "--initial-advertise-peer-urls", peer]
        words += ["--initial-cluster", peers, "--initial-cluster-state", "new", "--heartbeat-interval", 300]
        words += ["--election-timeout", 3000]
        members.append(start(["etcd", *words], log=f"{at}/m{k}.log"))
    asks = ["env", "ETCDCTL_API=3", "etcdctl", "--endpoints", f"127.0.0.1:{ports[0]}", "endpoint", "health"]
    wait_for(lambda: run(*asks)[0] == 0, "etcd", 60)
    return members, ",".join(f"127.0.0.1:{port}" for port in ports)


def run(*command, timeout=120, **more):
    """Runs a command; its status, what it wrote, and what it complained of."""
    ran = subprocess.run(list(map(str, command)), capture_output=True, text=True, timeout=timeout, **more)
    return ran.returncode, ran.stdout, ran.stderr


# ---- parties


class Party:
    """A connection, that reads and writes lines."""

    def __init__(self, place, pem=None, authority=None, name="front.example", timeout=30, room=None):
        """`place` is a socket's path or (host, port); by TLS where an authority is given."""
        family = socket.AF_UNIX if isinstance(place, str) else socket.AF_INET6 if ":" in place[0] else socket.AF_INET
        self.raw = socket.socket(family)
        if room:
            self.raw.setsockopt(socket.SOL_SOCKET, socket.SO_RCVBUF, room)
        self.raw.settimeout(timeout)
        self.raw.connect(place)
        self.stream = self.raw
        if authority:
            context = ssl.create_default_context(cafile=authority)
            if pem:
                context.load_cert_chain(pem)
            self.raw.setsockopt(socket.IPPROTO_TCP, socket.TCP_NODELAY, 1)
            self.stream = context.wrap_socket(self.raw, server_hostname=name)
        self.rest = b""

    def send(self, data):
        self.stream.sendall(data.encode() if isinstance(data, str) else data)

    def line(self):
        """The next line, or None where the stream has ended."""
        parts = [self.rest]
        while b"\n" not in parts[-1]:
            got = self.stream.recv(1 << 18)
            if not got:
                self.rest = b""
                return None
            parts.append(got)
        line, self.rest = b"".join(parts).split(b"\n", 1)
        return line.decode()

    def ask(self, line):
        self.send(line + "\n")
        return self.line()

    def end(self):
        """All to the end of the stream, and whether it ended well."""
        out, self.rest = [self.rest], b""
        try:
            while got := self.stream.recv(1 << 18):
                out.append(got)
            how = "end"
        except (OSError, ssl.SSLError) as fault:
            how = type(fault).__name__
        return b"".join(out).decode(), how

    def is_ended(self):
        """Whether the stream ends with nothing more said, well or cut off."""
        text, how = self.end()
        return text == "" and how != "TimeoutError"

    def half_close(self):
        socket.socket(fileno=os.dup(self.stream.fileno())).shutdown(socket.SHUT_WR)

    def bye(self):
        self.send(GOODBYE)
        self.end()
        self.close()

    def close(self):
        self.stream.close()


def talk(party, *pieces, pause=0.0):
    """Sends these, and reads to the end."""
    for piece in pieces:
        try:
            party.send(piece)
        except OSError:
            break
        time.sleep(pause)
    said = party.end()
    party.close()
    return said


def hello(tenant):
    return f'["hello","{tenant}"]\n'


def rows(reply):
    return json.loads(reply)
