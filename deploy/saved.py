"""A tenant as a file, for the scripts beside this one.

A file is a session that makes the tenant's arrays again, so `omptaskd solo < FILE` takes it. It ends with a goodbye, and behind
that, where no server reads, stands one line of JSON: the number of the tenant's next request, the units that its programs have
executed, and a sum of these and of the session.
"""
import contextlib
import hashlib
import json
import os
import re
import socket
import ssl
import time

GOODBYE = '["bye"]\n'
LINE = 60000  # bytes of numbers in a line: with its other words it stays below the protocol's 65,536
GAP = 64  # so many zeros end a line of numbers, since new cells are 0: a full tenant has fewer lines than a log has room for
BUSY = ["err", 0, 409]
PATIENCE = 10  # seconds: a greeting that isn't answered for so long waits, since all sessions of the server are taken
LAST = 4_294_967_295  # the number of a tenant's last request
SAVE = 20  # so many requests a save makes at most, and
SHORT_SAVE = 4  # so many where fewer than these are left
FOLDER = "/etc/omptaskd"


class Fault(Exception):
    """What went wrong, for a person."""


class Busy(Fault):
    """The tenant has another session, or other tenants have all sessions of the server."""


class Exhausted(Fault):
    """The tenant has made its last requests, and can't be read any more."""


class Full(Fault):
    """The tenant's log is full, or its last request is made: the session has ended."""


# ---- a session with a server


def connected(server):
    """A connection to a server: at a socket's path, or through a host of the fleet, HOST or HOST:PORT."""
    if "/" in server:
        connection = socket.socket(socket.AF_UNIX)
        connection.connect(server)
        return connection
    host, _, port = server.partition(":")
    context = ssl.create_default_context(cafile=f"{FOLDER}/ca.pem")
    context.load_cert_chain(f"{FOLDER}/mover.pem")
    raw = socket.create_connection((host, int(port or 7444)), timeout=60)
    return context.wrap_socket(raw, server_hostname=host)


def performed(request, reply):
    """The reply, where it is neither a refusal nor the end of the session."""
    if reply[0] in ("err", "full"):
        raise (Full if reply[0] == "full" else Fault)(f"{request[0]}: {reply}")
    return reply


class Session:
    """A session of a tenant. Where he has one already it tries again until that time of the clock, and then tells Busy."""

    def __init__(self, server, tenant, until=0.0):
        while True:
            self.connection = connected(server)
            self.stream = self.connection.makefile("rwb")
            usual = self.connection.gettimeout()
            self.connection.settimeout(max(until - time.monotonic(), PATIENCE))
            try:
                reply = self.ask(["hello", tenant])
            except TimeoutError:
                self.close()
                raise Busy("all sessions are taken") from None
            if reply[0] == "hello":
                self.next = reply[2]
                self.connection.settimeout(usual)
                return
            self.close()
            if reply != BUSY:
                raise Fault(f"{server} says {reply}")
            if time.monotonic() > until:
                raise Busy("busy")
            time.sleep(0.05)

    def __enter__(self):
        return self

    def __exit__(self, fault, *_):
        if fault:
            self.close()
        else:
            self.bye()

    def ask(self, request):
        return self.ask_line(json.dumps(request, separators=(",", ":")))

    def asked(self, request):
        return performed(request, self.ask(request))

    def ask_line(self, line):
        self.stream.write(line.encode() + b"\n")
        self.stream.flush()
        return self.hear()

    def hear(self):
        line = self.stream.readline()
        if not line.endswith(b"\n"):
            raise Fault("the session was ended")
        return json.loads(line)

    def bye(self):
        """Ends it; the tenant is free for the next session when this returns."""
        self.stream.write(GOODBYE.encode())
        self.stream.flush()
        self.stream.read()
        self.close()

    def close(self):
        self.stream.close()
        self.connection.close()


def greets(server):
    """Whether a server answers: of a name that no tenant can have it says 411."""
    try:
        with connected(server) as connection:
            connection.settimeout(PATIENCE)
            connection.sendall(b'["hello","0"]\n')
            return connection.makefile().readline() == '["err",0,411]\n'
    except OSError:
        return False


# ---- the text of a tenant


def numbers(name, cells):
    """The lines that write these cells, but for zeros."""
    at = 0
    while at < len(cells):
        if cells[at] == 0:
            at += 1
            continue
        end, last, size = at, at, 0
        while end < len(cells) and end - last <= GAP and size < LINE:
            if cells[end]:
                last = end
            size += len(str(cells[end])) + 1
            end += 1
        yield f'["put","{name}",{at},{json.dumps(cells[at : last + 1], separators=(",", ":"))}]\n'
        at = last + 1


def session_of(rows):
    """The session that makes these arrays again: a name and cells each."""
    lines = []
    for name, cells in rows:
        lines.append(f'["new","{name}",{len(cells)}]\n')
        lines += numbers(name, cells)
    return "".join(lines) + GOODBYE


def arrays(asked):
    """The session that makes the arrays again, as `list` and `get` tell them."""
    return session_of((name, asked(["get", name, 0, length])[2]) for name, length in asked(["list"])[2])


def sum_of(body, number, units):
    return hashlib.sha256(f"{body}{number} {units}".encode()).hexdigest()


def file_of(body, number, units):
    """The file's text: the session, and the line behind it."""
    return body + json.dumps({"next": number, "used": units, "sha256": sum_of(body, number, units)}) + "\n"


def taken(session):
    """The file's text of a session's tenant. Its log begins anew, before and after, so that a full one is no hindrance."""
    if left(session.next) < SHORT_SAVE:
        raise Exhausted("its last requests are made, and it can't be read any more")
    session.asked(["checkpoint"])
    units = session.asked(["used"])[2]
    if left(session.next) >= SAVE:
        body = arrays(session.asked)
        return file_of(body, session.asked(["checkpoint"])[1] + 1, units)
    # One request for all arrays: a run that executes nothing, and shows them.
    shows = [[name, 0, length] for name, length in session.asked(["list"])[2]]
    _, number, _, _, cells = session.asked(["run", ["program", shows, []]])
    return file_of(session_of(zip((show[0] for show in shows), cells)), number + 1, units)


def left(number):
    """How many requests a tenant may make yet whose next one has this number."""
    return LAST + 1 - number


def parts(text):
    """The session in a file's text, and what the line behind it says; a fault where the file was cut or changed."""
    body, goodbye, last = text.rpartition(GOODBYE)
    body += goodbye
    try:
        note = json.loads(last)
        number, units = int(note["next"]), int(note["used"])
        whole = last.endswith("\n") and note["sha256"] == sum_of(body, number, units)
    except (ValueError, KeyError, TypeError):
        whole = False
    if not whole:
        raise Fault("the file isn't whole")
    return body, number, units


# ---- the way back

RUN = 20000  # units of a run that changes nothing
LOG = 4000  # requests between two checkpoints: the log has room for 4,096


def put_back(session, text, replace=False, exact=False):
    """Makes the tenant's arrays what the file says, and compares what the server then tells of them."""
    body, number, units = parts(text)
    if session.next > 1:
        clear(session, replace)
    for line in body.splitlines()[:-1]:
        reply = session.ask_line(line)
        if reply[0] != "ok":
            raise Fault(f"{line[:40]}: {reply}")
    if arrays(session.asked) != body:
        raise Fault("what stands there isn't what the file says")
    if exact:
        go_on(session, number, units)


def clear(session, replace):
    session.asked(["checkpoint"])  # a full log is no hindrance
    found = session.asked(["list"])[2]
    if found and not replace:
        raise Fault("the tenant has arrays")
    for name, _ in found:
        session.asked(["free", name])


def go_on(session, number, units):
    """Brings the used units and the number of the next request to what the file says, where they are behind it. The last of
    the requests that it makes is a checkpoint."""
    spend(session, units - session.asked(["used"])[2])
    last = session.asked(["checkpoint"])[1]
    while last < number - 1:
        empty = min(number - 2 - last, LOG)  # an empty line is a request like others: it is refused, and counts
        session.stream.write(b"\n" * empty)
        session.stream.flush()
        for _ in range(empty):
            session.hear()
        last = session.asked(["checkpoint"])[1]
    session.next = last + 1


def spend(session, units):
    """Executes so many units, by runs that change nothing."""
    if units <= 0:
        return
    session.asked(["checkpoint"])
    names = session.asked(["list"])[2]
    cell = ["c", names[0][0] if names else "nothing", 0]
    if not names:
        session.asked(["new", "nothing", 1])
    runs = 0
    while units > 0:
        turns = min(units, RUN)
        reply = session.ask(["run", ["program", [], [["for", "i", 0, turns, [["add", cell, 0]]]]]])
        if reply[0] != "done" or reply[3] != turns:
            raise Fault(f"a run of {turns} units: {reply}")
        units -= turns
        runs += 1
        if runs % LOG == 0:
            session.asked(["checkpoint"])
    if not names:
        session.asked(["free", "nothing"])


def least_next(text):
    """The least number of a next request to which `put_back` can bring a new tenant: its own requests are counted too."""
    body, _, units = parts(text)
    runs = -(-units // RUN)
    return body.count("\n") + body.count('["new"') + runs + runs // LOG + 8


# ---- for a server's unit


def bad_names(names):
    """What is wrong with the names of tenants."""
    for name in names:
        if not re.fullmatch("[a-z][a-z0-9_]{0,15}", name):
            yield f"bad tenant name: {name}"
    for name in sorted({name for name in names if names.count(name) > 1}):
        yield f"a tenant is named twice: {name}"
    if len(names) > 64:
        yield f"there are {len(names)} tenants, and 64 is the most"


def tell_systemd(what):
    """As sd_notify(3) has it. Where systemd doesn't wait for it, nothing is told."""
    path = os.environ.get("NOTIFY_SOCKET")
    if path:
        with contextlib.suppress(OSError), socket.socket(socket.AF_UNIX, socket.SOCK_DGRAM) as connection:
            connection.sendto(what.encode(), "\0" + path[1:] if path.startswith("@") else path)


# ---- files


def write_whole(path, text):
    """The file is the old one or the new one whole, also where the machine loses power."""
    try:
        with open(path + "~", "w", encoding="utf-8") as file:
            file.write(text)
            file.flush()
            os.fsync(file.fileno())
    except OSError:
        # Half of it would take the room, on a full disk, that another's has.
        with contextlib.suppress(OSError):
            os.unlink(path + "~")
        raise
    os.rename(path + "~", path)
    folder = os.open(os.path.dirname(os.path.abspath(path)), os.O_RDONLY)
    os.fsync(folder)
    os.close(folder)
