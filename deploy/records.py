"""What a journal writes down of a tenant, on disk or in etcd: where it begins, and records behind that.

It begins with a tenant's file, as saved.py has it. A record is bytes: `L` and lines, each with its line feed, which were about to
be handed to the server; `S` and a number: that line changed nothing, as it was answered 508; `C` and a number: the server took
no line from this one on. Records are only ever added, and a beginning takes the place of all before it.
"""
import base64
import http.client
import json
import os
import socket
import threading
import uuid
import zlib

from saved import GOODBYE, Fault, file_of, least_next, parts, write_whole

NEW = file_of(GOODBYE, 1, 0)
STRUCK = b"x"  # an x before its rest makes a line no JSON: it is refused, and counts


def lines_of(text, records):
    """The lines behind the beginning, as they are to be given to a server."""
    first = parts(text)[1]
    lines = []
    for record in records:
        kind, rest = record[:1], record[1:]
        if kind == b"L":
            lines += rest.split(b"\n")[:-1]
        elif kind == b"C":
            del lines[int(rest) - first :]
        else:
            lines[int(rest) - first] = STRUCK
    return lines


def saved_before(path):
    """A beginning for a tenant that was saved and had no journal: his arrays, and a number to which a server can be brought."""
    if not os.path.exists(path):
        return NEW
    with open(path, encoding="utf-8") as file:
        text = file.read()
    body, number, units = parts(text)
    return file_of(body, max(number, least_next(text)), units)


class Disk:
    """FOLDER/TENANT.journal: the beginning, and then each record behind a line with its length and its sum."""

    def __init__(self, folder, tenant):
        self.path = os.path.join(folder, tenant + ".journal")
        self.lock = threading.Lock()
        if not os.path.exists(self.path):
            write_whole(self.path, saved_before(os.path.join(folder, tenant + ".jsonl")))
        self.file = open(self.path, "r+b")

    def take(self):
        """All that was written. What a loss of power left in halves is cut off: nobody was answered for it."""
        self.file.seek(0)
        data = self.file.read()
        at = data.index(b"\n", data.index(GOODBYE.encode()) + len(GOODBYE)) + 1
        text, records = data[:at].decode(), []
        while (record := record_at(data, at)) is not None:
            records.append(record[0])
            at = record[1]
        self.file.truncate(at)
        self.file.seek(at)
        return text, records

    def read(self):
        with self.lock:
            return self.take()

    def add(self, record):
        with self.lock:
            self.file.write(b"%d %08x\n" % (len(record), zlib.crc32(record)) + record)
            self.file.flush()
            os.fdatasync(self.file.fileno())

    def begin(self, text):
        with self.lock:
            write_whole(self.path, text)
            self.file.close()
            self.file = open(self.path, "r+b")
            self.file.seek(0, os.SEEK_END)


def record_at(data, at):
    """The record at this place, and where the next one stands; none where it isn't whole."""
    end = data.find(b"\n", at, at + 30)
    if end < 0:
        return None
    try:
        length, check = data[at:end].split(b" ")
        record = data[end + 1 : end + 1 + int(length)]
        whole = len(record) == int(length) and zlib.crc32(record) == int(check, 16)
    except ValueError:
        return None
    return (record, end + 1 + int(length)) if whole else None


# ---- etcd


class Taken(Fault):
    """Another journal is the tenant's owner now."""


class Unsure(Exception):
    """No member answered; what was asked for may be done, now or later."""


PIECE = 500000  # bytes of a value, below the 1.5 MB that etcd takes


def coded(text):
    return base64.b64encode(text if isinstance(text, bytes) else text.encode()).decode()


def decoded(text):
    return base64.b64decode(text)


class Etcd:
    """A tenant's keys. `owner/TENANT` says whose he is, and each change is a transaction that asks whether that still holds.

    `begin/TENANT` has the number of the first record that counts; `text/TENANT/NUMBER/..` the beginning, in pieces;
    `record/TENANT/NUMBER` a record. Members are tried in turn. Where one doesn't answer, what was asked of it may still come to
    be done: so the owner takes a new name before he asks again, and it can't be done under the old one."""

    def __init__(self, members, host, tenant):
        self.members, self.host, self.tenant = members, host, tenant
        self.at, self.link, self.lock = 0, None, threading.RLock()
        self.number = 0  # of the next record
        self.me = self.name()
        self.own(None)

    def name(self):
        return f"{self.host}/{uuid.uuid4()}"

    def key(self, kind, *numbers):
        return "/".join([kind, self.tenant, *(f"{number:012d}" for number in numbers)])

    # one request to a member

    def ask(self, path, body):
        try:
            if self.link is None:
                host, port = self.members[self.at % len(self.members)].split(":")
                self.link = http.client.HTTPConnection(host, int(port), timeout=3)
                self.link.connect()
                self.link.sock.setsockopt(socket.IPPROTO_TCP, socket.TCP_NODELAY, 1)
            self.link.request("POST", "/v3/kv/" + path, json.dumps(body))
            reply = self.link.getresponse()
            text = reply.read()
            if reply.status == 200:
                return json.loads(text)
        except (OSError, http.client.HTTPException, ValueError):
            pass
        if self.link is not None:
            self.link.close()
        self.link = None
        self.at += 1
        raise Unsure

    def again(self, act):
        """Tries it at each member, three times."""
        for _ in range(3 * len(self.members)):
            try:
                return act()
            except Unsure:
                pass
        raise Fault("no etcd answers")

    def range(self, key, end=None, limit=0):
        body = {"key": coded(key), "limit": limit}
        if end:
            body["range_end"] = coded(end)
        found = self.again(lambda: self.ask("range", body)).get("kvs", [])
        return [(decoded(row["key"]), decoded(row.get("value", "")), row["mod_revision"]) for row in found]

    def all(self, key, end):
        """A range, some rows at a time: a row may have half a MB."""
        found = []
        while rows := self.range(key, end, 16):
            found += rows
            key = rows[-1][0] + b"\0"
        return found

    # ownership

    def own(self, old):
        """Becomes the owner: from whoever it is, or from the one named `old` alone. By the revision that was read, so that a
        request which comes late does nothing."""

        def act():
            rows = self.range(self.key("owner"))
            found, revision = (rows[0][1].decode(), rows[0][2]) if rows else (None, "0")
            if found == self.me:
                return True
            if old and found != old:
                raise Taken(f"{self.tenant} is {found}'s now")
            compare = {"key": coded(self.key("owner")), "target": "MOD", "modRevision": revision}
            put = {"requestPut": {"key": coded(self.key("owner")), "value": coded(self.me)}}
            return self.ask("txn", {"compare": [compare], "success": [put]}).get("succeeded", False)

        while not self.again(act):
            pass

    def change(self, *acts):
        """Does these, if the tenant is still this owner's."""

        def act():
            compare = {"key": coded(self.key("owner")), "target": "VALUE", "value": coded(self.me)}
            try:
                done = self.ask("txn", {"compare": [compare], "success": list(acts)}).get("succeeded")
            except Unsure:
                old, self.me = self.me, self.name()
                self.own(old)
                raise
            if not done:
                raise Taken(f"{self.tenant} is another's now")

        with self.lock:
            self.again(act)

    # what a journal asks for

    def read(self):
        with self.lock:
            begins = self.range(self.key("begin"))
            first = int(begins[0][1]) if begins else 0
            pieces = self.all(self.key("text", first) + "/", self.key("text", first) + "0")
            rows = self.all(self.key("record", first), self.key("record") + "0")
            if rows:
                self.number = int(rows[-1][0].split(b"/")[2]) + 1
            self.number = max(self.number, first)
            return b"".join(row[1] for row in pieces).decode() or NEW, [row[1] for row in rows]

    def add(self, record):
        with self.lock:
            # A record of lines may be as large as one reading of the party's; the protocol's lines are shorter than a piece.
            self.change({"requestPut": {"key": coded(self.key("record", self.number)), "value": coded(record)}})
            self.number += 1

    def begin(self, text):
        with self.lock:
            first, data = self.number, text.encode()
            for k, at in enumerate(range(0, len(data), PIECE)):
                piece = {"key": coded(self.key("text", first, k)), "value": coded(data[at : at + PIECE])}
                self.change({"requestPut": piece})
            self.change(
                {"requestPut": {"key": coded(self.key("begin")), "value": coded(str(first))}},
                erased(self.key("record"), self.key("record", first)),
                erased(self.key("text"), self.key("text", first)),
            )
            self.number = first


def erased(key, end):
    return {"requestDeleteRange": {"key": coded(key), "range_end": coded(end)}}
