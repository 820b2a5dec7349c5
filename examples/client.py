"""A client of a server: python3 client.py SOCKET TENANT. It sums the numbers 1 to 100 by ten tasks.

It makes two arrays under names that the tenant doesn't use yet, and frees them.
"""
import json
import socket
import sys


def ask(stream, *request):
    stream.write(json.dumps(request) + "\n")
    stream.flush()
    line = stream.readline()
    if line in ("", '["full"]\n'):
        sys.exit("the session has ended")
    return json.loads(line)


connection = socket.socket(socket.AF_UNIX)
connection.connect(sys.argv[1])
with connection, connection.makefile("rw") as stream:
    reply = ask(stream, "hello", sys.argv[2])
    print(reply)
    if reply == ["err", 0, 409]:
        sys.exit("the tenant has a session: try again later")
    if reply[0] != "hello":
        sys.exit("no session")
    # A tenant has at most 16 arrays, so two of these names are free.
    used = [name for name, _ in ask(stream, "list")[2]]
    total, terms = [name for name in (f"client_{n}" for n in range(18)) if name not in used][:2]
    print(ask(stream, "new", total, 1), ask(stream, "new", terms, 100))
    print(ask(stream, "put", terms, 0, list(range(1, 101))))
    cells = [["add", ["c", total, 0], ["c", terms, ["+", ["*", "t", 10], "k"]]]]
    task = ["task", [["red", [total, 0, 1]], ["in", [terms, ["*", "t", 10], 10]]], [["for", "k", 0, 10, cells]]]
    body = [["group", [[total, 0, 1]], [["for", "t", 0, 10, [task]]]]]
    print(ask(stream, "run", ["program", [[total, 0, 1]], body]))
    ask(stream, "free", total), ask(stream, "free", terms)
    # What was logged so far may be forgotten: the tenant has room for 4,095 requests more.
    print(ask(stream, "checkpoint"))
    # The stream ends once the tenant is free for the next session.
    stream.write('["bye"]\n')
    stream.flush()
    stream.read()
