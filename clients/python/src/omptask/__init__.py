"""A client of omptaskd, of the standard library alone.

`connect` opens a session at a server's Unix socket, `solo` starts `omptaskd solo` and holds its session, and `Session` holds one
over any two streams. The requests of docs/PROTOCOL.md are methods of a session: `new`, `put`, `get`, `run`, `list`, `used`,
`free`, `checkpoint`. Each has a twin in `session.ahead`, which sends the request and doesn't wait for the reply.

What is refused is raised: `Refused` has the code, the number of the request and, where the reply has one, the place.
"""
from .errors import MEANINGS, Error, LineTooLong, Refused, SessionBroken, SessionEnded
from .session import MOST_BYTES, Ahead, Answer, Done, Session
from .streams import connect, solo

__all__ = [
    "MEANINGS",
    "MOST_BYTES",
    "Ahead",
    "Answer",
    "Done",
    "Error",
    "LineTooLong",
    "Refused",
    "Session",
    "SessionBroken",
    "SessionEnded",
    "connect",
    "solo",
]
