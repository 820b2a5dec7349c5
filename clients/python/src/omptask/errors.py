"""What can go wrong in a session."""
from __future__ import annotations

from typing import Optional

# Each code with its meaning, as docs/PROTOCOL.md has it.
MEANINGS = {
    404: "the server has no such tenant: in answer to a greeting alone",
    409: "the tenant has a session already: in answer to a greeting alone",
    410: "the line is no JSON, no UTF-8, or nested deeper than 127",
    411: "the line is JSON, but no request",
    412: "no array has this name",
    413: "an array has this name already",
    414: "the array has no such cells",
    415: "too many cells",
    416: "too many arrays",
    420: "the program is of no form of the language",
    421: "a size in the program is not exact or out of range, or a variable is unknown",
    422: "the program is too large or too deep",
    423: "the program has too many task statements",
    424: "a section of the program has length 0",
    425: "the body of a task touches a cell as the task doesn't declare it",
    426: "a task declares more than the task around it",
    427: "a touch, or a group, conflicts with a pending child",
    428: "a task can end with a child pending",
    429: "a reduction is misused",
    508: "memory ran out",
}

ENDS = {
    "bye": "the session was ended by its goodbye",
    "full": "the tenant's log is full: only a checkpoint, as the first request of another session, is taken",
    "hello": "the greeting was refused, and the server closed the connection",
    "long": "the server found a line too long",
}


class Error(Exception):
    """Each error of this package is one."""


class Refused(Error):
    """The server refused a request, which changed no array; or it refused the greeting.

    `code`    says why, 404 to 508; `meaning` is its sentence.
    `number`  is that of the request, 1 to 2^32 - 1, and 0 of a greeting.
    `place`   is the number of the statement at which the first offence of a program stands, 1 to 20,000; None where the reply
              has none. The codes 425 to 428 come with a place, and 429 comes with one or without.

    By code 508 memory ran out: the same request may be made again.
    """

    def __init__(self, code: int, number: int, place: Optional[int] = None) -> None:
        super().__init__(code, number, place)
        self.code, self.number, self.place = code, number, place

    @property
    def meaning(self) -> str:
        """The sentence of the code; of a code that this package doesn't know, that it doesn't."""
        return MEANINGS.get(self.code, "a code that this client doesn't know")

    def __str__(self) -> str:
        what = f"request {self.number}" if self.number else "the greeting"
        place = "" if self.place is None else f" at statement {self.place}"
        return f"{what} is refused by {self.code}{place}: {self.meaning}"


class LineTooLong(Error, ValueError):
    """A request is too long for one line, and wasn't sent; the session goes on.

    `length` is how many bytes the line has without its LF, and `most` how many it may have.
    """

    def __init__(self, length: int, most: int) -> None:
        super().__init__(length, most)
        self.length, self.most = length, most

    def __str__(self) -> str:
        return f"the line would have {self.length} bytes, and may have {self.most}"


class SessionEnded(Error):
    """The session has ended, and this request wasn't taken: it has no number, and changed nothing.

    `reason` is "full" where the tenant's log is full, "bye" behind the goodbye, "hello" where the greeting was refused, and "long"
    where the server found a line too long.
    """

    def __init__(self, reason: str) -> None:
        super().__init__(reason)
        self.reason = reason

    def __str__(self) -> str:
        return ENDS[self.reason]


class SessionBroken(Error):
    """The session broke off: a stream failed, or ended before the reply came, or brought what is no reply.

    `answered` is the number of the last request whose reply came: 0 in a new tenant's session where none did. Whether later
    requests were taken is told by the next greeting. Where the next session's `number` is `answered` + 1, none was; each more is
    one more that was taken, the first ones of those that were sent.
    """

    def __init__(self, answered: int, why: str) -> None:
        super().__init__(answered, why)
        self.answered, self.why = answered, why

    def __str__(self) -> str:
        return f"the session broke off behind the reply to request {self.answered}: {self.why}"
