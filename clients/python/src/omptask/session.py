"""A session of one tenant: requests go out as lines, and replies come back in the same order."""
from __future__ import annotations

import contextlib
import json
import operator
from collections import deque
from types import TracebackType
from typing import Any, BinaryIO, Callable, Generic, Iterable, List, NamedTuple, Optional, Sequence, Tuple, Type, TypeVar, Union

from .errors import Error, LineTooLong, Refused, SessionBroken, SessionEnded

# How many bytes a line may have, without its LF: each line, and a greeting.
MOST_BYTES, MOST_OF_GREETING = 65536, 64
# What may be on its way without a reply. A server that writes a reply takes no line. So what is sent ahead has to fit into the
# streams between, whatever they are: a pipe holds 4,096 bytes at the least. A line that is alone on its way may be longer.
AHEAD_LINES, AHEAD_BYTES = 64, 4096

# A cell holds a number from 0 to 2^64 - 1.
Cells = List[int]
Lists = List[List[int]]
# Each array's name and how many cells it has, in order of creation.
Arrays = List[Tuple[str, int]]
T = TypeVar("T")


class Done(NamedTuple):
    """What a program did.

    `tasks` is how many task statements were executed, 0 to 1,024, and `units` how many statements, 0 to 20,000. `lists` has the
    cells of each section that the program shows, as they are after it.
    """

    tasks: int
    units: int
    lists: Lists


class Answer(Generic[T]):
    """The answer to a request that was sent: `result()` waits for it. `number` is that of the request, where it is taken."""

    def __init__(self, session: Session, number: int, size: int, read: Callable[[Any], T]) -> None:
        self._session, self._read = session, read
        self._value: Optional[T] = None
        self._error: Optional[Error] = None
        self._came = False
        self.number, self.size = number, size

    def result(self) -> T:
        """What the request was answered. Waits for the reply, and for all before it.

        Raises `Refused`, `SessionEnded` or `SessionBroken`, each time that it is called.
        """
        while not self._came:
            self._session._read_reply()
        if self._error is not None:
            raise self._error
        return self._value  # type: ignore[return-value]

    def _take(self, reply: Sequence[Any]) -> None:
        """Takes its reply; raises LookupError, TypeError or ValueError where this is none."""
        if reply[1] != self.number:
            raise ValueError("it has another number")
        if reply[0] == "err":
            code, *place = reply[2:]
            self._error = Refused(code, self.number, *place)
        else:
            self._value = self._read(reply)
        self._came = True

    def _fail(self, error: Error) -> None:
        self._error, self._came = error, True


def _ok(reply: Sequence[Any]) -> None:
    (word, _) = reply
    _is(word, "ok")


def _cells(reply: Sequence[Any]) -> Cells:
    word, _, cells = reply
    _is(word, "cells")
    return cells


def _done(reply: Sequence[Any]) -> Done:
    word, _, tasks, units, lists = reply
    _is(word, "done")
    return Done(tasks, units, lists)


def _arrays(reply: Sequence[Any]) -> Arrays:
    word, _, arrays = reply
    _is(word, "arrays")
    return [(name, length) for name, length in arrays]


def _used(reply: Sequence[Any]) -> int:
    word, _, units = reply
    _is(word, "used")
    return units


def _is(found: Any, wanted: Any) -> None:
    if found != wanted:
        raise ValueError(f"{found!r} stands where {wanted!r} was to come")


class Ahead:
    """The requests of a session, which are sent and not waited for: each gives an `Answer`.

    They mean what the session's methods of the same names do. What is refused is raised by `Answer.result()`, and so is that the
    session has ended or broken off; a request that can't be sent, since its line is too long or a number is none, raises at once.

    At most 64 requests are on their way, and at most 4,096 bytes of them, or one that is longer: where there would be more, the
    first replies are read before the next request is sent, and kept for their answers.
    """

    def __init__(self, session: Session) -> None:
        self._session = session

    def _request(self, read: Callable[[Any], T], *items: Any) -> Answer[T]:
        return self._session._send(_line(items), read)

    def new(self, name: str, length: int) -> Answer[None]:
        return self._request(_ok, "new", name, operator.index(length))

    def put(self, name: str, start: int, cells: Iterable[int]) -> Answer[None]:
        return self._request(_ok, "put", name, operator.index(start), [operator.index(cell) for cell in cells])

    def get(self, name: str, start: int, length: int) -> Answer[Cells]:
        return self._request(_cells, "get", name, operator.index(start), operator.index(length))

    def run(self, program: Any) -> Answer[Done]:
        return self._request(_done, "run", program)

    def list(self) -> Answer[Arrays]:
        return self._request(_arrays, "list")

    def used(self) -> Answer[int]:
        return self._request(_used, "used")

    def free(self, name: str) -> Answer[None]:
        return self._request(_ok, "free", name)

    def checkpoint(self) -> Answer[None]:
        return self._request(_ok, "checkpoint")

    def line(self, text: Union[str, bytes]) -> Answer[Sequence[Any]]:
        line = text.encode() if isinstance(text, str) else bytes(text)
        if b"\n" in line or line.strip(b" \t\r") == b'["bye"]':
            raise ValueError("this is no line of a request: bye() ends a session")
        return self._session._send(line, list)


def _line(items: Sequence[Any]) -> bytes:
    return json.dumps(items, separators=(",", ":"), allow_nan=False).encode()


class Session:
    """A session of one tenant over two binary streams.

    `reader` has the method `readline`, and `writer` has `write` and `flush`; both are closed with the session. `number` is that of
    the first request, unless `hello` is told it. One thread at a time may use a session.

    Where a session is a context, its end is `bye()`; an exception that is no `Exception`, as KeyboardInterrupt, hangs up instead.

    Each request raises `Refused` where the server refuses it, by the codes that its docstring has or by 508 (memory ran out): no
    array has changed then. 411 is told where a name or a number is out of its range. Each raises `LineTooLong` where its line would
    have more than 65,536 bytes, TypeError where a number is no whole one, `SessionEnded` where the session has ended, and
    `SessionBroken` where it broke off.

    A name has 1 to 16 bytes: a letter `a` to `z`, then letters `a` to `z`, digits and `_`.
    """

    def __init__(self, reader: BinaryIO, writer: BinaryIO, *, number: int = 1) -> None:
        self._reader, self._writer = reader, writer
        self._pending: deque[Answer[Any]] = deque()
        self._on_the_way = 0
        self._over: Optional[Error] = None
        self._next = number
        self.ahead = Ahead(self)

    @property
    def number(self) -> int:
        """The number of the next request, 1 to 2^32: none is taken beyond 2^32 - 1."""
        return self._next

    @property
    def answered(self) -> int:
        """The number of the last request whose reply was read; one less than the first request's where none was."""
        return self._next - len(self._pending) - 1

    def hello(self, tenant: str) -> int:
        """Greets for a tenant, and gives the number of its next request. It is the first line at a server's socket, and no other.

        Refused: 404 (the server has no such tenant), 409 (the tenant has a session already), 411 (no name). The server closes the
        connection then. Raises `LineTooLong` where the greeting has more than 64 bytes.
        """
        if self._over is not None:
            raise self._over
        if self._pending:
            raise ValueError("a greeting is the first line")
        line = _line(["hello", tenant])
        if len(line) > MOST_OF_GREETING:
            raise LineTooLong(len(line), MOST_OF_GREETING)
        reply = self._greet(line)
        if reply[:2] == ["err", 0] and len(reply) == 3:
            self._end(SessionEnded("hello"))
            raise Refused(reply[2], 0)
        if reply[:2] != ["hello", tenant] or len(reply) != 3:
            raise self._end(SessionBroken(0, f"no answer to a greeting: {reply!r}"))
        self._next = reply[2]
        return self._next

    def _greet(self, line: bytes) -> Any:
        try:
            self._write(line)
        except (OSError, ValueError) as error:
            raise self._end(SessionBroken(0, str(error))) from error
        reply = self._receive()
        if reply is None:
            assert self._over is not None
            raise self._over
        return reply

    def new(self, name: str, length: int) -> None:
        """Makes an array of `length` cells, 1 to 65,536 with those of all other arrays, which are 0.

        Refused: 413 (an array has this name), 416 (a 17th array), 415 (more than 65,536 cells in all).
        """
        self.ahead.new(name, length).result()

    def put(self, name: str, start: int, cells: Iterable[int]) -> None:
        """Writes numbers, at least one and each 0 to 2^64 - 1, to the cells from index `start` on. Indices begin with 0.

        One line has room for some 3,000 numbers of 20 digits. Refused: 412 (no such array), 414 (past its last cell).
        """
        self.ahead.put(name, start, cells).result()

    def get(self, name: str, start: int, length: int) -> Cells:
        """Reads `length` cells, at least one, from index `start` on.

        Refused: 412 (no such array), 414 (past its last cell).
        """
        return self.ahead.get(name, start, length).result()

    def run(self, program: Any) -> Done:
        """Runs a program: lists, strings and whole numbers, as docs/LANGUAGE.md has them. It is run whole or not at all.

        Refused: 420, 421, 412, 414, 424, 422, 423 or 429 where it is no program over the tenant's arrays; 425 to 429 with a place
        where its tasks could race, or declare what they may not.
        """
        return self.ahead.run(program).result()

    def list(self) -> Arrays:
        """Tells the arrays, in order of creation: each one's name, and how many cells it has."""
        return self.ahead.list().result()

    def used(self) -> int:
        """Tells how many statements the tenant's programs have executed: the sum of the units of all that were done."""
        return self.ahead.used().result()

    def free(self, name: str) -> None:
        """Takes an array away, with its cells. Refused: 412 (no such array)."""
        self.ahead.free(name).result()

    def checkpoint(self) -> None:
        """Forgets the log up to here. Arrays, numbers and used units stay.

        From one checkpoint to the next a tenant has room for 4,096 requests, the checkpoint among them. Nothing refuses it.
        """
        self.ahead.checkpoint().result()

    def line(self, text: Union[str, bytes]) -> Sequence[Any]:
        """Sends a line as it is, without an LF, and gives the items of its reply. Raises ValueError where it is the goodbye.

        Refused: 410 (it is no JSON), 411 (it is no request), and what its request is refused by.
        """
        return self.ahead.line(text).result()

    def bye(self) -> None:
        """Says goodbye behind what was sent, reads to the end, and closes the streams. Then the tenant is free for a next session.

        Raises `SessionEnded` or `SessionBroken` where the session ends before all that was sent is answered. Does no more than close
        the streams where the session is over.
        """
        try:
            if self._over is None:
                self._say_goodbye()
        finally:
            self.hang_up()

    def _say_goodbye(self) -> None:
        while self._pending:
            self._read_reply()
        if self._over is not None:
            raise self._over
        try:
            self._write(b'["bye"]')
            while self._reader.readline():
                pass
        except (OSError, ValueError) as error:
            raise self._end(SessionBroken(self.answered, str(error))) from error
        self._end(SessionEnded("bye"))

    def hang_up(self) -> None:
        """Closes the streams at once. What was sent may be performed or not; what wasn't answered has failed."""
        if self._over is None:
            self._end(SessionBroken(self.answered, "this side hung up"))
        for stream in self._writer, self._reader:
            with contextlib.suppress(OSError, ValueError):
                stream.close()

    def __enter__(self) -> Session:
        return self

    def __exit__(self, kind: Optional[Type[BaseException]], _: Optional[BaseException], __: Optional[TracebackType]) -> None:
        if kind is None:
            self.bye()
        elif issubclass(kind, Exception):
            with contextlib.suppress(Error):
                self.bye()
        else:
            self.hang_up()

    def _send(self, line: bytes, read: Callable[[Any], T]) -> Answer[T]:
        """Sends a line once there is room for it on the way."""
        if len(line) > MOST_BYTES:
            raise LineTooLong(len(line), MOST_BYTES)
        size = len(line) + 1
        while self._pending and (len(self._pending) >= AHEAD_LINES or self._on_the_way + size > AHEAD_BYTES):
            self._read_reply()
        answer = Answer(self, self._next, size, read)
        if self._over is not None:
            answer._fail(self._over)
            return answer
        self._pending.append(answer)
        self._on_the_way += size
        self._next += 1
        try:
            self._write(line)
        except (OSError, ValueError) as error:
            self._read_what_came(error)
        except BaseException:
            # (a part of the line may have been sent, and no other is to stand behind it)
            self._end(SessionBroken(self.answered, "a line was interrupted"))
            raise
        return answer

    def _write(self, line: bytes) -> None:
        rest = memoryview(line + b"\n")
        while rest:
            # (a stream without a buffer may take a part)
            rest = rest[self._writer.write(rest) :]
        self._writer.flush()

    def _read_what_came(self, error: Exception) -> None:
        """Reads the replies that came before a write failed: the last may say why the session ended."""
        while self._over is None and self._pending:
            self._read_reply()
        if self._over is None:
            self._end(SessionBroken(self.answered, str(error)))

    def _receive(self) -> Any:
        """The next line as JSON; None where none comes, and the session is over."""
        line, why = b"", "the stream ended"
        try:
            line = self._reader.readline()
            if line.endswith(b"\n"):
                return json.loads(line)
        except (OSError, ValueError) as error:
            why = str(error)
        self._end(SessionBroken(self.answered, f"{why}, behind {line[:80]!r}" if line else why))
        return None

    def _read_reply(self) -> None:
        """Reads the next reply, for the first answer that waits."""
        reply = self._receive()
        if self._over is not None:
            return
        if reply in (["full"], ["long"]):
            self._end(SessionEnded(reply[0]))
            return
        try:
            self._pending[0]._take(reply)
        except (LookupError, TypeError, ValueError) as error:
            self._end(SessionBroken(self.answered, f"{str(reply)[:80]} is no reply to request {self._pending[0].number}: {error}"))
            return
        self._on_the_way -= self._pending.popleft().size

    def _end(self, error: Error) -> Error:
        """Ends the session: what waits for a reply fails."""
        self._over = error
        self._next -= len(self._pending)
        while self._pending:
            self._pending.popleft()._fail(error)
        return error
