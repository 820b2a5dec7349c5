"""Where sessions are held: at a server's socket, and by a program of their own."""
from __future__ import annotations

import contextlib
import os
import socket
import subprocess
import time
from typing import Iterator, Optional, Union

from .errors import Refused
from .session import Session

# Seconds between two greetings, where the tenant has a session.
PAUSE = 0.01


def _greeted(path: Union[str, bytes, os.PathLike[str]], tenant: str, timeout: Optional[float]) -> Session:
    """A session at a socket, whose greeting was answered."""
    with contextlib.ExitStack() as opened:
        connection = opened.enter_context(socket.socket(socket.AF_UNIX, socket.SOCK_STREAM))
        connection.settimeout(timeout)
        connection.connect(os.fspath(path))
        # (the socket itself stays open until both of its streams are closed)
        session = Session(connection.makefile("rb"), connection.makefile("wb", buffering=0))
        opened.callback(session.hang_up)
        session.hello(tenant)
        opened.pop_all()
        connection.close()
        return session


def connect(
    path: Union[str, bytes, os.PathLike[str]], tenant: str, *, timeout: Optional[float] = None, patience: float = 0.0
) -> Session:
    """A session of a tenant at the Unix socket of `omptaskd serve`.

    `path`      is that of the socket, at most 107 bytes.
    `tenant`    is its name: 1 to 16 bytes, a letter `a` to `z`, then letters `a` to `z`, digits and `_`.
    `timeout`   is how many seconds one read or write may take; None waits for as long as it takes. A session that has waited for
                so long breaks off.
    `patience`  is for how many seconds it greets again where the tenant has a session already (409). A session that has just ended
                may hold its tenant for a moment.

    Raises `Refused` where the greeting is refused: 404 (no such tenant), 409 (it has a session), 411 (no name). Raises
    `LineTooLong` where the greeting has more than 64 bytes, `SessionBroken` where no answer comes, and OSError where nobody listens.
    """
    end = time.monotonic() + patience
    while True:
        try:
            return _greeted(path, tenant, timeout)
        except Refused as refused:
            if refused.code != 409 or time.monotonic() >= end:
                raise
        time.sleep(PAUSE)


@contextlib.contextmanager
def solo(program: Union[str, os.PathLike[str]] = "omptaskd") -> Iterator[Session]:
    """The session of a new tenant, held by a program of its own: `with solo() as session:`.

    `program` is the path of omptaskd, or its name on the path. Its arrays end with the block, and so does the program. Raises
    OSError where it can't be started.
    """
    process = subprocess.Popen([os.fspath(program), "solo"], stdin=subprocess.PIPE, stdout=subprocess.PIPE)
    assert process.stdin is not None and process.stdout is not None
    try:
        with Session(process.stdout, process.stdin) as session:
            yield session
    finally:
        process.kill()
        process.wait()
