"""Programs for the tests: OMPTASKD names the one that is tried. Each is bounded in time, and none outlives its test."""
import os
import pathlib
import resource
import shutil
import signal
import subprocess
import sys
import tempfile
import time
import unittest

sys.path.insert(0, str(pathlib.Path(__file__).resolve().parent.parent / "src"))
import omptask  # noqa: E402

# Seconds that a program may take of a processor, and by the clock; and that something may be waited for.
PROCESSOR, LONGEST, TIME = 60, 240, 120
PROGRAM = os.path.abspath(os.environ.get("OMPTASKD") or shutil.which("omptaskd") or "omptaskd")


def bounded():
    """Bounds a program that is about to be started: each of the two signals ends it."""
    resource.setrlimit(resource.RLIMIT_CPU, (PROCESSOR, PROCESSOR + 5))
    signal.alarm(LONGEST)


class Case(unittest.TestCase):
    """A test that may start programs."""

    def starts(self, *words, **more):
        process = subprocess.Popen([PROGRAM, *words], preexec_fn=bounded, **more)
        self.addCleanup(process.wait)
        self.addCleanup(process.kill)
        return process

    def serves(self, *tenants):
        """The socket of a new server, which can be asked."""
        folder = tempfile.TemporaryDirectory()
        self.addCleanup(folder.cleanup)
        path = f"{folder.name}/socket"
        self.server = self.starts("serve", "--socket", path, *tenants, stdin=subprocess.DEVNULL, stdout=subprocess.DEVNULL)
        end = time.monotonic() + TIME
        while not os.path.exists(path):
            self.assertIsNone(self.server.poll(), "the server ended")
            self.assertLess(time.monotonic(), end, "the server makes no socket")
            time.sleep(0.001)
        return path

    def connects(self, path, tenant="t1"):
        session = omptask.connect(path, tenant, timeout=TIME, patience=TIME)
        self.addCleanup(session.hang_up)
        return session

    def by_server(self):
        """A session of a new tenant at a server."""
        return self.connects(self.serves("t1", "t2"))

    def by_solo(self):
        """A session of a new tenant over the streams of a program of its own."""
        process = self.starts("solo", stdin=subprocess.PIPE, stdout=subprocess.PIPE)
        session = omptask.Session(process.stdout, process.stdin)
        self.addCleanup(session.hang_up)
        return session

    def refuses(self, code, number, place, call, *words):
        """A call is refused by a code, with the number of the request and the place."""
        with self.assertRaises(omptask.Refused) as caught:
            call(*words)
        found = caught.exception
        self.assertEqual((found.code, found.number, found.place), (code, number, place))

    def ends(self, reason, call, *words):
        """A call says that the session has ended, and by what."""
        with self.assertRaises(omptask.SessionEnded) as caught:
            call(*words)
        self.assertEqual(caught.exception.reason, reason)

    def breaks(self, answered, call, *words):
        """A call says that the session broke off, and behind which reply."""
        with self.assertRaises(omptask.SessionBroken) as caught:
            call(*words)
        self.assertEqual(caught.exception.answered, answered)
