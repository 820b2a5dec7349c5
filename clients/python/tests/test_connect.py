"""Greetings, and sessions that come and go at a server's socket; and programs of their own."""
import os
import socket
import tempfile
import time

from served import PROGRAM, TIME, Case, omptask


class Connect(Case):
    def test_the_greeting_tells_the_number(self):
        path = self.serves("t1", "t2")
        with self.connects(path) as session:
            self.assertEqual(session.number, 1)
            session.new("a", 2)
            self.refuses(413, 2, None, session.new, "a", 2)
        with self.connects(path) as session:
            self.assertEqual((session.number, session.answered), (3, 2))
            self.assertEqual(session.list(), [("a", 2)])
        with self.connects(path, "t2") as session:
            self.assertEqual((session.number, session.list()), (1, []))

    def test_greetings_that_are_refused(self):
        path = self.serves("t1")
        self.refuses(404, 0, None, omptask.connect, path, "t2")
        for name in "T1", "", "a" * 17, "ä", 1:
            self.refuses(411, 0, None, omptask.connect, path, name)
        # The greeting has 12 bytes beside the name.
        self.refuses(411, 0, None, omptask.connect, path, "a" * 52)
        with self.assertRaises(omptask.LineTooLong) as caught:
            omptask.connect(path, "a" * 53)
        self.assertEqual((caught.exception.length, caught.exception.most), (65, 64))

    def test_a_tenant_has_one_session(self):
        path = self.serves("t1")
        first = self.connects(path)
        self.refuses(409, 0, None, omptask.connect, path, "t1")
        begun = time.monotonic()
        with self.assertRaises(omptask.Refused) as caught:
            omptask.connect(path, "t1", patience=0.2)
        self.assertGreaterEqual(time.monotonic() - begun, 0.2)
        self.assertEqual(str(caught.exception), f"the greeting is refused by 409: {omptask.MEANINGS[409]}")
        first.bye()
        omptask.connect(path, "t1").bye()

    def test_coming_again_at_once(self):
        path = self.serves("t1")
        for number in range(1, 101):
            with omptask.connect(path, "t1", timeout=TIME) as session:
                self.assertEqual(session.number, number)
                session.list()

    def test_a_greeting_over_streams(self):
        path = self.serves("t1")
        with socket.socket(socket.AF_UNIX) as connection:
            connection.settimeout(TIME)
            connection.connect(path)
            with omptask.Session(connection.makefile("rb"), connection.makefile("wb")) as session:
                self.assertEqual(session.hello("t1"), 1)
                answer = session.ahead.list()
                with self.assertRaises(ValueError):
                    session.hello("t1")
                self.assertEqual(answer.result(), [])
        with socket.socket(socket.AF_UNIX) as connection:
            connection.connect(path)
            session = omptask.Session(connection.makefile("rb"), connection.makefile("wb"))
            self.refuses(404, 0, None, session.hello, "t2")
            self.ends("hello", session.list)
            self.ends("hello", session.hello, "t1")
            session.bye()

    def test_a_server_that_is_killed(self):
        session = self.by_server()
        session.new("a", 3)
        session.list()
        self.server.kill()
        self.server.wait()
        self.breaks(2, session.list)
        self.breaks(2, session.ahead.list().result)
        session.bye()

    def test_a_session_that_hangs_up(self):
        path = self.serves("t1")
        session = self.connects(path)
        answer = session.ahead.new("a", 3)
        session.list()
        late = session.ahead.list()
        session.hang_up()
        self.assertIsNone(answer.result())
        self.breaks(2, late.result)
        # The greeting tells whether the last line was taken.
        with self.connects(path) as session:
            self.assertIn(session.number, (3, 4))

    def test_nobody_answers(self):
        with tempfile.TemporaryDirectory() as folder:
            path = os.path.join(folder, "socket")
            self.assertRaises(FileNotFoundError, omptask.connect, path, "t1")
            with socket.socket(socket.AF_UNIX) as silent:
                silent.bind(path)
                self.assertRaises(ConnectionRefusedError, omptask.connect, path, "t1")
                silent.listen()
                self.breaks(0, lambda: omptask.connect(path, "t1", timeout=0.1))

    def test_solo(self):
        with omptask.solo(PROGRAM) as session:
            session.new("a", 1)
            session.put("a", 0, [2**64 - 1])
            self.assertEqual(session.get("a", 0, 1), [2**64 - 1])
        self.ends("bye", session.list)
        with self.assertRaises(KeyboardInterrupt), omptask.solo(PROGRAM) as session:
            session.ahead.run(["program", [], [["for", "i", 0, 20000, [["wait"]]]]])
            raise KeyboardInterrupt
        self.breaks(0, session.list)
        with self.assertRaises(FileNotFoundError), omptask.solo("/nowhere/omptaskd"):
            pass
