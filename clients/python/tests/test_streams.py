"""What a session writes, and what it makes of replies that no server gives: they stand in a file, and no program is started."""
import io
import pickle
import unittest

from served import Case, omptask


def session_of(*replies, writer=None):
    """A session whose replies have come already."""
    reader = io.BytesIO("".join(reply + "\n" for reply in replies).encode())
    return omptask.Session(reader, writer or io.BytesIO())


class Slow(io.RawIOBase):
    """A stream that takes a few bytes at a time."""

    def __init__(self):
        self.taken = b""

    def writable(self):
        return True

    def write(self, some):
        self.taken += bytes(some[:3])
        return min(len(some), 3)


class Shut(io.BytesIO):
    """A stream that takes so many lines, and fails then."""

    lines = 1

    def write(self, some):
        if not self.lines:
            raise BrokenPipeError("shut")
        self.lines -= 1
        return super().write(some)


class Counted(io.BytesIO):
    """Replies to `list`, which notes how many lines were sent when the first was read, and how many bytes."""

    def __init__(self, count, writer):
        super().__init__("".join(f'["arrays",{at},[]]\n' for at in range(1, count + 1)).encode())
        self.writer, self.sent = writer, None

    def readline(self, *most):
        self.sent = self.sent or (self.writer.getvalue().count(b"\n"), len(self.writer.getvalue()))
        return super().readline(*most)


class Streams(Case):
    def test_the_lines(self):
        for writer in io.BytesIO(), Slow():
            session = session_of(writer=writer)
            ahead = session.ahead
            ahead.new("a", 3), ahead.put("a", 0, (1, 2**64 - 1)), ahead.get("a", 0, 3), ahead.list(), ahead.used()
            ahead.free("a"), ahead.checkpoint(), ahead.run(("program2", [], [["wait", []]])), ahead.line('[ "list" ]')
            lines = (
                '["new","a",3]', '["put","a",0,[1,18446744073709551615]]', '["get","a",0,3]', '["list"]', '["used"]', '["free","a"]',
                '["checkpoint"]', '["run",["program2",[],[["wait",[]]]]]', '[ "list" ]',
            )  # fmt: skip
            wanted = "".join(line + "\n" for line in lines).encode()
            self.assertEqual(writer.taken if isinstance(writer, Slow) else writer.getvalue(), wanted)

    def test_the_goodbye_is_the_last_line(self):
        writer = io.BytesIO()
        writer.close = lambda: None
        with session_of('["ok",1]', writer=writer) as session:
            session.ahead.new("a", 3)
        self.assertEqual(writer.getvalue(), b'["new","a",3]\n["bye"]\n')

    def test_a_greeting(self):
        writer = io.BytesIO()
        session = session_of('["hello","t1",4294967296]', writer=writer)
        self.assertEqual((session.hello("t1"), session.number), (2**32, 2**32))
        self.assertEqual(writer.getvalue(), b'["hello","t1"]\n')
        for reply in '["hello","t2",1]', '["hello","t1"]', '["ok",1]', "hello", '["err",1,411]':
            self.breaks(0, session_of(reply).hello, "t1")
        self.breaks(0, session_of().hello, "t1")

    def test_replies_in_another_order(self):
        session = session_of('["cells",2,[5]]', '["cells",1,[4]]')
        first, second = session.ahead.get("a", 0, 1), session.ahead.get("a", 1, 1)
        self.breaks(0, second.result)
        self.breaks(0, first.result)

    def test_replies_to_something_else(self):
        rows = [
            ("get", '["ok",1]'), ("get", '["cells",1]'), ("get", '["cells",1,[1],2]'), ("get", '["err",1]'), ("get", '["err",1,412,3,4]'),
            ("new", '["cells",1,[1]]'), ("new", '["ok",1,1]'), ("run", '["done",1,0,0]'), ("used", '["arrays",1,[]]'),
            ("list", '["arrays",1,[["a"]]]'), ("list", "[]"), ("list", "1"), ("list", "null"), ("list", "arrays"), ("list", '["hello"]'),
        ]  # fmt: skip
        words = {"get": ("a", 0, 1), "new": ("a", 1), "run": (1,)}
        for name, reply in rows:
            with self.subTest(name=name, reply=reply):
                self.breaks(0, getattr(session_of(reply), name), *words.get(name, ()))

    def test_a_number_that_the_session_is_told(self):
        reader = io.BytesIO(b'["ok",7]\n["ok",9]\n')
        session = omptask.Session(reader, io.BytesIO(), number=7)
        session.free("a")
        self.breaks(7, session.free, "a")

    def test_the_input_ends(self):
        session = session_of('["ok",1]')
        answers = [session.ahead.new("a", 1), session.ahead.new("b", 1), session.ahead.new("c", 1)]
        self.assertIsNone(answers[0].result())
        for answer in answers[1:]:
            self.breaks(1, answer.result)
        self.breaks(1, session.list)
        self.assertEqual((session.number, session.answered), (2, 1))
        self.breaks(0, omptask.Session(io.BytesIO(b'["ok",1]'), io.BytesIO()).new, "a", 1)

    def test_a_goodbye_before_the_end_of_the_replies(self):
        session = session_of('["ok",1]')
        session.ahead.new("a", 1), session.ahead.new("b", 1)
        self.breaks(1, session.bye)
        session = session_of('["ok",1]', '["full"]')
        session.ahead.new("a", 1), session.ahead.new("b", 1)
        self.ends("full", session.bye)

    def test_a_write_that_fails(self):
        session = session_of('["ok",1]', '["full"]', writer=Shut())
        session.ahead.new("a", 1)
        self.ends("full", session.ahead.new("b", 1).result)
        session = session_of('["ok",1]', writer=Shut())
        first = session.ahead.new("a", 1)
        self.breaks(1, session.new, "b", 1)
        self.assertIsNone(first.result())

    def test_a_write_that_is_interrupted(self):
        writer = Shut()
        session = session_of('["ok",1]', writer=writer)
        session.new("a", 1)
        writer.write = lambda some: (_ for _ in ()).throw(KeyboardInterrupt)
        self.assertRaises(KeyboardInterrupt, session.new, "b", 1)
        self.breaks(1, session.list)

    def test_a_long_line_that_the_server_finds(self):
        session = session_of('["long"]')
        self.ends("long", session.list)

    def test_how_much_is_ahead(self):
        for line, lines in ('["list"]', 64), ('["list"]'.ljust(1023), 4), ('["list"]'.ljust(4095), 1), ('["list"]'.ljust(9000), 1):
            writer = io.BytesIO()
            reader = Counted(200, writer)
            session = omptask.Session(reader, writer)
            answers = [session.ahead.line(line) for _ in range(200)]
            self.assertEqual(reader.sent, (lines, lines * (len(line) + 1)))
            self.assertEqual([answer.result()[1] for answer in answers], list(range(1, 201)))

    def test_exceptions_can_be_passed_on(self):
        for error in omptask.Refused(427, 3, 2), omptask.SessionBroken(3, "why"), omptask.LineTooLong(7, 6), omptask.SessionEnded("full"):
            copy = pickle.loads(pickle.dumps(error))
            self.assertEqual((type(copy), copy.__dict__, str(copy)), (type(error), error.__dict__, str(error)))
            self.assertIsInstance(error, omptask.Error)


if __name__ == "__main__":
    unittest.main()
