"""Each request, by a server and by solo: what it does, and by which codes it is refused (docs/PROTOCOL.md, docs/LANGUAGE.md)."""
from served import Case, omptask

MOST = 2**64 - 1
# A task that writes, and a statement behind it that writes the same cell: an offence at the second statement.
RACE = ["program", [], [["task", [["out", ["a", 0, 1]]], []], ["set", ["c", "a", 0], 1]]]


class Requests:
    """What holds by either program."""

    def test_the_first_session_of_the_protocol(self):
        session = self.opens()
        self.assertIsNone(session.new("a", 3))
        self.assertIsNone(session.put("a", 0, [1, 2, 3]))
        self.assertEqual(session.get("a", 0, 3), [1, 2, 3])
        done = session.run(["program", [["a", 0, 3]], [["set", ["c", "a", 0], 7]]])
        self.assertEqual((done.tasks, done.units, done.lists), (0, 1, [[7, 2, 3]]))
        self.refuses(412, 5, None, session.get, "b", 0, 1)
        self.assertEqual((session.number, session.answered), (6, 5))
        session.bye()

    def test_each_other_request(self):
        session = self.opens()
        self.assertEqual(session.list(), [])
        session.new("b", 2)
        session.new("a", 1)
        self.assertEqual(session.list(), [("b", 2), ("a", 1)])
        self.assertEqual(session.used(), 0)
        group = ["group", [["a", 0, 1]], [["task", [["red", ["a", 0, 1]]], [["add", ["c", "a", 0], 5]]]]]
        self.assertEqual(session.run(["program", [["a", 0, 1], ["b", 0, 2]], [group]]), omptask.Done(1, 3, [[5], [0, 0]]))
        self.assertEqual(session.used(), 3)
        self.assertIsNone(session.free("b"))
        self.assertEqual(session.list(), [("a", 1)])
        self.assertIsNone(session.checkpoint())
        self.assertEqual(session.number, 11)
        self.assertEqual((session.used(), session.get("a", 0, 1)), (3, [5]))

    def test_numbers_stay_exact(self):
        session = self.opens()
        cells = [2**53 - 1, 2**53, 2**53 + 1, 2**63 - 1, 2**63 + 1, MOST - 1, MOST, 0]
        session.new("a", len(cells))
        session.put("a", 0, cells)
        self.assertEqual(session.get("a", 0, len(cells)), cells)
        adds = [["add", ["c", "a", 2], 2**53], ["add", ["c", "a", 6], 3]]
        self.assertEqual(session.run(["program", [["a", 2, 1], ["a", 6, 1]], adds]).lists, [[2**54 + 1], [2]])
        self.assertEqual([type(cell) for cell in session.get("a", 0, 8)], [int] * 8)

    def test_numbers_out_of_their_range(self):
        session = self.opens()
        session.new("a", 3)
        for at, words in enumerate([(0, [2**64]), (0, [-1]), (-1, [1]), (2**32, [1]), (0, [])], 2):
            self.refuses(411, at, None, session.put, "a", *words)
        self.refuses(411, 7, None, session.new, "b", 0)
        self.refuses(411, 8, None, session.new, "B", 1)
        for wrong in [1.0], ["1"], [None]:
            with self.assertRaises(TypeError):
                session.put("a", 0, wrong)
        self.assertEqual(session.number, 9)
        self.assertEqual(session.get("a", 0, 3), [0, 0, 0])

    def test_codes_of_arrays(self):
        session = self.opens()
        session.new("a", 3)
        self.refuses(413, 2, None, session.new, "a", 1)
        self.refuses(415, 3, None, session.new, "b", 65534)
        self.refuses(412, 4, None, session.free, "b")
        self.refuses(412, 5, None, session.put, "b", 0, [1])
        self.refuses(414, 6, None, session.put, "a", 2, [8, 9])
        self.refuses(414, 7, None, session.get, "a", 1, 3)
        for name in "bcdefghijklmnop":
            session.new(name, 1)
        self.refuses(416, 23, None, session.new, "q", 1)
        self.assertEqual(len(session.list()), 16)

    def test_codes_of_programs(self):
        session = self.opens()
        session.new("a", 3)
        set_a = lambda index, value: ["program", [], [["set", ["c", "a", index], value]]]  # noqa: E731
        rows = [
            (420, {}), (421, set_a("i", 1)), (412, ["program", [["b", 0, 1]], []]), (414, set_a(3, 1)),
            (424, ["program", [["a", 3, 0]], []]), (422, ["program", [], [["for", "i", 0, 40001, []]]]),
            (423, ["program", [], [["for", "i", 0, 1025, [["task", [], []]]]]]),
            (429, ["program", [], [["task", [["in", ["a", 0, 1]], ["red", ["a", 0, 1]]], []]]]),
        ]  # fmt: skip
        for number, (code, program) in enumerate(rows, 2):
            self.refuses(code, number, None, session.run, program)

    def test_places_of_offences(self):
        session = self.opens()
        session.new("a", 3)
        set_a = ["set", ["c", "a", 0], 1]
        inner = ["task", [["out", ["a", 0, 1]]], []]
        self.refuses(427, 2, 2, session.run, RACE)
        self.refuses(425, 3, 2, session.run, ["program", [], [["task", [], [set_a]]]])
        self.refuses(426, 4, 3, session.run, ["program", [], [set_a, ["task", [], [inner, ["wait"]]]]])
        self.refuses(428, 5, 1, session.run, ["program", [], [["task", [["out", ["a", 0, 2]]], [inner]]]])
        self.refuses(429, 6, 1, session.run, ["program", [], [["task", [["red", ["a", 0, 1]]], []]]])
        self.assertEqual((session.used(), session.get("a", 0, 3)), (0, [0, 0, 0]))

    def test_what_a_refusal_says(self):
        session = self.opens()
        session.new("a", 3)
        with self.assertRaises(omptask.Refused) as caught:
            session.run(RACE)
        self.assertEqual(caught.exception.meaning, "a touch, or a group, conflicts with a pending child")
        text = "request 2 is refused by 427 at statement 2: a touch, or a group, conflicts with a pending child"
        self.assertEqual(str(caught.exception), text)

    def test_lines_as_they_are(self):
        session = self.opens()
        self.assertEqual(session.line('[ "\\u006eew" , "a" , 3 ]\r'), ["ok", 1])
        self.refuses(410, 2, None, session.line, "")
        self.refuses(410, 3, None, session.line, b"\xff")
        self.refuses(411, 4, None, session.line, '["list",1]')
        self.refuses(411, 5, None, session.line, '[ "bye" ]')
        self.assertEqual(session.line(b'["list"]'), ["arrays", 6, [["a", 3]]])
        for no_request in '["bye"]', ' ["bye"]\t\r', '["list"]\n["list"]':
            with self.assertRaises(ValueError):
                session.line(no_request)
        self.assertEqual(session.list(), [("a", 3)])

    def test_a_line_at_its_limit(self):
        session = self.opens()
        self.assertEqual(session.line('["list"]'.ljust(65536)), ["arrays", 1, []])
        with self.assertRaises(omptask.LineTooLong) as caught:
            session.line('["list"]'.ljust(65537))
        self.assertEqual((caught.exception.length, caught.exception.most), (65537, 65536))
        session.new("a", 65536)
        with self.assertRaises(omptask.LineTooLong):
            session.put("a", 0, [0] * 65536)
        with self.assertRaises(omptask.LineTooLong):
            session.run(["program", [], [["wait"]] * 8000])
        self.assertEqual(session.get("a", 65535, 1), [0])
        self.assertEqual(session.number, 4)

    def test_requests_ahead(self):
        session = self.opens()
        session.new("a", 300)
        puts = [session.ahead.put("a", at, [at * at]) for at in range(300)]
        gets = [session.ahead.get("a", at, 1) for at in range(300)]
        wrong = session.ahead.get("a", 299, 2)
        last = session.ahead.used()
        self.assertEqual([answer.number for answer in (puts[0], gets[0], wrong, last)], [2, 302, 602, 603])
        self.assertEqual(last.result(), 0)
        for _ in range(2):
            self.refuses(414, 602, None, wrong.result)
        self.assertEqual([answer.result() for answer in reversed(gets)], [[at * at] for at in reversed(range(300))])
        self.assertEqual([answer.result() for answer in puts], [None] * 300)

    def test_long_replies_and_long_lines_ahead(self):
        """Neither side waits for the other for good, though no more fits between them."""
        session = self.opens()
        session.new("a", 32768)
        for half in range(2):
            cell = ["c", "a", ["+", "i", half * 16384]]
            session.run(["program", [], [["for", "i", 0, 16384, [["set", cell, MOST]]]]])
        cells, answers = [MOST] * 32768, []
        for part in range(4):
            answers.append((session.ahead.put("a", part, [part] * 20000), None))
            cells[part : part + 20000] = [part] * 20000
            answers += [(session.ahead.get("a", 0, 32768), cells.copy()) for _ in range(1 + part % 2)]
            answers.append((session.ahead.line('["list"]'.ljust(65000)), ["arrays", session.number - 1, [["a", 32768]]]))
        for answer, wanted in answers:
            # (lists as long as these are not to be compared line by line where they differ)
            self.assertTrue(answer.result() == wanted, f"the answer to request {answer.number}")

    def test_a_full_log(self):
        session = self.opens()
        self.fills(session, 4096)
        lost = [session.ahead.list() for _ in range(70)]
        for answer in lost:
            self.ends("full", answer.result)
        self.ends("full", session.list)
        self.ends("full", session.checkpoint)
        self.assertEqual((session.number, session.answered), (4097, 4096))
        session.bye()
        self.ends("full", session.list)

    def test_a_checkpoint_at_a_full_log(self):
        session = self.opens()
        self.fills(session, 4096)
        session.checkpoint()
        self.assertEqual(session.number, 4098)
        self.fills(session, 4095)
        self.ends("full", session.list)

    def fills(self, session, count):
        answers = [session.ahead.list() for _ in range(count)]
        self.assertEqual([answer.result() for answer in answers], [[]] * count)

    def test_a_session_that_was_ended(self):
        session = self.opens()
        answer = session.ahead.new("a", 3)
        session.bye()
        self.assertIsNone(answer.result())
        self.ends("bye", session.list)
        self.ends("bye", session.ahead.list().result)
        session.bye()
        self.assertEqual(session.number, 2)

    def test_a_block_that_raises(self):
        with self.assertRaises(ZeroDivisionError), self.opens() as session:
            session.new("a", 1 // 0)
        self.ends("bye", session.list)
        with self.assertRaises(KeyboardInterrupt), self.opens() as session:
            raise KeyboardInterrupt
        self.breaks(0, session.list)


class ByServer(Requests, Case):
    opens = Case.by_server


class BySolo(Requests, Case):
    opens = Case.by_solo
