"""The reader: what it takes, and what it refuses on which line."""

import random
import unittest

from .. import callgrind, fit, lcov, page, trace
from ..fault import Fault
from ..journal import heard_throughout
from ..report import read_report
from . import samples
from .samples import END, HEAD, report


class Reading(unittest.TestCase):
    def test_an_example(self):
        _, _, read = samples.words()
        self.assertEqual([thread.name for thread in read.threads], ["main", "main"])
        self.assertEqual([thread.steps for thread in read.threads], [568, 600])
        self.assertEqual(read.threads[1].printed, ["'no total: division by zero'"] * 2)
        self.assertEqual(read.journal[-1].stops, [300, 200])

    def test_calls_with_spaces_and_cuts(self):
        long = "'" + "a" * 39
        lines = [
            "rec 1 1 CALL f 4 <built-in print> 'a b'", "rec 2 1 CALL f 4 (1, 'x y') MISSING",
            f"rec 3 1 CALL f 4 {long} {long}", 'rec 4 1 C_RAISE f 4 "it\'s" ValueError()',
        ]
        seen = [record.seen for record in report(HEAD + "\n".join(lines) + "\n" + END).threads[0].records]
        self.assertEqual([one.first for one in seen], ["<built-in print>", "(1, 'x y')", long, '"it\'s"'])
        self.assertEqual([one.second for one in seen], ["'a b'", "MISSING", long, "ValueError()"])

    def test_separators_inside_a_text_end_no_line(self):
        printed = report(HEAD + "out 'a\u2028b\x85c'\n" + END).threads[0].printed
        self.assertEqual(printed, ["'a\u2028b\x85c'"])

    def test_rows(self):
        body = HEAD + "rec 1 1 LINE f 2\nrec 2 1 LINE f 3\nrec 3 1 LINE f 2\n" + END
        report(body + "lines 1 f 2 2\nlines 1 f 3 1\ncoverage 1 f 2 3\n")
        for rows in ("lines 1 f 2 2\n", "coverage 1 f 2\n", "calls 1 f <built-in len> 1\n", "lines 1 f 2 2\nlines 1 f 2 2\n"):
            with self.assertRaises(Fault, msg=rows):
                report(body + rows)

    def test_what_is_heard_throughout(self):
        late = "journal before register_callback 1 LINE keep = None at 0\njournal script 0 set_events 1 LINE = None at 4\n"
        self.assertEqual(heard_throughout(report(late + "thread 0 f\n" + END)), set())
        self.assertEqual(heard_throughout(report(HEAD + END)), {"LINE"})
        for call, steps, heard in (("set_events 1 0", 4, set()), ("set_events 1 0", 9, {"LINE"}), ("free_tool_id 1", 4, set())):
            later = f"journal script 0 {call} = None at {steps}\nthread"
            self.assertEqual(heard_throughout(report(HEAD.replace("thread", later) + END)), heard, later)


class Refusing(unittest.TestCase):
    def refused(self, text, line, words):
        with self.assertRaises(Fault) as caught:
            report(text)
        self.assertEqual(caught.exception.line, line, str(caught.exception))
        self.assertIn(words, caught.exception.sentence)

    def test_damaged_lines(self):
        for line, words in (
            ("rec 1 1 LINE f\n", "this is no tool"), ("rec 1 1 LINES f 2\n", "is no event"), ("rec 1 6 LINE f 2\n", "this is no tool"),
            ("rec x 1 LINE f 2\n", "a step is a number"), ("rec 1 1 LINE f 2 3\n", "what LINE carries"),
            ("rec 1 1 BRANCH f 2\n", "what BRANCH carries"), ("rec 1 1 CALL f 2 <built-in len>\n", "what CALL carries"),
            ("rec 1 1 RAISE f 2 Value\n", "what RAISE carries"), ("out abc\n", "no printed text"), ("note\n", "of no known kind"),
            ("rec 9 1 LINE f 2\n", "ends after 9 steps"), ("disable 1 1 LINE f 2\n", "not recorded"), ("\n", "of no known kind"),
        ):
            self.refused(HEAD + line + END, 5, words)
        self.refused(HEAD + "rec 2 1 LINE f 2\nrec 1 1 LINE f 2\n" + END, 6, "falls")
        self.refused(HEAD + "end 9 returned (1\n", 5, "no end of a thread")
        self.refused(HEAD + "rec 1 1 LINE f 2\nout 'a'\n" + END, 6, "out of place")

    def test_damaged_journals(self):
        self.refused("journal before set_event 1 LINE = None\n" + HEAD + END, 1, "no call of a journal")
        self.refused(HEAD.replace("at 0\nthread", "at 10\nthread") + END, 3, "above the steps")
        self.refused(HEAD.replace("LINE keep = None at 0", "LINE keep = None at 3") + END, 3, "a count of steps falls")
        self.refused(HEAD.replace("at 0\nthread", "at 0 0\nthread") + END, 3, "counts 2 threads")
        self.refused(HEAD + END + "thread 1 f\n" + END, 7, "counts 1 threads")
        self.refused("thread 0 f\n" + END, 3, "began to listen")
        self.refused("", 1, "began to listen")
        self.refused("<html>\n", 1, "of no known kind")

    def test_bytes(self):
        with self.assertRaises(Fault) as caught:
            read_report("R", HEAD.encode() + b"out '\xff'\n")
        self.assertEqual(str(caught.exception), "R, line 5: it is not UTF-8")

    def test_cut_off_anywhere(self):
        """A cut behind the rows of a `report` line leaves a whole report of a plan that has fewer of them."""
        whole = samples.bytes_of("words.report")
        rows = whole.index(b"coverage 1 ")
        allowed = {len(whole), rows, whole.index(b"calls 2 ", rows)}
        for end in range(len(whole) + 1):
            if whole[end - 1 : end] != b"\n" and end % 7:
                continue
            try:
                read_report("R", whole[:end])
            except Fault as fault:
                self.assertLessEqual(fault.line, whole[:end].count(b"\n") + 1)
                self.assertNotIn(end, allowed)
            else:
                self.assertIn(end, allowed)

    def test_of_another_file(self):
        source, listing, _ = samples.grades()
        _, _, words = samples.words()
        with self.assertRaises(Fault) as caught:
            fit.check(words, source)
        self.assertEqual((caught.exception.line, caught.exception.sentence), (22, "main has no statement on line 31 of grade.py"))
        with self.assertRaises(Fault) as caught:
            fit.check(report(HEAD + END), source)
        self.assertEqual((caught.exception.line, caught.exception.sentence), (4, "grade.py has no function f"))
        blank = report(HEAD.replace("0 f", "0 main") + "rec 1 1 LINE main 9\nrec 2 1 LINE main 8\n" + END)
        with self.assertRaises(Fault) as caught:
            fit.check(blank, source)
        self.assertEqual((caught.exception.line, caught.exception.sentence), (6, "main has no statement on line 8 of grade.py"))
        for line in ("PY_START main 2", "BRANCH main 20 24", "CALL main 900 <built-in len> 1", "JUMP main 8 9", "PY_START main 1"):
            odd = report(HEAD.replace("0 f", "0 main") + f"rec 1 1 {line}\n" + END)
            with self.assertRaises(Fault, msg=line):
                fit.check(odd, source, listing)

    def test_changed_bytes_raise_nothing_else(self):
        source, listing, _ = samples.words()
        whole = samples.bytes_of("words.report")
        chance = random.Random(1)
        for _ in range(150):
            data = bytearray(whole)
            for _ in range(chance.choice((1, 1, 2, 4))):
                at = chance.randrange(len(data))
                data[at : at + chance.choice((0, 1, 1, 9))] = chance.choice((b"", b"7", b" ", b"\n", b"'", b"f", b"words", b"\xff"))
            try:
                read = read_report("R", bytes(data))
                fit.check(read, source, listing)
                for write in (lcov.write, callgrind.write, page.write):
                    write(source, listing, [read])
                trace.write([read])
            except Fault:
                continue
