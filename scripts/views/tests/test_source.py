"""FILE and its listing."""

import unittest

from ..fault import Fault
from ..listing import read_listing
from ..source import read_source
from . import samples


def source(text):
    return read_source("F", text.encode("utf-8"))


class Sources(unittest.TestCase):
    def test_statements(self):
        read = source(
            '"""a\ndef x(): pass\n"""\nA = (1,\n2)\ndef f(a): return a\n\ndef \\\ng(n):  # :\n  try:\n    "a text"\n    if n: \\\n'
            "      n = (1,\n\n        2)\n  except:\n    pass\n  else:\n    yield\n  finally: n = ':'\nB = 1\n"
        )
        self.assertEqual({name: f.statements for name, f in read.functions.items()}, {"f": [6], "g": [10, 12, 13, 16, 17, 19, 20]})
        self.assertEqual([f.line for f in read.functions.values()], [6, 8])
        self.assertEqual([f.is_generator for f in read.functions.values()], [False, True])

    def test_line_ends(self):
        read = source("\ufeffdef f():\r\n  pass\r  pass\n  '''a\r\nb'''; pass\n  pass")
        self.assertEqual(read.functions["f"].statements, [2, 3, 4, 6])
        self.assertEqual(len(read.lines), 6)

    def test_listings_have_the_same_lines(self):
        for read, listing in (samples.words()[:2], samples.grades()[:2]):
            self.assertEqual(read.executable(), list(listing.executable()))

    def test_not_utf8(self):
        with self.assertRaises(Fault) as caught:
            read_source("F", b"a = 1\r\n\r\xff")
        self.assertEqual(caught.exception.line, 3)


class Listings(unittest.TestCase):
    def test_cut_off_anywhere(self):
        read = samples.words()[0]
        whole = samples.bytes_of("words.dis")
        for end in range(len(whole)):
            with self.assertRaises(Fault, msg=str(end)):
                read_listing("L", whole[:end], read)

    def test_a_jump_out_of_its_function(self):
        damaged = samples.bytes_of("grade.dis").replace(b"POP_JUMP_IF_FALSE 18", b"POP_JUMP_IF_FALSE 98")
        with self.assertRaises(Fault) as caught:
            read_listing("L", damaged, samples.grades()[0])
        self.assertEqual(str(caught.exception), "L, line 6: grade has no offset 98")

    def test_of_another_file(self):
        with self.assertRaises(Fault) as caught:
            read_listing("L", samples.bytes_of("grade.dis"), samples.words()[0])
        self.assertEqual(str(caught.exception), "L, line 1: grade is not the next function of words.py")

    def test_where_branches_lead(self):
        code = samples.words()[1].codes["share"]
        self.assertEqual([[code.way_from(dest) for dest in dests] for _, dests in code.branches()],
                         [["to line 24", "to line 27"], ["to line 27", "to raise again"]])
