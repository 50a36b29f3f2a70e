"""The command line."""

import os
import subprocess
import sys
import tempfile
import unittest

from . import samples
from .samples import FOLDER, ROOT

VIEW = os.path.join(ROOT, "scripts", "view")


def view(*words, given=b""):
    ran = subprocess.run([sys.executable, VIEW, *words], cwd=FOLDER, input=given, capture_output=True)
    return ran.returncode, ran.stdout, ran.stderr.decode()


class Command(unittest.TestCase):
    def test_standard_input_and_output(self):
        status, out, _ = view("lcov", "grade.py", given=samples.bytes_of("plans/pass.report"))
        self.assertEqual((status, out), view("lcov", "grade.py", "plans/pass.report")[:2])
        self.assertEqual(status, 0)

    def test_options_stand_anywhere(self):
        plans = ["plans/fail.report", "plans/pass.report"]
        due = view("lcov", "--dis", "grade.dis", "--tool", "1", "grade.py", *plans)
        self.assertEqual(due[0], 0)
        self.assertEqual(view("lcov", "grade.py", "--dis", "grade.dis", plans[0], "--tool", "1", plans[1]), due)
        self.assertEqual(view("lcov", "grade.py", *plans, "--tool", "1", "--dis", "grade.dis"), due)

    def test_help(self):
        for form in ([], ["lcov"], ["callgrind"], ["trace"], ["html"]):
            status, out, _ = view(*form, "--help")
            self.assertEqual(status, 0)
            self.assertIn(b"Status 0", out)

    def test_misuse(self):
        for words in ([], ["pdf"], ["lcov"], ["lcov", "grade.py", "-", "-"], ["lcov", "--tool", "6", "grade.py"], ["html", "no.py"],
                      ["trace", "no.report"], ["trace", "--dis", "grade.dis"], ["lcov", "grade.py", "plans/pass.report", "--disk", "x"], ["trace", "plans"],
                      ["trace", "words.report", "-o", "no/such/folder"]):
            status, out, error = view(*words)
            self.assertEqual((status, out), (2, b""), words)
            self.assertNotEqual(error, "")

    def test_one_sentence_for_what_is_no_report(self):
        status, out, error = view("html", "grade.py", "words.report")
        self.assertEqual((status, out), (1, b""))
        self.assertEqual(error, "view: words.report, line 22: main has no statement on line 31 of grade.py.\n")
        status, _, error = view("trace", given=samples.bytes_of("words.report")[:700])
        self.assertEqual((status, error), (1, "view: standard input, line 12: it is cut off in the middle of this line.\n"))

    def test_the_output_is_written_whole_or_not_at_all(self):
        with tempfile.TemporaryDirectory() as folder:
            out = os.path.join(folder, "out")
            self.assertEqual(view("trace", "words.report", "-o", out)[:2], (0, b""))
            with open(out, "rb") as file:
                first = file.read()
            self.assertEqual(first, samples.bytes_of("words.trace.json").replace(b"examples/views/", b""))
            self.assertEqual(view("lcov", "grade.py", "words.report", "-o", out)[0], 1)
            with open(out, "rb") as file:
                self.assertEqual(file.read(), first)
            self.assertEqual(os.listdir(folder), ["out"])

    def test_one_tool(self):
        status, out, _ = view("lcov", "--tool", "1", "words.py", "words.report")
        self.assertEqual((status, out), view("lcov", "words.py", "words.report")[:2])
        status, _, error = view("lcov", "--tool", "2", "words.py", "words.report")
        self.assertEqual(status, 1)
        self.assertIn("no LINE was recorded", error)
