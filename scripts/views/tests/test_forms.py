"""The four forms."""

import json
import re
import unittest

from .. import callgrind, lcov, page, trace
from ..fault import Fault
from ..source import read_source
from . import samples
from .samples import END, HEAD, frames, report

LOOP = read_source("loop.py", samples.LOOP.encode())


def coverage(body):
    return lcov.write(LOOP, None, [report(HEAD + body + END)])


class Lcov(unittest.TestCase):
    def test_lines(self):
        self.assertIn("DA:2,2\nDA:3,0\nDA:4,1\nDA:7,0\nLF:4\nLH:2\n", coverage("rec 1 1 LINE f 2\nrec 2 1 LINE f 2\nrec 3 1 LINE f 4\n"))

    def test_several_tools_count_an_event_once(self):
        self.assertIn("DA:2,1\n", coverage("rec 1 0 LINE f 2\nrec 1 1 LINE f 2\n"))

    def test_once_counts_one(self):
        off = "disable 1 1 LINE f 2\ndisable 3 1 LINE f 6\n"
        self.assertIn("DA:2,1\n", coverage("rec 1 1 LINE f 2\nrec 3 1 LINE f 2\n" + off))
        self.assertIn("DA:2,2\n", coverage("rec 1 0 LINE f 2\nrec 1 1 LINE f 2\nrec 3 0 LINE f 2\nrec 3 1 LINE f 2\n" + off))

    def test_functions(self):
        self.assertNotIn("FN", coverage("rec 1 1 LINE f 2\n"))
        text = coverage("rec 0 1 PY_START f 0\nrec 1 1 LINE f 2\n")
        self.assertIn("FN:1,f\nFN:6,g\nFNDA:1,f\nFNDA:0,g\nFNF:2\nFNH:1\n", text)

    def test_branches(self):
        source, listing, reports = samples.grades()
        text = lcov.write(source, listing, reports)
        self.assertIn("BRDA:2,8,0,1\nBRDA:2,8,1,2\nBRDA:4,24,0,1\nBRDA:4,24,1,1\nBRDA:11,20,0,1\nBRDA:11,20,1,0\nBRF:6\nBRH:5\n", text)
        self.assertIn("BRDA:11,20,0,-\nBRDA:11,20,1,-\n", lcov.write(source, listing, reports[:1]))
        self.assertNotIn("BRDA", lcov.write(source, None, reports))

    def test_a_branch_known_by_once_alone_tells_nothing_of_its_other_side(self):
        source, listing, _ = samples.grades()
        body = "rec 1 1 LINE main 9\nrec 3 1 BRANCH grade 8 18\ndisable 3 1 BRANCH grade 8\n"
        text = lcov.write(source, listing, [report(HEAD.replace("0 f", "0 main") + body + END)])
        self.assertNotIn("BRDA:2,", text)
        self.assertIn("BRDA:4,24,0,-\n", text)

    def test_a_sum_is_the_sum_of_each(self):
        source, listing, reports = samples.grades()
        whole = re.findall(r"DA:(\d+),(\d+)$", lcov.write(source, listing, reports), re.M)
        parts = [dict(re.findall(r"DA:(\d+),(\d+)$", lcov.write(source, listing, [one]), re.M)) for one in reports]
        self.assertEqual(whole, [(line, str(sum(int(part[line]) for part in parts))) for line, _ in whole])

    def test_without_lines(self):
        with self.assertRaises(Fault):
            coverage("")


class Callgrind(unittest.TestCase):
    def costs(self, body, generators=frozenset(), **more):
        read = frames(body, **more)
        costs = callgrind.Costs(LOOP, None)
        costs.add(read, read.threads[0], generators)
        return {tuple(site): count for site, count in costs.own.items()}, {(*site, to): n for (site, to), n in costs.calls.items()}

    def test_calls_and_lines(self):
        own, calls = self.costs(
            "rec 0 2 PY_START f 0\nrec 1 2 LINE f 2\nrec 3 2 LINE f 3\nrec 5 2 CALL f 10 <function g> 1\nrec 6 2 PY_START g 0\n"
            "rec 7 2 LINE g 7\nrec 10 2 PY_RETURN g 8 0\nrec 12 2 CALL f 14 <built-in len> 'a'\nrec 19 2 PY_RETURN f 20 0\n"
        )
        self.assertEqual(own, {("f", 1): 1, ("f", 2): 2, ("f", 3): 12, ("g", 6): 1, ("g", 7): 4})
        self.assertEqual(calls, {("f", 3, "g"): [1, 5], ("f", 3, "<built-in len>"): [1, 0]})

    def test_an_exception_leaves_frames(self):
        own, calls = self.costs(
            "rec 0 2 PY_START f 0\nrec 6 2 PY_START g 0\nrec 8 2 RAISE g 6 ValueError()\nrec 9 2 PY_UNWIND g 6 ValueError()\n"
            "rec 9 2 RAISE f 10 ValueError()\nrec 10 2 PY_UNWIND f 10 ValueError()\n", steps=11, ending="raised ValueError()"
        )
        self.assertEqual(own, {("f", 1): 7, ("g", 6): 4})
        self.assertEqual(calls, {("f", 1, "g"): [1, 4]})

    def test_a_generator_is_made_started_and_thrown_into(self):
        own, calls = self.costs(
            "rec 0 2 PY_START f 0\nrec 4 2 CALL f 6 <function g> 1\nrec 8 2 CALL f 14 <built-in next> <generator 0>\n"
            "rec 10 2 PY_START g 4\nrec 11 2 LINE g 7\nrec 12 2 PY_YIELD g 8 1\nrec 16 2 CALL f 22 <built-in throw> <generator 0>\n"
            "rec 16 2 PY_THROW g 10 ValueError()\nrec 16 2 RAISE g 10 ValueError()\nrec 17 2 PY_UNWIND g 10 ValueError()\n"
            "rec 18 2 RAISE f 22 ValueError()\nrec 19 2 PY_UNWIND f 22 ValueError()\n", {"g"}, ending="raised ValueError()"
        )
        self.assertEqual(own, {("f", 1): 14, ("g", 6): 3, ("g", 7): 3})
        self.assertEqual(calls[("f", 1, "g")], [3, 6])

    def test_a_failed_call_makes_no_generator(self):
        own, _ = self.costs(
            "rec 0 2 PY_START f 0\nrec 4 2 CALL f 6 <function g> 1\nrec 4 2 RAISE f 6 TypeError()\nrec 5 2 PY_UNWIND f 6 TypeError()\n",
            {"g"}, steps=6, ending="raised TypeError()"
        )
        self.assertEqual(own, {("f", 1): 6})

    def test_generators_are_entered_and_left(self):
        source, listing, read = samples.words()
        text = callgrind.write(source, listing, [read])
        entries = sum(r.seen.event in ("PY_START", "PY_RESUME") and r.seen.code == "words" and r.seen.tool == 2
                      for thread in read.threads for r in thread.records)
        made = sum(r.seen.event == "CALL" and r.seen.first == "<function words>" for thread in read.threads for r in thread.records)
        self.assertIn(f"calls={entries + made} 3\n", text)

    def test_the_sum_is_the_number_of_steps(self):
        source, listing, read = samples.words()
        text = callgrind.write(source, listing, [read])
        own = re.sub(r"calls=.*\n.*\n", "", text)
        self.assertEqual(sum(map(int, re.findall(r"^\d+ (\d+)$", own, re.M))), 568 + 600)
        self.assertIn("summary: 1168\n", text)

    def test_missing_events(self):
        read = frames("rec 0 2 PY_START f 0\n", kept=("PY_START", "LINE"))
        with self.assertRaises(Fault) as caught:
            callgrind.write(LOOP, None, [read])
        self.assertEqual(caught.exception.sentence, "no tool keeps PY_RETURN, PY_UNWIND in all code from the first step to the last")

    def test_frames_that_cannot_be(self):
        for body, line in (
            ("rec 0 2 PY_START f 0\nrec 3 2 PY_RETURN g 4 0\nrec 19 2 PY_RETURN f 4 0\n", 10),
            ("rec 0 2 PY_START f 0\nrec 3 2 PY_RETURN f 4 0\nrec 4 2 LINE f 2\n", 11), ("rec 0 2 PY_START f 0\n", 10),
            ("rec 0 2 PY_START f 0\nrec 3 2 PY_RETURN f 4 0\n", 11),
        ):
            with self.assertRaises(Fault) as caught:
                callgrind.write(LOOP, None, [frames(body)])
            self.assertEqual(caught.exception.line, line, str(caught.exception))


class Trace(unittest.TestCase):
    def events(self, *reports):
        return json.loads(trace.write(list(reports)))["traceEvents"]

    def test_slices_instants_and_the_journal(self):
        body = "rec 0 2 PY_START f 0\nrec 6 2 PY_START g 0\nrec 8 2 RAISE g 6 ValueError()\nrec 9 2 PY_UNWIND g 6 ValueError()\n"
        found = self.events(frames(body, steps=14, ending="limit"))
        self.assertEqual([(e["name"], e["ts"], e["dur"], e["tid"]) for e in found if e["ph"] == "X"], [("f", 0, 14, 1), ("g", 6, 4, 1)])
        self.assertEqual([(e["name"], e["ts"]) for e in found if e["ph"] == "i" and e["tid"] == 1], [("RAISE", 8)])
        self.assertEqual(found[-4]["name"], "set_events 2 PY_START|PY_RETURN|PY_UNWIND|CALL|RAISE|LINE")

    def test_frames_that_are_not_known(self):
        found = self.events(report(HEAD + "rec 1 1 LINE f 2\n" + END))
        self.assertEqual([(e["name"], e["dur"]) for e in found if e["ph"] == "X"], [("f", 9)])

    def test_generators(self):
        found = self.events(samples.words()[2])
        names = {e["name"] for e in found if e["ph"] == "X"}
        self.assertEqual(names, {"main", "share", "count", "words"})
        self.assertIn({"left": "PY_YIELD 'cat'"}, [e["args"] for e in found if e["ph"] == "X"])

    def test_reports_side_by_side(self):
        found = self.events(*samples.grades()[2])
        self.assertEqual({e["pid"] for e in found}, {1, 2, 3})


class Page(unittest.TestCase):
    def test_states(self):
        source, listing, reports = samples.grades()
        text = page.write(source, listing, reports[:1])
        states = dict(re.findall(r'<tr id="L(\d+)" class="(\w+)"', text))
        self.assertEqual(states, {"1": "none", "2": "half", "3": "missed", "4": "half", "5": "hit", "6": "missed", "7": "none",
                                  "8": "none", "9": "hit", "10": "hit", "11": "missed", "12": "missed"})
        self.assertIn("5 of 9 lines reached, 2 of 6 sides of branches taken", text)
        self.assertIn("branch at 8: to line 3 never, to line 4 ×1", text)

    def test_text_is_quoted_and_nothing_comes_from_outside(self):
        source = read_source("<b>.py", b'def f(n):\n    return "</script><b>&"\n')
        text = page.write(source, None, [report(HEAD + "rec 1 1 LINE f 2\n" + END)])
        self.assertIn("&lt;/script&gt;&lt;b&gt;&amp;", text)
        self.assertEqual(text.count("</script>"), 2)
        self.assertIsNone(re.search(r"(?:src|href)=\"(?!#)|url\(|@import|https?:", text))

    def test_choices(self):
        source, listing, reports = samples.grades()
        data = json.loads(re.search(r'id="data">(.*)</script>', page.write(source, listing, reports)).group(1))
        self.assertEqual(data["views"]["all|all"][0]["2"], 3)
        self.assertEqual(data["views"]["1|1.0"][0], {"2": 1, "4": 1, "6": 1, "9": 1, "10": 1})
        self.assertEqual(data["views"]["all|0"][1], [[0, 1], [1, 0], None])

    def test_what_was_not_listened_to(self):
        late = "journal before register_callback 1 LINE keep = None at 0\njournal script 0 set_events 1 LINE = None at 4\nthread 0 f\n"
        body = "rec 5 1 LINE f 4\n" + END
        self.assertIn('class="warning"', page.write(LOOP, None, [report(late + body)]))
        self.assertNotIn('class="warning"', page.write(LOOP, None, [report(HEAD + body)]))
