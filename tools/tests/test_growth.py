"""The picture of tools/growth, and its measuring, over stand-ins for the programs."""
import collections
import contextlib
import io
import os
import re
import shutil
import stat
import tempfile
import unittest
from xml.etree import ElementTree

from felix_tools import growth, program
from felix_tools.alone import Ended
from felix_tools.growth import Point
from felix_tools.program import ProgramError
from felix_tools.reading import InputError

SVG = "{http://www.w3.org/2000/svg}"
HEAD = "\t".join(growth.COLUMNS) + "\n"
SMALL = HEAD + """\
endpoints\t100\t5\t20\tfelix-replay\t0.1\t0.2\t10\t9
endpoints\t1000\t5\t20\tfelix-replay\t0.1\t0.2\t20.5\t9
endpoints\t10000\t5\t20\tfelix-replay\t0.1\t0.2\t1000\t9
endpoints\t100\t5\t20\tplain\t0.1\t0.2\t1\t9
endpoints\t10000\t5\t20\tplain\t0.1\t0.2\t1.5\t9
policies\t2000\t10\t20\tfelix-replay\t0.1\t0.2\t100\t9
policies\t2000\t30\t20\tfelix-replay\t0.1\t0.2\t100\t9
policies\t2000\t10\t20\tplain\t0.1\t0.2\t10\t9
policies\t2000\t30\t20\tplain\t0.1\t0.2\t10\t9
"""
# Notes its words and how many flushes it read.
STAND_IN = """\
#!/bin/sh
flushes=$(grep -c '^{"flush":{}}$')
echo "$1 $2 $flushes" >> "$0.calls"
exit ${ENDS:-0}
"""


def drawn(text):
    return growth.picture(growth.read_table(text, "a table"))


def of_kind(picture, kind):
    return [element for panel in ElementTree.fromstring(picture).findall(SVG + "g") for element in panel.findall(SVG + kind)]


class Picture(unittest.TestCase):
    def test_the_stored_picture_is_of_the_stored_table(self):
        stored = [os.path.join(program.TOP, "docs", "growth." + ending) for ending in ("tsv", "svg")]
        table, picture = (open_text(path) for path in stored)
        self.assertEqual(drawn(table), picture)

    def test_places(self):
        circles = [(float(it.get("cx")), float(it.get("cy"))) for it in of_kind(drawn(SMALL), "circle")]
        # Three decades up in 250, two across in 320 and one in 320.
        across = [80, 240, 400, 480, 480 + 320 * 0.4771]
        up = [330 - 250 / 3, 330 - 250 / 3 * 1.3118, 80, 330 - 250 / 3 * 2, 330 - 250 / 3 * 2]
        self.assertEqual(len(circles), 5)
        for found, wanted in zip(circles, zip(across, up)):
            self.assertAlmostEqual(found[0], wanted[0], delta=0.1)
            self.assertAlmostEqual(found[1], wanted[1], delta=0.1)

    def test_words_and_numbers(self):
        words = [element.text for element in of_kind(drawn(SMALL), "text")]
        for wanted in ("one change, among 5 policies", "one change, among 2,000 endpoints of other nodes", "endpoints of other nodes",
                       "policies", "microseconds of a processor", "100", "1,000", "10,000", "20", "1.5"):
            self.assertIn(wanted, words)

    def test_lines_differ_without_colour(self):
        lines = [element for element in of_kind(drawn(SMALL), "line") if element.get("stroke") == "black"]
        self.assertEqual([element.get("stroke-dasharray") for element in lines], [None, None, "6 4", None, "6 4"])
        self.assertEqual(set(re.findall(r'(?:stroke|fill)="(.*?)"', drawn(SMALL))), {"black", "white", "none", "#bbbbbb"})

    def test_nothing_is_run_or_fetched(self):
        names = collections.Counter(element.tag[len(SVG):] for element in ElementTree.fromstring(drawn(SMALL)).iter())
        self.assertEqual(set(names), {"svg", "title", "rect", "line", "circle", "text", "g"})
        self.assertEqual(re.findall(r'font-family="(.*?)"', drawn(SMALL)), ["sans-serif"])
        self.assertNotIn("href", drawn(SMALL))

    def test_tables_that_are_none(self):
        row = SMALL.split("\n")[1]
        for text in ("", "by\tendpoints\n", HEAD, HEAD + row, SMALL + "\n", SMALL + row[:-2] + "\n", SMALL.replace("plain", "other"),
                     SMALL.replace("\t1.5\t", "\t0\t"), SMALL.replace("\t1.5\t", "\t-1\t"), SMALL.replace("\t1.5\t", "\tnan\t"),
                     SMALL.replace("\t1.5\t", "\tinf\t"), SMALL.replace("\t1.5\t", "\tx\t"), SMALL.replace("\t1000\t5", "\t1000\t6", 1),
                     SMALL.replace("\t1000\t", "\t0\t", 1), SMALL.replace("\t1000\t", "\t1e3\t", 1)):
            with self.assertRaises(InputError, msg=text):
                growth.read_table(text, "a table")


def open_text(path):
    with open(path, encoding="utf-8") as file:
        return file.read()


class Measuring(unittest.TestCase):
    def setUp(self):
        self.room = tempfile.mkdtemp()
        self.addCleanup(shutil.rmtree, self.room)
        self.paths = [os.path.join(self.room, name) for name in ("this", "other")]
        for path in self.paths:
            with open(path, "w", encoding="utf-8") as file:
                file.write(STAND_IN)
            os.chmod(path, stat.S_IRWXU)

    def measured(self, points, rounds=2):
        """The table, without its times and its memory."""
        written = io.StringIO()
        with contextlib.redirect_stdout(written), contextlib.redirect_stderr(io.StringIO()):
            growth.print_table(growth.measure(self.paths, points, rounds))
        return written.getvalue()

    def test_a_table(self):
        table = self.measured([Point("endpoints", 3, 2, 250), Point("policies", 3, 2, 250)])
        rows = [line.split("\t") for line in table.split("\n")[:-1]]
        self.assertEqual(rows[0], list(growth.COLUMNS))
        wanted = [[by, "3", "2", "250", which] for by in ("endpoints", "policies") for which in ("felix-replay", "plain")]
        self.assertEqual([row[:5] for row in rows[1:]], wanted)
        for row in rows[1:]:
            without, seconds, cost, memory = map(float, row[5:])
            self.assertAlmostEqual(cost, 1e6 * (seconds - without) / 250, delta=10)
            self.assertGreater(memory, 0)

    def test_each_program_is_run_without_and_with_the_changes(self):
        self.measured([Point("endpoints", 3, 2, 250)])
        for path in self.paths:
            # A flush at the start, one at the end, and one for each hundred changes.
            self.assertEqual(open_text(path + ".calls"), "--node n1 2\n--node n1 4\n" * 2)

    def test_the_least_time_counts_and_the_most_memory(self):
        runs = iter([(3.0, 10), (0.3, 5), (7.0, 20), (0.9, 7), (2.0, 11), (0.4, 6), (8.0, 30), (0.8, 5)])
        self.addCleanup(setattr, growth, "run_one", growth.run_one)
        growth.run_one = lambda path, file: Ended(0, *next(runs))
        with contextlib.redirect_stderr(io.StringIO()):
            rows = list(growth.measure(self.paths, [Point("endpoints", 3, 2, 100)], 2))
        self.assertEqual([tuple(row)[1:] for row in rows], [("felix-replay", 2.0, 7.0, 30), ("plain", 0.3, 0.8, 7)])
        self.assertEqual([round(growth.microseconds(row)) for row in rows], [50000, 5000])

    def test_a_program_that_fails_is_not_measured(self):
        os.environ["ENDS"] = "3"
        self.addCleanup(os.environ.pop, "ENDS")
        with self.assertRaises(ProgramError):
            self.measured([Point("endpoints", 3, 2, 5)])

    def test_a_program_that_is_not_there(self):
        self.paths[1] += "-gone"
        with self.assertRaises(ProgramError):
            self.measured([Point("endpoints", 3, 2, 5)])


class Words(unittest.TestCase):
    def test_a_table_or_two_programs(self):
        for words in ([], ["table", "--measure", "a", "b"], ["--measure", "a", "b", "--rounds", "0"]):
            with self.assertRaises(InputError):
                growth.draw_or_measure(growth.parser().parse_args(words))


if __name__ == "__main__":
    unittest.main()
