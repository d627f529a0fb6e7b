"""What tools/refuse-memory says of runs, over stand-ins for the program and for `rt`."""
import contextlib
import io
import os
import shutil
import stat
import subprocess
import tempfile
import unittest

from felix_tools import refuse_memory
from felix_tools.program import ProgramError
from felix_tools.reading import InputError
from felix_tools.refuse_memory import Ended

WHOLE = b"one\ntwo\nthree\n"
# Asks for memory thrice, a line behind each time, and ends with 5 where it gets none.
THRICE = r"""
#include <stdio.h>
#include <stdlib.h>
#include <unistd.h>

int main(void) {
    static const char *const lines[] = {"one\n", "two\n", "three\n"};
    for (int i = 0; i < 3; i++) {
        char *kept = malloc(100);
        if (!kept)
            return 5;
        kept[0] = lines[i][0];
        if (write(1, kept, 1) < 0 || write(1, lines[i] + 1, i == 2 ? 5 : 3) < 0)
            return 4;
        free(kept);
    }
    return 0;
}
"""
RT = """#!/bin/sh
echo "$*" >> "$FAKE_RT/calls"
case "$*" in
    "try --fail-alloc 1 -- --node n1") echo "run=ended status=5 runners=1 races=unchecked proved=no" >&2; exit 5 ;;
    "try --fail-alloc 2 -- --node n1") echo one; echo "run=ended status=5 runners=1 races=unchecked proved=no" >&2; exit 5 ;;
    *) printf 'one\\ntwo\\nthree\\n'; echo "run=ended status=0 runners=1 races=unchecked proved=no" >&2 ;;
esac
"""


class Stand:
    """Stands in the place of a program: how each run ends, by the growth that is refused."""

    def __init__(self, ends, growths=None):
        self.ends = ends
        self.growths = growths

    def run(self, refused, words, path):
        return Ended(*(self.ends[refused] if refused < len(self.ends) else self.ends[0]), self.growths)


def options(*words):
    return refuse_memory.parser().parse_args(words)


def told(runner, *words):
    """Whether each run on an input ended as it should, and what is said of them."""
    asked = options("input", *words)
    said = io.StringIO()
    with contextlib.redirect_stdout(said):
        good = refuse_memory.tell("input", refuse_memory.sweep(runner, ["--node", "n1"], None, asked))
    return good, said.getvalue()


class Sweeps(unittest.TestCase):
    def test_each_run_ends_for_want_of_memory(self):
        runner = Stand([(0, WHOLE), (5, b""), (5, b""), (5, b"one\n"), (5, b"one\ntwo\n")], growths=4)
        self.assertEqual(told(runner), (True, "input: 4 growths refused in turn, 4 of them with status 5\n"
                                              "    written by then, of 3 lines: 0 (2 times), 1 (1 time), 2 (1 time)\n"))

    def test_a_prefix_need_not_be_whole_lines(self):
        good, _ = told(Stand([(0, WHOLE), (5, b"on")], growths=1))
        self.assertTrue(good)

    def test_a_run_that_does_without_is_wrong(self):
        runner = Stand([(1, WHOLE), (1, WHOLE), (5, b"one\n")], growths=2)
        self.assertEqual(told(runner), (False, "input: 2 growths refused in turn, 1 of them with status 5\n"
                                               "    written by then, of 3 lines: 1 (1 time)\n"
                                               "    WRONG: growth 1: status 1, as though nothing had been refused\n"))

    def test_what_is_wrong(self):
        for end, words in [
            ((0, b"one\n"), "status 0, and 4 of 14 bytes"),
            ((5, b"one\nthree\n"), "status 5, and behind byte 5 another output"),
            ((3, b""), "status 3, and 0 of 14 bytes"),
            ((1, WHOLE), "status 1, and 14 of 14 bytes"),
            ((-11, b"one\n"), "signal 11, and 4 of 14 bytes"),
        ]:
            good, said = told(Stand([(0, WHOLE), end], growths=1))
            self.assertFalse(good)
            self.assertIn("    WRONG: growth 1: %s\n" % words, said)

    def test_only_the_first_faults_are_shown(self):
        good, said = told(Stand([(0, WHOLE)] + [(4, b"")] * 12, growths=12))
        self.assertFalse(good)
        self.assertEqual(said.count("WRONG: growth"), 10)
        self.assertTrue(said.endswith("    WRONG: 2 more\n"))

    def test_which_growths(self):
        runner = Stand([(0, WHOLE)] + [(5, b"")] * 9, growths=9)
        for words, count in [((), 9), (("--from", "4"), 6), (("--to", "3"), 3), (("--every", "4"), 3), (("--to", "20"), 9)]:
            self.assertIn("input: %d growths refused" % count, told(runner, *words)[1])

    def test_a_program_that_fails_by_itself_is_not_tried(self):
        for status in (3, 5, 6, 70, -11):
            with self.assertRaises(ProgramError):
                told(Stand([(status, b"")], growths=1))


class Words(unittest.TestCase):
    def test_files_or_a_soak_run(self):
        here = os.path.abspath(__file__)
        for words in ([], ["--soak", "1"], ["--count", "1", here], ["--soak", "1", "--count", "2", here], ["no file"], ["--every", "0", here]):
            with self.assertRaises(InputError):
                refuse_memory.inputs_of(options(*words))
        self.assertEqual(refuse_memory.inputs_of(options(here, here)), [here, here])
        soak = options("--soak", "7", "--count", "20", "--node", "n2")
        self.assertEqual(refuse_memory.inputs_of(soak), [None])
        self.assertEqual(refuse_memory.words_of(soak), ["--node", "n2", "--soak", "7", "--count", "20"])


class InARoom(unittest.TestCase):
    def setUp(self):
        self.room = tempfile.mkdtemp()
        self.addCleanup(shutil.rmtree, self.room)

    def write(self, name, text):
        path = os.path.join(self.room, name)
        with open(path, "w", encoding="utf-8") as file:
            file.write(text)
        return path

    def set(self, name, value):
        before = os.environ.get(name)
        os.environ[name] = value
        self.addCleanup(lambda: os.environ.pop(name) if before is None else os.environ.__setitem__(name, before))

    def test_runs_by_rt_try_go_up_to_the_first_that_is_not_reached(self):
        os.mkdir(os.path.join(self.room, "bin"))
        os.chmod(self.write("bin/rt", RT), stat.S_IRWXU)
        self.set("FAKE_RT", self.room)
        self.set("PATH", os.path.join(self.room, "bin") + os.pathsep + os.environ["PATH"])
        self.assertEqual(told(refuse_memory.Checked()), (True, "input: 2 growths refused in turn, 2 of them with status 5\n"
                                                               "    written by then, of 3 lines: 0 (1 time), 1 (1 time)\n"))
        with open(os.path.join(self.room, "calls"), encoding="utf-8") as file:
            self.assertEqual(file.read().splitlines(), [
                "try -- --node n1", "try --fail-alloc 1 -- --node n1", "try --fail-alloc 2 -- --node n1", "try --fail-alloc 3 -- --node n1"])

    @unittest.skipUnless(shutil.which("cc"), "no C compiler")
    def test_the_library_refuses_one_growth(self):
        path = os.path.join(self.room, "thrice")
        subprocess.run(["cc", "-O0", "-o", path, self.write("thrice.c", THRICE)], check=True)
        runner = refuse_memory.Refusing(self.room, path)
        self.assertEqual(runner.run(0, [], None), Ended(0, WHOLE, 3))
        self.assertEqual(told(runner), (True, "input: 3 growths refused in turn, 3 of them with status 5\n"
                                              "    written by then, of 3 lines: 0 (1 time), 1 (1 time), 2 (1 time)\n"))


if __name__ == "__main__":
    unittest.main()
