"""Answers of programs that are compiled without a proof, over a stand-in for `rt try`."""
import os
import subprocess
import sys
import tempfile
import unittest
from unittest import mock

from felix_tools import program, unproved
from felix_tools.program import HOST, REPLAY, ProgramError
from felix_tools.unproved import SAID, Unproved

TESTS = os.path.dirname(os.path.abspath(__file__))
TOOLS = os.path.dirname(TESTS)
SHOP = os.path.join(TESTS, "data", "shop")
# Says what `rt try --cases FOLDER` says: of each case its words and how many lines it was given, or what stands in FAKE_TRY.
RT = """\
#!%s
import os, sys
folder = sys.argv[-1]
with open(os.environ["FAKE_TRY"] + "/calls", "a") as file:
    file.write(" ".join(sys.argv[1:-1]) + " " + os.path.basename(os.getcwd()) + "\\n")
if os.path.exists(os.environ["FAKE_TRY"] + "/fails"):
    sys.exit(open(os.environ["FAKE_TRY"] + "/fails").read())
names = sorted(name for name in os.listdir(folder) if not name.endswith(".args"))
for name in names:
    words = open(os.path.join(folder, name + ".args")).read().split()
    given = open(os.path.join(folder, name)).read().split("\\n")
    print("== %%s\\ngiven %%s %%d" %% (name, " ".join(words), len(given)))
    for line in given:
        if line.startswith('{"packet"'):
            print("path -\\nverdict deny")
for name in names:
    sys.stderr.write("case=%%s run=ended status=%%d runners=1 proved=no\\n" %% (name, int("refused" in name)))
sys.stderr.write("cases=%%d ended=%%d fault=0 differs=0 no-answer=0 proved=no\\n" %% (len(names), len(names)))
""" % sys.executable


class Tried(unittest.TestCase):
    def setUp(self):
        room = tempfile.TemporaryDirectory()
        self.addCleanup(room.cleanup)
        self.room = room.name
        path = os.path.join(self.room, "rt")
        with open(path, "w", encoding="utf-8") as file:
            file.write(RT)
        os.chmod(path, 0o755)
        self.environment = dict(os.environ, FAKE_TRY=self.room, PATH=self.room + ":" + os.environ["PATH"])
        patched = mock.patch.dict(os.environ, self.environment)
        patched.start()
        self.addCleanup(patched.stop)

    def calls(self):
        with open(os.path.join(self.room, "calls"), encoding="utf-8") as file:
            return file.read().splitlines()

    def fails(self, text):
        with open(os.path.join(self.room, "fails"), "w", encoding="utf-8") as file:
            file.write(text)

    def test_each_program_is_compiled_once_for_all_that_is_asked_ahead(self):
        asked = [(REPLAY, "n1", "a\nb\n"), (HOST, "n1", "a\n"), (REPLAY, "n2", "c\n"), (REPLAY, "n1", "a\nb\n")]
        programs = Unproved()
        programs.ahead(asked)
        self.assertEqual([programs.run(*one) for one in asked],
                         ["given --node n1 3\n", "given --node n1 2\n", "given --node n2 2\n", "given --node n1 3\n"])
        self.assertEqual(self.calls(), ["try --seconds 3600 --cases felix_main", "try --seconds 3600 --cases host_main"])
        self.assertEqual(programs.run(REPLAY, "n3", ""), "given --node n3 1\n")
        self.assertEqual(len(self.calls()), 3)

    def test_the_answer_says_first_that_nothing_is_proved(self):
        words = ["cluster.json", "calico.json", "--from", "shop/web-0", "--to", "shop/db-0", "--tcp", "5432", "--unproved"]
        how = {"cwd": SHOP, "stdout": subprocess.PIPE, "stderr": subprocess.PIPE, "universal_newlines": True}
        done = subprocess.run([sys.executable, os.path.join(TOOLS, "ask")] + words, env=self.environment, **how)
        self.assertEqual((done.stdout.split("\n")[0], done.returncode), (SAID, 1))
        self.assertIn("shop/web-0 (10.244.1.5, node worker-1) to shop/db-0 (10.244.2.7, node worker-2), TCP 5432: DENIED\n", done.stdout)
        self.assertEqual(done.stderr, "compiling felix-replay without a proof, which takes minutes\n")
        self.assertEqual(len(self.calls()), 1)

    def test_both_sets_of_a_diff_are_one_run(self):
        words = ["--before", "cluster.json", "--after", "cluster.json", "calico.json", "--from", "shop/web", "--to", "shop/db-0", "--tcp", "80"]
        how = {"cwd": SHOP, "stdout": subprocess.PIPE, "stderr": subprocess.PIPE, "universal_newlines": True}
        done = subprocess.run([sys.executable, os.path.join(TOOLS, "diff"), "--unproved"] + words, env=self.environment, **how)
        self.assertEqual((done.stdout, done.returncode), (SAID + "\n\n0 of 2 verdicts change.\n", 0))
        self.assertEqual(len(self.calls()), 1)

    def test_a_run_that_fails_is_told(self):
        self.fails("src/main.rt:1:1: error: no such name\nrun=none proved=no")
        with self.assertRaisesRegex(ProgramError, "(?s)felix-replay, compiled without a proof, didn't run to its end.*no such name"):
            Unproved().run(REPLAY, "n1", "")

    def test_a_case_that_ends_otherwise_is_none(self):
        for told in ("case=case000000 run=fault", "case=case000000 run=ended status=5", ""):
            with self.assertRaises(ProgramError):
                unproved.outputs(REPLAY, ["case000000"], "", told + "\n")
        told = "case=case000000 run=ended status=1 runners=1 proved=no\n"
        self.assertEqual(unproved.outputs(REPLAY, ["case000000"], "== case000000\nrefused 1 20\n== other\n", told), ["refused 1 20\n== other\n"])

    def test_where_it_cannot_be_compiled_it_says_so(self):
        with mock.patch.dict(os.environ, PATH="/nowhere"):
            with self.assertRaisesRegex(ProgramError, "needs `rt`"):
                Unproved()
        with mock.patch.object(unproved, "is_installed", return_value=True):
            with self.assertRaisesRegex(ProgramError, "in the repository"):
                Unproved()

    def test_each_program_has_its_crate(self):
        for one in program.PROGRAMS:
            self.assertTrue(os.path.isdir(os.path.join(program.TOP, "crates", one.crate)), one.name)


if __name__ == "__main__":
    unittest.main()
