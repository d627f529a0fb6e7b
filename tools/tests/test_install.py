"""What tools/install puts under a folder."""
import os
import shutil
import subprocess
import sys
import tempfile
import unittest

from felix_tools import program
from felix_tools.version import FORMATS

TESTS = os.path.dirname(os.path.abspath(__file__))
TOOLS = os.path.dirname(TESTS)
STAND_IN = "#!/bin/sh\ncat > /dev/null\necho 'verdict deny'\n"


def write(path, text):
    with open(path, "w", encoding="utf-8") as file:
        file.write(text)
    os.chmod(path, 0o755)


def run_it(*words):
    environment = {name: value for name, value in os.environ.items() if not name.startswith("FELIX_")}
    how = {"stdout": subprocess.PIPE, "stderr": subprocess.PIPE, "universal_newlines": True}
    return subprocess.run(words, env=environment, **how)


class Install(unittest.TestCase):
    """Over a copy of the tools in a tree of its own, with stand-ins for the programs."""

    def setUp(self):
        self.room = tempfile.mkdtemp()
        self.addCleanup(shutil.rmtree, self.room)
        shutil.copytree(TOOLS, self.path("tree", "tools"), ignore=shutil.ignore_patterns("tests", "__pycache__"))
        shutil.copytree(os.path.join(program.TOP, "docs", "man"), self.path("tree", "docs", "man"))
        for name in ("CHANGELOG.md", "docs/answers.schema.json"):
            shutil.copy(os.path.join(program.TOP, name), self.path("tree", name))
        for one in program.PROGRAMS:
            os.makedirs(self.path("tree", "crates", one.crate, "out"))
        write(self.path("tree", "crates.txt"), "")

    def path(self, *names):
        return os.path.join(self.room, *names)

    def build(self, programs):
        for one in programs:
            write(self.path("tree", "crates", one.crate, "out", one.crate), STAND_IN)

    def install(self):
        return run_it(sys.executable, self.path("tree", "tools", "install"), self.path("prefix"))

    def test_nothing_is_installed_before_each_program_is_built(self):
        for built in ((), program.PROGRAMS[:-1]):
            self.build(built)
            done = self.install()
            self.assertEqual((done.returncode, os.path.exists(self.path("prefix"))), (4, False))
            self.assertIn("%s isn't built from these sources" % program.PROGRAMS[len(built)].name, done.stderr)

    def test_each_file_is_told_once_and_a_second_time_it_is_written_over(self):
        self.build(program.PROGRAMS)
        for _ in range(2):
            done = self.install()
            self.assertEqual((done.returncode, done.stderr), (0, ""))
            told = done.stdout.splitlines()[:-1]
            there = [os.path.join(at, name) for at, _, names in os.walk(self.path("prefix")) for name in names]
            self.assertEqual(sorted(told), sorted(there))

    def test_release_formats_and_pages_are_put_in_place(self):
        self.build(program.PROGRAMS)
        version = self.install().stdout.splitlines()[-1][len("version "):]
        shared = self.path("prefix", "share")
        with open(os.path.join(shared, "doc", "felix", "VERSION"), encoding="utf-8") as file:
            self.assertEqual(file.read(), "felix %s\n%s\n" % (version, FORMATS))
        beside = sorted(os.listdir(os.path.join(shared, "doc", "felix")))
        self.assertEqual(beside, ["CHANGELOG.md", "VERSION", "answers.schema.json"])
        pages = sorted(os.listdir(os.path.join(shared, "man", "man1")))
        self.assertEqual(pages, sorted(one.name + ".1" for one in program.PROGRAMS))

    def test_a_prefix_that_was_moved_works_by_itself(self):
        self.build(program.PROGRAMS)
        version = self.install().stdout.splitlines()[-1][len("version "):]
        os.rename(self.path("prefix"), self.path("moved"))
        shutil.rmtree(self.path("tree"))
        for one in program.PROGRAMS:
            self.assertEqual(run_it(self.path("moved", "bin", one.name)).stdout, "verdict deny\n")
        ask = self.path("moved", "bin", "felix-ask")
        self.assertEqual(run_it(ask, "--version").stdout, "felix-ask %s\n%s\n" % (version, FORMATS))
        cluster = os.path.join(TESTS, "data", "shop", "cluster.json")
        asked = ["--from", "shop/web-0", "--to", "shop/db-0", "--tcp", "5432"]
        self.assertIn("DENIED", run_it(ask, cluster, *asked).stdout)
        plugin = run_it(self.path("moved", "bin", "kubectl-felix"), "--version")
        self.assertEqual((plugin.stdout, plugin.stderr), ("kubectl felix %s\n%s\n" % (version, FORMATS), ""))
        self.assertIn("\n  felix-found --printed", run_it(self.path("moved", "bin", "felix-found"), "--help").stdout)


if __name__ == "__main__":
    unittest.main()
