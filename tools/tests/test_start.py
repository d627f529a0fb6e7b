"""Writes that fail: each tool tells them in one line, with a status of its own."""
import os
import shlex
import subprocess
import sys
import unittest

TESTS = os.path.dirname(os.path.abspath(__file__))
TOOLS = os.path.dirname(TESTS)
UNWRITTEN = 5
FULL = "/dev/full"
CASES = ("apply-change", "ask-denied", "diff-change", "found-nft", "lines-single", "picture-way")
# Answers each packet, whatever it is.
STAND_IN = os.path.join(TESTS, "always_denies")


def tools():
    """The programs of tools/."""
    paths = [os.path.join(TOOLS, name) for name in sorted(os.listdir(TOOLS))]
    return [path for path in paths if os.path.isfile(path) and os.access(path, os.X_OK)]


def run_to(words, output):
    environment = dict(os.environ, FELIX_REPLAY=STAND_IN)
    return subprocess.run([sys.executable] + words, stdin=subprocess.DEVNULL, stdout=output, stderr=subprocess.PIPE, universal_newlines=True,
                          cwd=os.path.join(TESTS, "data"), env=environment)


def closed_pipe():
    reading, writing = os.pipe()
    os.close(reading)
    return writing


class Writes(unittest.TestCase):
    def told(self, words, done):
        self.assertEqual(done.returncode, UNWRITTEN, (words, done.stderr))
        self.assertRegex(done.stderr, r"\A\S+: the answer can't be written: [^\n]+\n\Z", words)

    @unittest.skipUnless(os.path.exists(FULL), "no /dev/full here")
    def test_a_full_disk(self):
        for words in self.commands():
            with open(FULL, "wb") as output:
                self.told(words, run_to(words, output))

    def test_a_closed_pipe(self):
        for words in self.commands():
            writing = closed_pipe()
            try:
                self.told(words, run_to(words, writing))
            finally:
                os.close(writing)

    def test_no_output_at_all(self):
        done = subprocess.run(["sh", "-c", '"$0" "$1" --help >&-', sys.executable, os.path.join(TOOLS, "lines")], stderr=subprocess.PIPE,
                              universal_newlines=True)
        self.told("lines", done)

    @unittest.skipUnless(os.path.exists(FULL), "no /dev/full here")
    def test_a_report_on_a_full_disk_leaves_the_answer(self):
        words = ["bakery/assertions.txt", "bakery/cluster.json", "bakery/calico.json", "--junit", FULL]
        done = run_to([os.path.join(TOOLS, "check")] + words, subprocess.PIPE)
        self.assertEqual(done.returncode, UNWRITTEN)
        self.assertEqual(done.stderr, "tools/check: the report can't be written: /dev/full: No space left on device\n")
        self.assertRegex(done.stdout, r"\n[0-9]+ of [0-9]+ assertions hold\.\n\Z")

    def commands(self):
        """Of each tool what it always writes, and of some what they write of an input."""
        commands = [[path, "--help"] for path in tools()]
        self.assertGreater(len(commands), 12)
        for name in CASES:
            with open(os.path.join(TESTS, "cases", name, "command"), encoding="utf-8") as file:
                words = shlex.split(file.read())
            commands.append([os.path.join(TOOLS, words[0])] + words[1:])
        return commands


if __name__ == "__main__":
    unittest.main()
