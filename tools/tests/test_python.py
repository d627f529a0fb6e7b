"""What an older Python is told."""
import os
import subprocess
import sys
import unittest

TOOLS = os.path.dirname(os.path.dirname(os.path.abspath(__file__)))
# Begins as a Python of that version would.
AS_OF = "import sys; sys.version_info = (%d, %d, 9, 'final', 0); sys.path.insert(0, %r); import felix_tools; print('read')"


class Python(unittest.TestCase):
    def begun(self, *version):
        how = {"stdout": subprocess.PIPE, "stderr": subprocess.PIPE, "universal_newlines": True}
        return subprocess.run([sys.executable, "-B", "-c", AS_OF % (version + (TOOLS,))], **how)

    def test_an_older_one_is_told_in_a_line(self):
        done = self.begun(3, 7)
        self.assertEqual((done.stdout, done.stderr, done.returncode),
                         ("", "these tools need Python 3.8 or later, and this is 3.7\n", 4))

    def test_the_oldest_that_serves(self):
        self.assertEqual(self.begun(3, 8).stdout, "read\n")

    def test_each_tool_asks_before_it_reads_more(self):
        for name in sorted(os.listdir(TOOLS)):
            path = os.path.join(TOOLS, name)
            if os.path.isfile(path) and name not in ("test", "launcher.bash"):
                with open(path, encoding="utf-8") as file:
                    imports = [line for line in file.read().splitlines() if "import" in line]
                self.assertEqual(imports[0], "import sys", name)
                self.assertTrue(imports[1].startswith("from felix_tools"), name)


if __name__ == "__main__":
    unittest.main()
