"""What the launchers do before their programs are there, over a stand-in for `rt`. They share their code, so most is
tried with one of them."""
import os
import shutil
import signal
import subprocess
import tempfile
import time
import unittest

TESTS = os.path.dirname(os.path.abspath(__file__))
TOP = os.path.dirname(os.path.dirname(TESTS))
LAUNCHERS = ("felix-replay", "felix-restore", "felix-host", "felix-services")
# Those that take a node alone, each with its program.
OF_A_NODE = (("felix-restore", "restore_main"), ("felix-host", "host_main"), ("felix-services", "services_main"))
LISTED = (
    "fx_low: serde_json\nfx_kept: fx_low\nfx_beside: fx_low\n"
    "felix_main: fx_kept fx_low\nrestore_main: fx_beside\nhost_main: fx_beside\n"
    "services_main: fx_beside\n"
)
FILES = {
    "HANDLES": "Handles allowed: none.\n",
    "crates.txt": LISTED,
    "crates/fx_low/src/lib.rt": "",
    "crates/fx_low/specs/Lib.antt": "",
    "crates/fx_low/must-fail/wrong.edit": "",
    "crates/fx_low/out/rlib": "",
    "crates/fx_kept/src/lib.rt": "",
    "crates/fx_beside/src/lib.rt": "",
    "crates/felix_main/src/main.rt": "",
    "crates/felix_main/args": "--node\nn1\n",
    "crates/restore_main/src/main.rt": "",
    "crates/host_main/src/main.rt": "",
    "crates/services_main/src/main.rt": "",
}
COPIED = "HANDLES crates.txt crates/felix_main/args crates/felix_main/src/main.rt crates/fx_kept/src/lib.rt crates/fx_low/specs/Lib.antt crates/fx_low/src/lib.rt"
# What the launcher calls beside `rt`.
COMMANDS = "bash cp dirname find grep mkdir mktemp mv readlink rm sed touch"


def write(path, text):
    os.makedirs(os.path.dirname(path), exist_ok=True)
    with open(path, "w", encoding="utf-8") as file:
        file.write(text)


class Launcher(unittest.TestCase):
    def setUp(self):
        self.room = tempfile.mkdtemp()
        self.addCleanup(shutil.rmtree, self.room)
        for folder in ("bin", "fake", "temporary", "tools"):
            os.mkdir(self.path(folder))
        shutil.copy(os.path.join(TESTS, "fake_rt"), self.path("bin", "rt"))
        for file in LAUNCHERS + ("tools/launcher.bash",):
            shutil.copy(os.path.join(TOP, file), self.path(file))
        for file, text in FILES.items():
            write(self.path(file), text)
            os.utime(self.path(file), (1e9, 1e9))
        self.environment = dict(os.environ, FAKE_RT=self.path("fake"), TMPDIR=self.path("temporary"))
        self.environment["PATH"] = self.path("bin") + ":" + os.environ["PATH"]

    def path(self, *names):
        return os.path.join(self.room, *names)

    def begin(self, *words, launcher="felix-replay"):
        how = {"stdin": subprocess.DEVNULL, "stdout": subprocess.PIPE, "stderr": subprocess.PIPE}
        how.update(env=self.environment, start_new_session=True, universal_newlines=True)
        return subprocess.Popen([self.path(launcher)] + list(words), **how)

    def run_it(self, *words, launcher="felix-replay"):
        """What it writes, what it tells, and its status."""
        begun = self.begin(*words, launcher=launcher)
        written, told = begun.communicate()
        return written, told, begun.returncode

    def calls(self):
        path = self.path("fake", "calls")
        if not os.path.exists(path):
            return []
        with open(path, encoding="utf-8") as file:
            return file.read().splitlines()

    def test_the_first_run_proves_the_programs_crates_in_a_copy(self):
        written, told, status = self.run_it("--node", "n1")
        self.assertEqual((written, status), ("answered --node n1\n", 1))
        self.assertEqual(self.calls(), ["ci: " + COPIED])
        self.assertIn("from 3 crates\n", told)
        for name in ("fx_low", "fx_kept", "felix_main"):
            self.assertRegex(told, "felix-replay: %s proved, [123] of 3, 0 min\n" % name)
        self.assertEqual(len(told.splitlines()), 4)
        self.assertEqual(os.listdir(self.path("temporary")), [])

    def test_later_runs_start_at_once(self):
        self.run_it("--node", "n1")
        self.assertEqual(self.run_it("--node", "n2"), ("answered --node n2\n", "", 1))
        self.assertEqual(len(self.calls()), 1)

    def test_a_source_that_is_newer_is_proved(self):
        for source in ("crates.txt", "crates/fx_low/specs/Lib.antt", "crates/felix_main/src/main.rt"):
            self.run_it("--node", "n1")
            proved = len(self.calls())
            later = time.time() + 1
            os.utime(self.path(source), (later, later))
            self.run_it("--node", "n1")
            self.assertEqual(len(self.calls()), proved + 1, source)
            os.utime(self.path(source), (1e9, 1e9))

    def test_a_source_that_changes_meanwhile_is_proved_by_the_next_run(self):
        write(self.path("fake", "changes"), self.path("crates/fx_low/src/lib.rt"))
        self.run_it("--node", "n1")
        os.remove(self.path("fake", "changes"))
        self.run_it("--node", "n1")
        self.run_it("--node", "n1")
        self.assertEqual(len(self.calls()), 2)

    def test_what_is_not_proved_is_told_and_ends_the_run(self):
        write(self.path("fake", "fails"), "fx_low")
        written, told, status = self.run_it("--node", "n1")
        self.assertEqual((written, status), ("", 70))
        self.assertIn("== fx_low\nsrc/lib.rt:1:1: error: a goal is open\nrt: fx_low NOT PROVED\n", told)
        self.assertNotIn("fx_low proved", told)
        self.assertNotIn("logic=proved", told)
        self.assertTrue(told.endswith("rt: FAILED: fx_low\n0 passed, 1 failed\nfelix-replay: the program is not proved\n"), told)
        self.assertFalse(os.path.exists(self.path("crates/felix_main/out")))
        self.assertEqual(os.listdir(self.path("temporary")), [])

    def test_a_failed_proof_leaves_no_older_program_to_answer(self):
        self.run_it("--node", "n1")
        later = time.time() + 1
        os.utime(self.path("crates.txt"), (later, later))
        write(self.path("fake", "fails"), "fx_kept")
        self.assertEqual(self.run_it("--node", "n1")[2], 70)
        self.assertEqual(self.run_it("--node", "n1")[2], 70)

    def test_a_program_that_cannot_be_written_ends_the_run(self):
        write(self.path("crates/felix_main/out"), "no folder")
        written, told, status = self.run_it("--node", "n1")
        self.assertEqual((written, status), ("", 70))
        self.assertTrue(told.endswith("felix-replay: the program is proved, and can't be written\n"), told)

    def test_without_rt_it_ends_with_70(self):
        os.remove(self.path("bin", "rt"))
        for command in COMMANDS.split():
            os.symlink(shutil.which(command), self.path("bin", command))
        self.environment["PATH"] = self.path("bin")
        written, told, status = self.run_it("--node", "n1")
        self.assertEqual((written, status), ("", 70))
        self.assertRegex(told, "rt: not found")

    def test_wrong_words_are_refused_without_a_proof(self):
        usage = "usage: felix-replay --node NAME [--soak SEED --count N]\n"
        for words in ([], ["--node"], ["--node", "-"], ["--node", "n1", "--soak", "1"], ["--node", "n1", "--soak", "01", "--count", "1"]):
            self.assertEqual(self.run_it(*words), (usage, "", 2), words)
        self.assertEqual(self.calls(), [])

    def test_each_launcher_proves_its_own_program(self):
        for launcher, main in OF_A_NODE:
            written, told, status = self.run_it("--node", "n1", launcher=launcher)
            self.assertEqual((written, status), ("answered --node n1\n", 1))
            self.assertIn("%s: proving and building the program from 3 crates\n" % launcher, told)
            for name in ("fx_low", "fx_beside", main):
                self.assertRegex(told, "%s: %s proved, [123] of 3, 0 min\n" % (launcher, name))
        self.assertEqual(sorted(os.listdir(self.path("crates/felix_main"))), ["args", "src"])

    def test_a_launcher_is_found_through_a_link(self):
        os.mkdir(self.path("elsewhere"))
        os.symlink(self.path("felix-restore"), self.path("elsewhere", "restore"))
        self.assertEqual(self.run_it("--node", "n1", launcher="elsewhere/restore")[2], 1)

    def test_a_node_alone_is_two_words(self):
        soak = ["--node", "n1", "--soak", "1"]
        for launcher, _ in OF_A_NODE:
            usage = "usage: %s --node NAME\n" % launcher
            for words in ([], ["--node"], ["--node=n1"], ["--node", "-x"], soak, ["n1", "--node"], ["--node", "n1\n"]):
                self.assertEqual(self.run_it(*words, launcher=launcher), (usage, "", 2), words)
        self.assertEqual(self.calls(), [])

    def test_a_run_that_is_broken_off_ends_what_it_began(self):
        for how, number in ((os.killpg, signal.SIGINT), (os.killpg, signal.SIGTERM), (os.kill, signal.SIGTERM)):
            write(self.path("fake", "waits"), "")
            begun = self.begin("--node", "n1")
            proving = self.proving()
            how(begun.pid, number)
            begun.communicate(timeout=60)
            self.assertNotIn(begun.returncode, (0, 1))
            self.assertEqual(os.listdir(self.path("temporary")), [])
            self.assertFalse(is_running(proving))

    def proving(self):
        """The process of the stand-in, once it waits."""
        for _ in range(1200):
            with open(self.path("fake", "waits"), encoding="utf-8") as file:
                text = file.read()
            if text:
                return int(text)
            time.sleep(0.05)
        self.fail("rt was not called")


def is_running(process):
    """Whether the process is still there a moment later, and no mere entry that waits to be collected."""
    for _ in range(600):
        try:
            with open("/proc/%d/stat" % process) as file:
                if file.read().rpartition(")")[2].split()[0] == "Z":
                    return False
        except OSError:
            return False
        time.sleep(0.05)
    return True


if __name__ == "__main__":
    unittest.main()
