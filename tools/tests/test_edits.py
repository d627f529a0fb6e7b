"""That each wrong edit applies to the code as it is, and how `.ci/nightly` tries them, over a stand-in for `rt`."""
import os
import re
import shutil
import signal
import subprocess
import tempfile
import time
import unittest

TESTS = os.path.dirname(os.path.abspath(__file__))
TOP = os.path.dirname(os.path.dirname(TESTS))
PLACES = {"gate": "crates/%s/must-fail", "nightly": "edits/%s"}
# Each edit of the gate costs it a check.
MOST_IN_THE_GATE = 10

RIGHT = "file: src/lib.rt\nold: let a = 1;\nnew: let a = 2;\n"
CODE = "let a = 1;\nlet b = 1;\n"
# Edits of CODE, each with what is said of it.
BROKEN = (
    ("", "no pair"),
    ("file: src/lib.rt\n", "no pair"),
    ("file: src/gone.rt\nold: let a = 1;\nnew: let a = 2;\n", "no file src/gone.rt"),
    ("file: specs/Lib.antt\nold: let a = 1;\nnew: let a = 2;\n", "no file of src/: specs/Lib.antt"),
    ("file: src/../src/lib.rt\nold: let a = 1;\nnew: let a = 2;\n", "no file of src/: src/../src/lib.rt"),
    ("file: src/lib.rt\nold: let c = 1;\nnew: let c = 2;\n", "stands 0 times: let c = 1;"),
    ("file: src/lib.rt\nold: = 1;\nnew: = 2;\n", "stands 2 times: = 1;"),
    ("file: src/lib.rt\nold: let a = 1;\nnew: let a = 1;\n", "changes nothing: let a = 1;"),
    (RIGHT + "old: let a = 2;\nnew: let a = 1;\n", "changes nothing"),
    (RIGHT + "old: let a = 1;\nnew: let a = 3;\n", "stands 0 times: let a = 1;"),
    ("old: let a = 1;\nnew: let a = 2;\n", "out of place: old: let a = 1;"),
    ("file: src/lib.rt\nnew: let a = 2;\n", "out of place: new: let a = 2;"),
    ("file: src/lib.rt\nold: let a = 1;\nold: let b = 1;\nnew: let a = 2;\n", "out of place: old: let b = 1;"),
    ("file: src/lib.rt\nold: let a = 1;\nfile: src/lib.rt\nnew: let a = 2;\n", "out of place: file: src/lib.rt"),
    ("file: src/lib.rt\nold: let a = 1;\nlet b = 1;\nnew: let a = 2;\n", "out of place: let b = 1;"),
    ("file: src/lib.rt\nold: \nnew: let a = 2;\n", "out of place: old: "),
    ("file:src/lib.rt\nold: let a = 1;\nnew: let a = 2;\n", "out of place: file:src/lib.rt"),
    ("file: src/lib.rt\nold: let a = 1;\n", "an old text without a new one"),
    (RIGHT[:-1], "no newline at its end"),
)
# Edits that are right, of CODE.
WELL = (
    RIGHT,
    "file: src/lib.rt\nold: let a = 1;\nnew:\n",
    RIGHT + "old: let a = 2;\nnew: let a = 3;\n",
    RIGHT + "file: src/lib.rt\nold: let b = 1;\nnew: let b = 2;\n",
)


def text_of(*path):
    with open(os.path.join(*path), encoding="utf-8") as file:
        return file.read()


def write(path, text):
    os.makedirs(os.path.dirname(path), exist_ok=True)
    with open(path, "w", encoding="utf-8") as file:
        file.write(text)


class Wrong(Exception):
    """What is wrong with an edit."""


def pairs(text):
    """The edit's pairs, each as its file, the old text and the new one."""
    file = old = None
    for line in text.split("\n")[:-1]:
        word, rest = re.fullmatch(r"((?:file|old|new):|) ?(.*)", line).groups()
        if word == "file:" and old is None and line.startswith("file: "):
            file = rest
        elif word == "old:" and file and old is None and line.startswith("old: ") and rest:
            old = rest
        elif word == "new:" and old is not None:
            yield file, old, rest
            old = None
        else:
            raise Wrong("a line out of place: %s" % line)
    if old is not None:
        raise Wrong("an old text without a new one")


def code_of(folder, file):
    if not file.startswith("src/") or os.path.normpath(file) != file:
        raise Wrong("no file of src/: %s" % file)
    if not os.path.isfile(os.path.join(folder, file)):
        raise Wrong("no file %s" % file)
    return text_of(folder, file)


def apply(folder, text):
    """Makes the edit on the code of the crate in this folder."""
    if text and not text.endswith("\n"):
        raise Wrong("no newline at its end")
    was, now = {}, {}
    for file, old, new in pairs(text):
        if file not in now:
            was[file] = now[file] = code_of(folder, file)
        if now[file].count(old) != 1:
            raise Wrong("an old text that stands %d times: %s" % (now[file].count(old), old))
        if old == new:
            raise Wrong("a pair changes nothing: %s" % old)
        now[file] = now[file].replace(old, new)
    if not now:
        raise Wrong("no pair")
    if was == now:
        raise Wrong("it changes nothing")


def fault_of(folder, text):
    try:
        apply(folder, text)
    except Wrong as wrong:
        return str(wrong)
    return None


def folders(top):
    """Each folder of edits, with its crate."""
    for crate in sorted(os.listdir(os.path.join(top, "crates"))):
        if os.path.isdir(os.path.join(top, PLACES["gate"] % crate)):
            yield crate, PLACES["gate"] % crate
    beside = os.path.join(top, "edits")
    for crate in sorted(os.listdir(beside)) if os.path.isdir(beside) else []:
        yield crate, PLACES["nightly"] % crate


def faults(top):
    """What is wrong with the edits of a repository."""
    crates = set(re.findall(r"^(\w+)", text_of(top, "crates.txt"), re.MULTILINE))
    seen = {}
    for crate, folder in folders(top):
        names = sorted(os.listdir(os.path.join(top, folder)))
        if crate not in crates:
            yield "%s: no crate" % folder
        if folder.startswith("crates/") and len(names) > MOST_IN_THE_GATE:
            yield "%s: more than %d" % (folder, MOST_IN_THE_GATE)
        for name in names:
            yield from faults_of_file(top, crate, "%s/%s" % (folder, name), seen)


def faults_of_file(top, crate, path, seen):
    name = os.path.basename(path)
    if not re.fullmatch(r"[a-z0-9][a-z0-9_-]*\.edit", name):
        yield "%s: no name of an edit" % path
        return
    text = text_of(top, path)
    for what in ((crate, name), (crate, text)):
        if what in seen:
            yield "%s: the same as %s" % (path, seen[what])
        seen[what] = path
    fault = fault_of(os.path.join(top, "crates", crate), text)
    if fault:
        yield "%s: %s" % (path, fault)


def repository(room, files):
    for path, text in files.items():
        write(os.path.join(room, path), text)


class Edits(unittest.TestCase):
    def setUp(self):
        self.room = tempfile.mkdtemp()
        self.addCleanup(shutil.rmtree, self.room)

    def faults_with(self, files):
        of_all = {"crates/%s/src/lib.rt" % crate: CODE for crate in ("fx_low", "fx_high")}
        of_all["crates.txt"] = "fx_low:\nfx_high: fx_low\n"
        repository(self.room, dict(of_all, **files))
        return list(faults(self.room))

    def test_each_edit_applies(self):
        self.assertEqual(list(faults(TOP)), [])
        for place in PLACES.values():
            self.assertTrue(any(folder == place % crate for crate, folder in folders(TOP)), place)

    def test_edits_that_are_right(self):
        repository(self.room, {"src/lib.rt": CODE})
        for text in WELL:
            self.assertIsNone(fault_of(self.room, text), text)

    def test_broken_edits_are_told(self):
        repository(self.room, {"src/lib.rt": CODE, "specs/Lib.antt": CODE})
        for text, told in BROKEN:
            self.assertIn(told, fault_of(self.room, text) or "nothing", text)

    def test_edits_of_one_name_or_text_are_told(self):
        gate, nightly = "crates/fx_low/must-fail/%s.edit", "edits/fx_low/%s.edit"
        other = RIGHT.replace("2", "3")
        files = {gate % "a": RIGHT, nightly % "a": other, nightly % "b": RIGHT, "edits/fx_high/a.edit": RIGHT}
        self.assertEqual(self.faults_with(files), [
            "%s: the same as %s" % (nightly % "a", gate % "a"),
            "%s: the same as %s" % (nightly % "b", gate % "a"),
        ])

    def test_other_files_and_folders_are_told(self):
        files = {"edits/fx_gone/a.edit": RIGHT, "edits/fx_low/A note.md": "", "crates/fx_high/must-fail/a.txt": RIGHT}
        self.assertEqual(self.faults_with(files), [
            "crates/fx_high/must-fail/a.txt: no name of an edit",
            "edits/fx_gone: no crate",
            "edits/fx_gone/a.edit: no file src/lib.rt",
            "edits/fx_low/A note.md: no name of an edit",
        ])

    def test_too_many_in_the_gate_are_told(self):
        many = {"a%d.edit" % i: RIGHT.replace("2", str(i + 2)) for i in range(MOST_IN_THE_GATE + 1)}
        self.assertEqual(self.faults_with({"edits/fx_low/" + name: text for name, text in many.items()}), [])
        files = {"crates/fx_high/must-fail/" + name: text for name, text in many.items()}
        self.assertEqual(self.faults_with(files), ["crates/fx_high/must-fail: more than 10"])

    def test_edits_that_the_documents_name_stand_where_they_say(self):
        behind = text_of(TOP, "docs", "PROVED.md").partition("\n## Edits that must be refused\n")[2]
        section = behind.partition("\n## ")[0]
        rows = re.findall(r"^\| .* \| `(\w+)/([\w-]+)` \| (\w+) \|$", section, re.MULTILINE)
        self.assertGreater(len(rows), 40)
        paths = ["%s/%s.edit" % (PLACES[place] % crate, name) for crate, name, place in rows]
        self.assertEqual([path for path in paths if not os.path.isfile(os.path.join(TOP, path))], [])


FILES = {
    "HANDLES": "Handles allowed: none.\n",
    "crates.txt": "fx_low:\nfx_high: fx_low\nfx_beside: fx_low\n",
    "crates/fx_low/src/lib.rt": CODE,
    "crates/fx_low/must-fail/low.edit": RIGHT,
    "crates/fx_high/src/lib.rt": CODE,
    "crates/fx_high/must-fail/high.edit": RIGHT,
    "crates/fx_beside/src/lib.rt": CODE,
    "edits/fx_low/lower.edit": RIGHT.replace("2", "3"),
    "edits/fx_beside/beside.edit": RIGHT,
}
REFUSED = "rt: must-fail %s.edit: refused, as it must be: src/lib.rt:1:1: error: a goal is open\n"


class Nightly(unittest.TestCase):
    def setUp(self):
        self.room = tempfile.mkdtemp()
        self.addCleanup(shutil.rmtree, self.room)
        repository(self.path("felix"), FILES)
        for folder in ("bin", "fake", "temporary", "felix/.ci"):
            os.mkdir(self.path(folder))
        shutil.copy(os.path.join(TESTS, "fake_rt"), self.path("bin", "rt"))
        shutil.copy(os.path.join(TOP, ".ci", "nightly"), self.path("felix", ".ci", "nightly"))
        self.environment = dict(os.environ, FAKE_RT=self.path("fake"), TMPDIR=self.path("temporary"))
        self.environment["PATH"] = self.path("bin") + ":" + os.environ["PATH"]
        self.commit()

    def path(self, *names):
        return os.path.join(self.room, *names)

    def commit(self):
        git = ["git", "-C", self.path("felix"), "-c", "user.name=a", "-c", "user.email=a@b"]
        for words in (["init", "-q"], ["add", "-A"], ["commit", "-q", "-m", "a"]):
            subprocess.run(git + words, check=True)

    def begin(self, *words):
        how = {"stdin": subprocess.DEVNULL, "stdout": subprocess.PIPE, "stderr": subprocess.PIPE}
        how.update(env=self.environment, start_new_session=True, universal_newlines=True)
        return subprocess.Popen([self.path("felix", ".ci", "nightly")] + list(words), **how)

    def run_it(self, *words):
        """What it writes, what it tells, and its status. Nothing is left behind."""
        begun = self.begin(*words)
        written, told = begun.communicate()
        self.assertEqual(os.listdir(self.path("temporary")), [])
        return written, told, begun.returncode

    def calls(self):
        """The words of each call, and the edits that it found."""
        path = self.path("fake", "calls")
        lines = text_of(path).splitlines() if os.path.exists(path) else []
        for words, _, files in (line.partition(": ") for line in lines):
            yield words, re.findall(r"crates/(\w+)/must-fail/(\w+)\.edit", files)

    def test_all_edits_are_tried_in_a_clone(self):
        written, told, status = self.run_it()
        tried = [("fx_beside", "beside"), ("fx_high", "high"), ("fx_low", "low"), ("fx_low", "lower")]
        self.assertEqual(list(self.calls()), [("ci", tried)])
        self.assertEqual(written, "".join(REFUSED % "/".join(one) for one in tried) + "1 passed, 0 failed\n")
        self.assertIn("rt: fx_low proved\n", told)
        self.assertNotIn("must-fail", told)
        self.assertEqual(status, 0)
        self.assertEqual(sorted(os.listdir(self.path("felix/crates/fx_low/must-fail"))), ["low.edit"])

    def test_those_of_one_crate_are_tried_alone(self):
        self.assertEqual(self.run_it("fx_low")[2], 0)
        self.assertEqual(self.run_it("fx_beside", "fx_high")[2], 0)
        low, others = [("fx_low", "low"), ("fx_low", "lower")], [("fx_beside", "beside"), ("fx_high", "high")]
        self.assertEqual(list(self.calls()), [("ci fx_low", low), ("ci fx_beside fx_high", others)])

    def test_what_is_committed_is_tried(self):
        write(self.path("felix/edits/fx_low/later.edit"), RIGHT)
        self.run_it("fx_low")
        self.commit()
        self.run_it("fx_low")
        self.assertEqual([len(edits) for _, edits in self.calls()], [2, 3])

    def test_it_ends_with_rts_status(self):
        write(self.path("fake", "fails"), "fx_low")
        written, told, status = self.run_it()
        self.assertTrue(written.endswith("rt: FAILED: fx_low\n0 passed, 1 failed\n"), written)
        self.assertIn("src/lib.rt:1:1: error: a goal is open\nrt: fx_low NOT PROVED\n", told)
        self.assertEqual(status, 1)

    def test_wrong_words_are_refused(self):
        written, told, status = self.run_it("--help")
        self.assertEqual((written, status), ("", 2))
        self.assertIn(".ci/nightly NAME ..", told)
        self.assertEqual(self.run_it("fx_low", "fx_gone"), ("", "no edits of fx_gone\n", 2))
        self.assertEqual(list(self.calls()), [])

    def test_a_run_that_is_broken_off_ends_what_it_began(self):
        write(self.path("fake", "waits"), "")
        begun = self.begin()
        proving = self.proving()
        begun.send_signal(signal.SIGTERM)
        begun.communicate(timeout=60)
        self.assertEqual(begun.returncode, 128 + signal.SIGTERM)
        self.assertEqual(os.listdir(self.path("temporary")), [])
        self.assertRaises(OSError, os.kill, proving, 0)

    def proving(self):
        """The process of the stand-in, once it waits."""
        for _ in range(1200):
            text = text_of(self.path("fake", "waits"))
            if text:
                return int(text)
            time.sleep(0.05)
        self.fail("rt was not called")


if __name__ == "__main__":
    unittest.main()
