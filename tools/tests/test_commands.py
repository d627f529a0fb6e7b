"""Each command that a page shows is run, in a folder with a stand-in for each program, and each tool, option, path and
crate that a page names is there."""
import json
import os
import re
import shutil
import subprocess
import sys
import tempfile
import unittest

from felix_tools.crates import read_crates
from felix_tools.install import PLUGIN, TOOLS
from pages import TOP, blocks_of, pages, spans_of, text_of

TESTS = os.path.dirname(os.path.abspath(__file__))
DATA = os.path.join(TESTS, "data")
LAUNCHERS = ("felix-replay", "felix-restore", "felix-host", "felix-services")
FIRST_WORDS = r"tools/|\./felix-|(?:\.\./)*\.ci/|(?:rt|kubectl|calicoctl|ipset|mkdir|cd|echo|cat) "
COMMAND = re.compile(r"(?:\$ )?((?:\(|\w+=\S+ )*(?:%s).*)" % FIRST_WORDS)
GETS = re.compile(r"(?:kubectl|calicoctl) get \S+ .*-o json")
# Commands that aren't run here, each with its reason.
NOT_RUN = (
    (r"(cd \S+ && )?rt |(\.\./)*\.ci/|.* --unproved$", "starts a prover or a compiler"),
    (r"\(?ipset ", "needs root and a kernel"),
    (r"tools/(refuse-memory|hostile|limits)\b", "asks the built program, for minutes"),
    (r"EAGER=1 tools/growth --measure", "measures two programs, for hours"),
    (r"tools/install ", "copies built programs; test_install.py runs it on stand-ins"),
)
# What stands for a word of its reader's own.
PLACES = (
    ("tools/ask ..", "tools/ask cluster.json calico.json --from shop/db-1 --to shop/db-0 --tcp 5432"),
    ("--node NODE <", "--node worker-1 <"),
    ("--node NODE >", "--node worker-1 >"),
    ("INTERFACE", "cali0123456789a"),
    ("get KIND ", "get globalnetworksets "),
    ("| dot -Tsvg ", ""),
)
NEW = {"apiVersion": "networking.k8s.io/v1", "kind": "NetworkPolicy", "metadata": {"name": "new", "namespace": "shop"},
       "spec": {"podSelector": {}}}
NODE = {"apiVersion": "v1", "kind": "Node", "metadata": {"name": "worker-1"}}
SERVED = "pods namespaces serviceaccounts services nodes networkpolicies.networking.k8s.io"
TOOL = re.compile(r"\btools/([\w-]+(?:\.bash)?)((?: [^|;>]*)?)")


def commands():
    """Each command with its page: those of blocks, and in prose those that get resources."""
    for page in pages():
        yield from ((page, COMMAND.fullmatch(span)) for span in spans_of(page) if GETS.match(span))
        for block in blocks_of(page):
            if COMMAND.fullmatch(block[0]):
                shown = block[:1] if block[0].startswith("$ ") else block
                yield from ((page, COMMAND.fullmatch(line)) for line in shown)


def is_run(command):
    return not any(re.match(pattern, command) for pattern, _ in NOT_RUN)


def filled(command):
    for words, put in PLACES:
        command = command.replace(words, put)
    return command


def write(path, text, mode=0o644):
    os.makedirs(os.path.dirname(path), exist_ok=True)
    with open(path, "w", encoding="utf-8") as file:
        file.write(text)
    os.chmod(path, mode)


class Commands(unittest.TestCase):
    def setUp(self):
        self.room = tempfile.mkdtemp()
        self.addCleanup(shutil.rmtree, self.room)
        os.symlink(os.path.join(TOP, "tools"), self.path("tools"))
        shutil.copytree(os.path.join(TOP, "docs"), self.path("docs"))
        os.makedirs(self.path("crates", "examples"))
        os.symlink(os.path.join(TOP, "crates", "examples", "data"), self.path("crates", "examples", "data"))
        self.put_programs()
        self.put_cluster()

    def path(self, *names):
        return os.path.join(self.room, *names)

    def put_programs(self):
        os.mkdir(self.path("bin"))
        for name in LAUNCHERS:
            shutil.copy(os.path.join(TESTS, "stored_examples"), self.path(name))
        for name, stand_in in (("kubectl", "fake_kubectl"), ("calicoctl", "fake_kubectl"), ("jq", "fake_jq")):
            shutil.copy(os.path.join(TESTS, stand_in), self.path("bin", name))
        os.symlink(os.path.join(TOP, "tools", PLUGIN), self.path("bin", PLUGIN))
        os.symlink(os.path.realpath(sys.executable), self.path("bin", "python3"))
        os.mkdir(self.path("home"))

    def put_cluster(self):
        """The bakery of the tools' cases, by the name that the pages give it, and what stands beside it."""
        os.mkdir(self.path("cluster"))
        for name in ("cluster.json", "calico.json"):
            text = text_of("tools", "tests", "data", "bakery", name).replace("bakery", "shop")
            write(self.path("cluster", name), text)
            write(self.path(name), text)
        hosts = text_of("tools", "tests", "data", "market", "hosts.json").replace("node-", "worker-")
        write(self.path("cluster", "hosts.json"), hosts)
        write(self.path("cluster", "nodes.json"), json.dumps({"items": [NODE]}))
        write(self.path("cluster", "served"), SERVED)
        assertions = next(block for block in blocks_of("docs/OPERATORS.md") if " -> " in block[0])
        write(self.path("assertions.txt"), "\n".join(assertions) + "\n")
        write(self.path("new.yaml"), json.dumps(NEW))
        for name, stored in (("saved", "nft.saved"), ("tables.txt", "first.tables")):
            shutil.copy(os.path.join(DATA, "node", stored), self.path(name))

    def environment(self):
        kept = {name: value for name, value in os.environ.items() if not name.startswith("DATASTORE")}
        programs = {name.upper().replace("-", "_"): self.path(name) for name in LAUNCHERS}
        path = self.path("bin") + ":" + os.environ["PATH"]
        folders = {"PATH": path, "FAKE_CLUSTER": self.path("cluster"), "HOME": self.path("home")}
        return {**kept, **programs, **folders, "COLUMNS": "110"}

    def run_it(self, command):
        how = {"stdin": subprocess.DEVNULL, "stdout": subprocess.PIPE, "stderr": subprocess.PIPE}
        how.update(cwd=self.room, env=self.environment(), universal_newlines=True)
        return subprocess.run(["bash", "-o", "pipefail", "-c", filled(command)], **how)

    def test_each_command_of_each_page_is_run_in_turn(self):
        run = 0
        for page, found in commands():
            self.assertTrue(found, "%s: a block has commands and other lines" % page)
            if is_run(found[1]):
                done = self.run_it(found[1])
                self.assertIn(done.returncode, (0, 1), "%s: %s\n%s" % (page, found[1], done.stderr))
                run += 1
        self.assertGreater(run, 25)

    def test_commands_on_examples_have_their_stored_answers(self):
        on_examples = [found[1] for _, found in commands() if found and "< crates/examples/data/" in found[1]]
        self.assertGreater(len(on_examples), 3)
        for command in on_examples:
            name = re.search(r"crates/examples/data/([\w-]+)\.jsonl", command)[1]
            self.assertEqual(self.run_it(command).stdout, text_of("crates", "examples", "data", name + ".txt"), command)
        shown = "".join("%s\n" % line for line in blocks_of("README.md")[3])
        self.assertTrue(text_of("crates", "examples", "data", "packets.txt").endswith(shown), shown)

    def test_each_reason_for_not_running_is_needed(self):
        shown = [found[1] for _, found in commands() if found]
        for pattern, why in NOT_RUN:
            self.assertTrue(any(re.match(pattern, command) for command in shown), why)


class Words(unittest.TestCase):
    helps = {}

    def help_of(self, tool):
        if tool not in self.helps:
            run = [sys.executable, os.path.join(TOP, "tools", tool), "--help"]
            done = subprocess.run(run, stdout=subprocess.PIPE, universal_newlines=True)
            self.helps[tool] = done.stdout if done.returncode == 0 else ""
        return self.helps[tool]

    def named_tools(self):
        """Each tool that a page names in backquotes or shows in a block, with the page and the options behind it."""
        for page in pages():
            texts = spans_of(page) + [line for block in blocks_of(page) for line in block]
            for tool, rest in TOOL.findall("\n".join(texts)):
                yield page, tool, re.findall(r" (--?[a-z][\w-]*)", rest.partition("\n")[0])

    def test_each_tool_is_there_and_takes_the_options_that_the_pages_give_it(self):
        there = os.listdir(os.path.join(TOP, "tools"))
        for page, tool, options in self.named_tools():
            self.assertIn(tool, there, page)
            for word in options:
                self.assertRegex(self.help_of(tool), re.escape(word) + r"\b", "%s: tools/%s" % (page, tool))

    def test_each_installed_tool_is_in_the_table_of_tools(self):
        table = text_of("docs", "ARCHITECTURE.md").partition("\n| in `tools/` | |\n")[2].partition("\n\n")[0]
        listed = re.findall(r"`([\w-]+)`", "".join(re.findall(r"^\| (`.*?) \|", table, re.MULTILINE)))
        self.assertEqual(sorted(listed), sorted(TOOLS + (PLUGIN, "install", "documents", "test")))

    def test_each_path_is_there(self):
        there = list(files_of(TOP))
        named = [(page, span) for page in pages() for span in spans_of(page) if is_path(span)]
        self.assertEqual([pair for pair in named if not is_there(pair[1], there)], [])

    def test_each_crate_is_there(self):
        crates = read_crates().uses
        named = {(page, span) for page in pages() for span in spans_of(page) if re.fullmatch(r"(?:fx|felix)_\w+", span)}
        self.assertEqual(sorted(pair for pair in named if pair[1] not in crates), [])


def files_of(top):
    for at, folders, names in os.walk(top):
        folders[:] = [name for name in folders if name not in (".git", "out", "__pycache__")]
        yield from (os.path.relpath(os.path.join(at, name), top) for name in names + folders)


def is_path(span):
    """Whether these words are a path of the repository, with no word in it that stands for others."""
    if re.search(r"\b(?:[A-Z]{4,}|[A-Z]+)\b(?!\.md)", span) or not re.fullmatch(r"\.?[\w./-]+", span):
        return False
    return re.search(r"\w\.(?:rt|antt|rows|tsv|places)$|^(?:docs|crates|tools|edits|\.ci|f\w+)/.", span) is not None


def is_there(span, paths):
    """An edit is named without its ending, and what is built isn't looked for."""
    wanted = span.rstrip("/").lstrip("./") if not span.startswith(".ci") else span
    if "/out/" in wanted:
        return True
    ends = ("/" + wanted, "/" + wanted + ".edit")
    return any(path == wanted or path.endswith(ends) or must_fail(path) == wanted for path in paths)


def must_fail(path):
    """`crates/NAME/must-fail/EDIT.edit` as the pages name it."""
    found = re.fullmatch(r"crates/(\w+)/must-fail/([\w-]+)\.edit", path)
    return "%s/%s" % found.groups() if found else None


if __name__ == "__main__":
    unittest.main()
