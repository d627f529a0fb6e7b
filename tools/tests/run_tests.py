"""Runs the cases, and the tests of single functions."""
import argparse
import concurrent.futures
import difflib
import importlib.util
import os
import re
import shlex
import subprocess
import sys
import time
import unittest

TESTS = os.path.dirname(os.path.abspath(__file__))
TOOLS = os.path.dirname(TESTS)
sys.path.insert(0, TOOLS)
import kernel  # noqa: E402 (the folder is on the path from here on)
from felix_tools import program  # noqa: E402

CASES = os.path.join(TESTS, "cases")
DATA = os.path.join(TESTS, "data")
RECORDED = os.path.join(TESTS, "recorded")
# The programs that the tools ask questions; each has a stand-in of its own, which answers what was recorded.
ASKED = (program.REPLAY, program.HOST, program.SERVICES)


def main(words, help_text):
    parser = argparse.ArgumentParser(prog="tools/test", description=help_text, formatter_class=argparse.RawDescriptionHelpFormatter)
    parser.add_argument("--program", metavar="PATH", help="compare with this program's answers")
    parser.add_argument("--record", metavar="PATH", help="keep this program's answers")
    parser.add_argument("--restore", metavar="PATH", help="compares with this felix-restore's answers, too")
    parser.add_argument("--kernel", action="store_true", help="tries tables on a real kernel, and runs no other tests")
    parser.add_argument("--pairs", type=int, metavar="N", default=20,
                        help="how many pairs --kernel tries with each backend (%(default)s)")
    parser.add_argument("--seed", type=int, metavar="N", default=1, help="the first pair's seed (%(default)s)")
    options = parser.parse_args(words)
    for one, path in ((program.REPLAY, options.program), (program.RESTORE, options.restore)):
        if path:
            os.environ[one.variable] = os.path.abspath(path)
    if options.kernel:
        return kernel.main(options)
    begun = time.time()
    names = [name for name in sorted(os.listdir(CASES)) if has_needs(name)]
    with concurrent.futures.ThreadPoolExecutor(max_workers=4) as pool:
        failed = [name for name, passes in zip(names, pool.map(lambda name: run_case(name, options), names)) if not passes]
    functions = run_functions()
    print("%d cases%s, %d failed%s; %d tests of functions, %d failed; %.0f s" % (
        len(names), program_words(options), len(failed), ": " + ", ".join(failed) if failed else "",
        functions.testsRun, len(functions.failures) + len(functions.errors), time.time() - begun))
    return 0 if not failed and functions.wasSuccessful() else 1


def program_words(options):
    paths = ", ".join(compared_programs(options).values())
    return ", with recorded answers" + (" and with those of %s" % paths if paths else "")


def compared_programs(options):
    """The programs whose answers are compared with the recorded ones: the one that is given and what lies beside it, or those that
    are built."""
    if options.program:
        beside = {one: os.path.join(os.path.dirname(os.path.abspath(options.program)), one.name) for one in ASKED}
        found = {one: path for one, path in beside.items() if os.path.exists(path)}
        return {**found, program.REPLAY: os.path.abspath(options.program)}
    return {one: program.built_path(one) for one in ASKED if program.is_built(one)}


def run_functions():
    suite = unittest.defaultTestLoader.discover(TESTS, pattern="test_*.py", top_level_dir=TESTS)
    return unittest.TextTestRunner(verbosity=0, stream=sys.stdout).run(suite)


def run_case(name, options):
    """Whether the case passes, with recorded answers and, where there is a program, with that one's."""
    folder = os.path.join(CASES, name)
    if not compared(name, "recorded answers", folder, environment(folder, options)):
        return False
    asked = compared_programs(options)
    if not asked or not os.path.isdir(os.path.join(folder, "answers")):
        return True
    return compared(name, ", ".join(asked.values()), folder, environment(folder, options, asked))


def environment(folder, options, asked=()):
    """Where a case finds its programs: recorded answers, but for the programs that are asked themselves."""
    set_here = dict(os.environ, RECORDED_ANSWERS=os.path.join(folder, "answers"))
    for one in ASKED:
        set_here[one.variable] = asked[one] if one in asked else "%s-%s" % (RECORDED, one.name[len("felix-"):])
        set_here.pop("RECORD_WITH_" + one.variable, None)
        if recorded_by(one, options):
            set_here["RECORD_WITH_" + one.variable] = os.path.abspath(recorded_by(one, options))
    return set_here


def recorded_by(one, options):
    """The program whose answers are kept: the one that is given, or of the others the one that lies beside it."""
    beside = os.path.join(os.path.dirname(options.record), one.name) if options.record else None
    return options.record if one == program.REPLAY else beside if beside and os.path.exists(beside) else None


def compared(name, what, folder, environ):
    command = shlex.split(stored(folder, "command"))
    run = [sys.executable, os.path.join(TOOLS, command[0])] + command[1:]
    done = subprocess.run(run, cwd=DATA, env=dict(environ, COLUMNS="110"), stdin=subprocess.DEVNULL, stdout=subprocess.PIPE,
                          stderr=subprocess.PIPE)
    found = {"stdout": done.stdout.decode("utf-8"), "stderr": done.stderr.decode("utf-8"), "status": "%d\n" % done.returncode}
    found["verdicts"] = verdicts_in(found["stdout"]) if os.path.exists(os.path.join(folder, "verdicts")) else ""
    wrong = [file for file in found if found[file] != stored(folder, file, is_commented=file == "verdicts")]
    for file in wrong:
        kept = stored(folder, file, is_commented=file == "verdicts")
        changes = difflib.unified_diff(kept.split("\n"), found[file].split("\n"), "stored", "found", lineterm="", n=1)
        print("%s, with %s: %s differs\n%s" % (name, what, file, "\n".join(changes)))
    return not wrong


def has_needs(name):
    """Whether what a case needs is installed: a module of Python, which its file `needs` names."""
    wanted = stored(os.path.join(CASES, name), "needs").strip()
    if not wanted or importlib.util.find_spec(wanted):
        return True
    print("%s is left out: the module %s isn't installed" % (name, wanted))
    return False


def verdicts_in(answer):
    """The verdict of each question, one a line."""
    return "".join("%s\n" % verdict.lower() for verdict in re.findall(r"^\S.*: (ALLOWED|DENIED|UNKNOWN)$", answer, re.MULTILINE))


def stored(folder, file, is_commented=False):
    path = os.path.join(folder, file)
    if not os.path.exists(path):
        return "0\n" if file == "status" else ""
    with open(path, encoding="utf-8", newline="") as opened:
        text = opened.read()
    return re.sub(r" *#.*", "", text) if is_commented else text
