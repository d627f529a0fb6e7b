"""Finds the proved programs, and runs felix-replay."""
import collections
import os
import subprocess
import sys

from felix_tools.version import is_installed

TOP = os.path.dirname(os.path.dirname(os.path.dirname(os.path.abspath(__file__))))
# A program, the crate that it is built as, and the environment's variable that names another one.
Program = collections.namedtuple("Program", "name crate variable")
REPLAY = Program("felix-replay", "felix_main", "FELIX_REPLAY")
RESTORE = Program("felix-restore", "restore_main", "FELIX_RESTORE")
HOST = Program("felix-host", "host_main", "FELIX_HOST")
SERVICES = Program("felix-services", "services_main", "FELIX_SERVICES")
PROGRAMS = (REPLAY, RESTORE, HOST, SERVICES)
ENDINGS = {
    2: "it didn't take the words that it was given; is a node's name an odd one?",
    3: "a read failed",
    4: "a write failed",
    5: "memory ran out",
    6: "the input has 4 GiB or more",
    70: "it isn't built, since some proof failed or `rt` isn't there",
}
WAIT_WORD = ("The proved program isn't built from these sources yet. ./{0.name} proves and builds it now, which takes an hour "
             "or more on four processors; another one is asked by {1}{0.variable}=PATH.")


class ProgramError(Exception):
    """The program couldn't be run to its end; the text says why."""


def find(path=None, program=REPLAY):
    """The path of a program: the one that is given, the environment's, the built one, or its launcher."""
    found = path_if_built(program, path)
    if found:
        return found
    print(WAIT_WORD.format(program, "--program PATH or " if program == REPLAY else ""), file=sys.stderr)
    return os.path.join(TOP, program.name)


class Paths:
    """The programs that are asked, each looked for once it is needed."""

    def __init__(self, given=None):
        self.found = {}
        self.given = given

    def of(self, program):
        if program not in self.found:
            self.found[program] = find(self.given if program == REPLAY else None, program)
        return self.found[program]

    def ahead(self, runs):
        """Says which runs will be asked for, (program, node, input) each."""

    def run(self, program, node, text):
        return run(self.of(program), node, text)


def find_built(path=None, program=REPLAY):
    """As `find`, but never the launcher: whoever measures a run, or what it asks for, wants the program by itself."""
    found = path_if_built(program, path)
    if not found:
        raise ProgramError("the program isn't built from these sources: ./%s proves and builds it" % program.name)
    return found


def path_if_built(program, path=None):
    return path or os.environ.get(program.variable) or (built_path(program) if is_built(program) else None)


def built_path(program):
    """Where the program stands once it is built, or where it is installed."""
    if is_installed():
        return os.path.join(os.path.dirname(TOP), "bin", program.name)
    return os.path.join(TOP, "crates", program.crate, "out", program.crate)


def is_built(program=REPLAY):
    """Whether the built program is there, and none of its sources is newer: what its launcher asks, too."""
    path = built_path(program)
    if not os.access(path, os.X_OK):
        return False
    built = os.path.getmtime(path)
    return is_installed() or all(os.path.getmtime(source) <= built for source in sources())


def sources():
    yield os.path.join(TOP, "crates.txt")
    for folder, below, files in os.walk(os.path.join(TOP, "crates")):
        below[:] = [name for name in below if name != "out"]
        for name in files:
            if name.endswith((".rt", ".antt")):
                yield os.path.join(folder, name)


def run(path, node, text):
    """What the program at this path answers for a node to an input."""
    done = run_bytes(path, node, text.encode("utf-8"))
    if done.returncode not in (0, 1):
        raise ProgramError("%s ended with %d: %s" % (path, done.returncode, ENDINGS.get(done.returncode, "no status of its own")))
    return done.stdout.decode("utf-8")


def run_bytes(path, node, given):
    """How the program ended, and what it wrote."""
    try:
        return subprocess.run([path, "--node", node], input=given, stdout=subprocess.PIPE)
    except OSError as fault:
        raise ProgramError("%s: %s" % (path, fault.strerror))
