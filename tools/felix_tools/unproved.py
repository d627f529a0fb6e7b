"""The programs compiled by `rt try` from the same sources without a proof, for all runs at once."""
import os
import re
import shutil
import subprocess
import sys
import tempfile

from felix_tools.program import TOP, ProgramError
from felix_tools.version import is_installed

SAID = "Nothing is proved of this answer: the program was compiled from its sources without a proof (--unproved)."
WAIT_WORD = "compiling %s without a proof, which takes minutes"
# How long a run may take, in seconds: it is compiled with checks, and slow.
LONGEST = 3600
ENDED = re.compile(r"^case=(\S+) run=(\S+)(?: status=(\d+))?", re.MULTILINE)
TOLD_LINES = 8


class Unproved:
    """In the place of the proved programs: what they answer for nodes to inputs, each compiled once for all that is
    asked ahead."""

    def __init__(self):
        if is_installed():
            raise ProgramError("--unproved compiles the sources, which stand in the repository and not here")
        if not shutil.which("rt"):
            raise ProgramError("--unproved needs `rt`, of the Rattle kit, on the PATH")
        self.answers = {}

    def ahead(self, runs):
        """Runs these (program, node, input) together, as far as they weren't yet."""
        for program in dict.fromkeys(program for program, _, _ in runs):
            asked = [run for run in dict.fromkeys(runs) if run[0] == program and run not in self.answers]
            if asked:
                self.answers.update(zip(asked, run_all(program, [run[1:] for run in asked])))

    def run(self, program, node, text):
        self.ahead([(program, node, text)])
        return self.answers[program, node, text]


def run_all(program, inputs):
    """What a program writes for each (node, input)."""
    with tempfile.TemporaryDirectory(prefix="felix-unproved-") as folder:
        names = [write_case(folder, number, node, text) for number, (node, text) in enumerate(inputs)]
        print(WAIT_WORD % program.name, file=sys.stderr, flush=True)
        words = ["rt", "try", "--seconds", str(LONGEST), "--cases", folder]
        done = subprocess.run(words, cwd=os.path.join(TOP, "crates", program.crate), stdin=subprocess.DEVNULL,
                              stdout=subprocess.PIPE, stderr=subprocess.PIPE)
    told = done.stderr.decode("utf-8", "replace") or "`rt try` ended with %d, and said nothing" % done.returncode
    return outputs(program, names, done.stdout.decode("utf-8"), told)


def write_case(folder, number, node, text):
    """A file with the input, which is its standard input, and one with the words."""
    name = "case%06d" % number
    for file, content in ((name, text), (name + ".args", "--node\n%s\n" % node)):
        with open(os.path.join(folder, file), "w", encoding="utf-8") as opened:
            opened.write(content)
    return name


def outputs(program, names, written, told):
    """What was written for each case, each of which has to have ended as the program ends with an answer."""
    endings = {name: (how, status) for name, how, status in ENDED.findall(told)}
    wrong = [name for name in names if endings.get(name) not in (("ended", "0"), ("ended", "1"))]
    if wrong:
        said = "\n".join(told.rstrip().split("\n")[-TOLD_LINES:])
        raise ProgramError("%s, compiled without a proof, didn't run to its end:\n%s" % (program.name, said))
    texts = re.split(r"^== (case[0-9]{6})\n", written, flags=re.MULTILINE)
    by_name = dict(zip(texts[1::2], texts[2::2]))
    return [by_name.get(name, "") for name in names]
