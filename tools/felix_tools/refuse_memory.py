"""tools/refuse-memory: what becomes of a run to which one growth of its memory is refused, for each growth."""
import argparse
import collections
import concurrent.futures
import itertools
import os
import re
import shlex
import shutil
import subprocess
import tempfile

from felix_tools import program
from felix_tools.options import tool_parser
from felix_tools.program import ProgramError
from felix_tools.reading import InputError
from felix_tools.start import answered

DESCRIPTION = """\
Runs the proved program on each input as often as it asks for memory, and refuses one growth each time: the first, the
second, and so on. Each run must end with status 5, having written a prefix of what the program writes where no growth is
refused.

  tools/refuse-memory crates/examples/data/*.jsonl
  tools/refuse-memory --soak 7 --count 200
  tools/refuse-memory --checked --to 20 crates/examples/data/first.jsonl

Growths are refused by a small library that is loaded before the program (felix_tools/refuse.c), which takes a C compiler
($CC, else cc). With --checked the runs are those of `rt try --fail-alloc N` instead, of the unproved code with checks of
each access; each takes as long as it takes to build the program.

Status: 0 each run ended so, 1 some run didn't, 2 some file or word can't be read, 4 the program or `rt` didn't
run, 5 the output can't be written."""

MEMORY = 5
# Statuses of a run to which nothing is refused.
WHOLE = (0, 1, 2)
SECONDS = 120
SOURCE = os.path.join(os.path.dirname(os.path.abspath(__file__)), "refuse.c")
MAIN_CRATE = os.path.join(program.TOP, "crates", "felix_main")
# The line that `rt try` writes of a run that came to its end.
TRIED = re.compile(rb"^run=ended status=(\d+) .*proved=no$", re.MULTILINE)
SHOWN_FAULTS = 10

# How a run ended, what it wrote, and how often it asked for memory, where that is known.
Ended = collections.namedtuple("Ended", "status output growths")
# What became of the runs on an input: how many lines each wrote that ended for want of memory, and in words what else happened.
Sweep = collections.namedtuple("Sweep", "lines_written faults")


def main(words):
    return answered("refuse-memory", refuse, parser().parse_args(words))


def parser():
    made = tool_parser("refuse-memory", DESCRIPTION)
    made.add_argument("inputs", nargs="*", metavar="FILE", help="lines for the program")
    made.add_argument("--node", metavar="NAME", default="n1", help="the node's name (%(default)s)")
    made.add_argument("--soak", type=number, metavar="SEED", help="a soak run, in the place of an input")
    made.add_argument("--count", type=number, metavar="N", help="the soak run's lines")
    which = made.add_argument_group("which growths")
    which.add_argument("--from", dest="first", type=number, metavar="N", default=1, help="from this one on (%(default)s)")
    which.add_argument("--to", dest="last", type=number, metavar="N", help="to this one")
    which.add_argument("--every", type=number, metavar="N", default=1, help="each Nth of them")
    which.add_argument("--jobs", type=number, metavar="N", default=os.cpu_count() or 1, help="so many runs at once (%(default)s)")
    made.add_argument("--program", metavar="PATH", help="the proved program (else $FELIX_REPLAY, else this repository's own)")
    made.add_argument("--checked", action="store_true", help="runs by `rt try`, in the place of the proved program")
    return made


def number(text):
    if not re.fullmatch(r"0|[1-9][0-9]*", text):
        raise argparse.ArgumentTypeError("%s isn't a number" % text)
    return int(text)


def refuse(options):
    inputs = inputs_of(options)
    with tempfile.TemporaryDirectory(prefix="refuse-memory-") as room:
        runner = Checked() if options.checked else Refusing(room, program.find_built(options.program))
        swept = [tell(path or "soak", sweep(runner, words_of(options), path, options)) for path in inputs]
    return 0 if all(swept) else 1


def inputs_of(options):
    """The files of the inputs; of a soak run no file at all."""
    is_soak = options.soak is not None
    if is_soak != (options.count is not None):
        raise InputError("--soak and --count are given together")
    if is_soak == bool(options.inputs):
        raise InputError("either files are given, or --soak and --count")
    if 0 in (options.first, options.every, options.jobs):
        raise InputError("growths, steps and jobs are counted from 1")
    for path in options.inputs:
        if not os.path.isfile(path):
            raise InputError("%s: no file" % path)
    return options.inputs or [None]


def words_of(options):
    words = ["--node", options.node]
    return words if options.soak is None else words + ["--soak", str(options.soak), "--count", str(options.count)]


# ---- runs

class Refusing:
    """Runs of a built program, before which the library that refuses is loaded."""

    def __init__(self, room, path):
        self.room = room
        self.program = os.path.abspath(path)
        self.library = os.path.join(room, "refuse.so")
        compiler = shlex.split(os.environ.get("CC") or "cc")
        if not shutil.which(compiler[0]):
            raise ProgramError("there is no C compiler %s; --checked does without one" % compiler[0])
        made = subprocess.run(compiler + ["-shared", "-fPIC", "-O1", "-fno-builtin", "-o", self.library, SOURCE])
        if made.returncode:
            raise ProgramError("%s isn't compiled" % SOURCE)

    def run(self, refused, words, path):
        handle, count = tempfile.mkstemp(dir=self.room)
        os.close(handle)
        asked = {"LD_PRELOAD": self.library, "FELIX_REFUSE_AT": str(refused), "FELIX_REFUSE_COUNT": count}
        done = run_on([self.program] + words, path, env=dict(os.environ, **asked), stderr=subprocess.DEVNULL)
        with open(count, encoding="ascii") as file:
            text = file.read()
        os.remove(count)
        return Ended(done.returncode, done.stdout, int(text) if text else None)


class Checked:
    """Runs by `rt try`, each of which builds the unproved code anew."""

    def run(self, refused, words, path):
        asked = ["--fail-alloc", str(refused)] if refused else []
        done = run_on(["rt", "try"] + asked + ["--"] + words, path, cwd=MAIN_CRATE, stderr=subprocess.PIPE, timeout=None)
        ended = TRIED.search(done.stderr)
        if not ended:
            raise ProgramError("rt try: %s" % done.stderr.decode("utf-8", "replace").strip().rpartition("\n")[2])
        return Ended(int(ended[1]), done.stdout, None)


def run_on(command, path, timeout=SECONDS, **how):
    try:
        with open(path or os.devnull, "rb") as given:
            return subprocess.run(command, stdin=given, stdout=subprocess.PIPE, timeout=timeout, **how)
    except OSError as fault:
        raise ProgramError("%s: %s" % (command[0], fault.strerror))
    except subprocess.TimeoutExpired:
        raise ProgramError("%s runs longer than %d seconds" % (command[0], timeout))


# ---- what becomes of them

def sweep(runner, words, path, options):
    """The whole run, how many growths were refused in turn, and what became of the runs."""
    whole = runner.run(0, words, path)
    if whole.status not in WHOLE:
        raise ProgramError("with no growth refused it ended with %d" % whole.status)
    if isinstance(runner, Refusing) and whole.growths is None:
        raise ProgramError("%s doesn't load %s" % (runner.program, runner.library))
    numbers = numbers_of(options, whole.growths)
    if whole.growths is None:
        ends = until_unharmed(runner, words, path, numbers, whole)
    else:
        with concurrent.futures.ThreadPoolExecutor(max_workers=options.jobs) as pool:
            ends = list(pool.map(lambda refused: (refused, runner.run(refused, words, path)), numbers))
    return whole, len(ends), judged(whole, ends)


def numbers_of(options, growths):
    last = min((n for n in (options.last, growths) if n is not None), default=None)
    return itertools.count(options.first, options.every) if last is None else range(options.first, last + 1, options.every)


def until_unharmed(runner, words, path, numbers, whole):
    """The runs up to the first that ends as the whole one, which comes to no such growth."""
    ends = []
    for refused in numbers:
        ended = runner.run(refused, words, path)
        if is_as(ended, whole):
            break
        ends.append((refused, ended))
    return ends


def is_as(ended, whole):
    return (ended.status, ended.output) == (whole.status, whole.output)


def judged(whole, ends):
    lines_written, faults = collections.Counter(), []
    for refused, ended in ends:
        if ended.status == MEMORY and whole.output.startswith(ended.output):
            lines_written[ended.output.count(b"\n")] += 1
        else:
            faults.append("growth %d: %s" % (refused, fault_words(whole, ended)))
    return Sweep(lines_written, faults)


def fault_words(whole, ended):
    if is_as(ended, whole):
        return "status %d, as though nothing had been refused" % ended.status
    kept = len(os.path.commonprefix([whole.output, ended.output]))
    how = "status %d" % ended.status if ended.status >= 0 else "signal %d" % -ended.status
    if kept < len(ended.output):
        return "%s, and behind byte %d another output" % (how, kept)
    return "%s, and %d of %d bytes" % (how, kept, len(whole.output))


# ---- what is said of it

def tell(name, swept):
    """Prints what became of the runs on an input, and answers whether each ended as it should."""
    whole, count, found = swept
    ended = sum(found.lines_written.values())
    print("%s: %s refused in turn, %d of them with status 5" % (name, many(count, "growth"), ended))
    if ended:
        print("    written by then, of %s: %s" % (many(whole.output.count(b"\n"), "line"), written_words(found.lines_written)))
    for fault in found.faults[:SHOWN_FAULTS]:
        print("    WRONG: %s" % fault)
    if len(found.faults) > SHOWN_FAULTS:
        print("    WRONG: %d more" % (len(found.faults) - SHOWN_FAULTS))
    return not found.faults


def many(count, what):
    return "%d %s%s" % (count, what, "" if count == 1 else "s")


def written_words(lines_written):
    return ", ".join("%d (%s)" % (lines, many(times, "time")) for lines, times in sorted(lines_written.items()))
