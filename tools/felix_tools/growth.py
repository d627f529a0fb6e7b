"""tools/growth: what a change costs, by the size of the cluster: measured as a table, and drawn."""
import collections
import os
import sys
import tempfile

from felix_tools import cluster_lines
from felix_tools.alone import run_alone
from felix_tools.growth_picture import AXES, STYLES, Mark, picture
from felix_tools.options import tool_parser
from felix_tools.program import ProgramError
from felix_tools.reading import InputError, read_text
from felix_tools.start import answered, remark

DESCRIPTION = """\
Draws what one change costs, by endpoints of other nodes and by policies, from a table; or measures the table.

  tools/growth docs/growth.tsv > docs/growth.svg
  tools/growth --measure PROGRAM PLAIN > docs/growth.tsv

Two programs are measured, felix-replay and another one of the same formats. For each point each of them reads the lines of
tools/cluster, once without changes and once with them, several times in turn; the least time of each counts. A change costs
what the one run took beyond the other of a processor, divided by the changes. Environment and priority are passed on.

Status: 0 done, 2 a word or the table can't be read, 4 a program didn't run to its end, 5 the output can't be written."""

# The two programs, as the table names them.
PROGRAMS = tuple(STYLES)
COLUMNS = ("by", "endpoints", "policies", "changes", "program", "seconds_without", "seconds_with", "microseconds", "megabytes")
PARTS = tuple(AXES)

# A point of a picture: what it shows the growth of, endpoints of other nodes, policies, changes.
Point = collections.namedtuple("Point", "by endpoints policies changes")
# A row of the table: a point, whose run it is, what a change costs, and the memory of the run with changes.
Row = collections.namedtuple("Row", "point program without seconds megabytes")

# Endpoints of the node itself, beside those of other nodes.
LOCAL = 100
# Where there are more endpoints there are as many changes, so that what these cost isn't lost beside the start.
CHANGES = 20000
ROUNDS = 3
POINTS = (
    [Point("endpoints", count, 200, max(CHANGES, count)) for count in (100, 1000, 10000, 100000)]
    + [Point("policies", 10000, count, CHANGES) for count in (10, 100, 1000, 10000)]
)


def main(words):
    return answered("growth", draw_or_measure, parser().parse_args(words))


def parser():
    made = tool_parser("growth", DESCRIPTION)
    made.add_argument("table", nargs="?", metavar="TABLE", help="the table that is drawn; `-` is standard input")
    made.add_argument("--measure", nargs=2, metavar=("PROGRAM", "PLAIN"), help="measures these, and writes the table")
    made.add_argument("--rounds", type=int, default=ROUNDS, metavar="N", help="how often each run is made (%(default)s)")
    return made


def draw_or_measure(options):
    if bool(options.table) == bool(options.measure):
        raise InputError("a table to draw is wanted, or --measure with two programs")
    if options.rounds < 1:
        raise InputError("no run is made in %d rounds" % options.rounds)
    if options.table:
        sys.stdout.write(picture(read_table(read_text(options.table), options.table)))
    else:
        print_table(measure(options.measure, POINTS, options.rounds))
    return 0


# ---- the table

def print_table(rows):
    print("\t".join(COLUMNS))
    for row in rows:
        seconds = ["%.3f" % row.without, "%.3f" % row.seconds, "%.1f" % microseconds(row), "%.1f" % row.megabytes]
        print("\t".join([*map(str, row.point), row.program, *seconds]), flush=True)


def microseconds(row):
    return 1e6 * (row.seconds - row.without) / row.point.changes


def read_table(text, origin):
    """What a table says of both programs."""
    lines = [line.split("\t") for line in text.splitlines()]
    if not lines or tuple(lines[0]) != COLUMNS:
        raise InputError("%s: no table of growth; its first line names %s" % (origin, ", ".join(COLUMNS)))
    marks = [read_row(words, "%s:%d" % (origin, place)) for place, words in enumerate(lines[1:], 2)]
    for by in PARTS:
        if len({mark.beside for mark in marks if mark.by == by}) != 1:
            raise InputError("%s: what grows beside %s isn't one number" % (origin, by))
    return marks


def read_row(words, place):
    found = dict(zip(COLUMNS, words))
    if len(words) != len(COLUMNS) or found["by"] not in PARTS or found["program"] not in PROGRAMS:
        raise InputError("%s: no row of such a table" % place)
    by = found["by"]
    try:
        at, beside = int(found[by]), int(found[PARTS[1 - PARTS.index(by)]])
        mark = Mark(by, at, beside, found["program"], float(found["microseconds"]))
    except ValueError:
        raise InputError("%s: a word that is no number" % place)
    if mark.at < 1 or not 0 < mark.microseconds < float("inf"):
        raise InputError("%s: a number that has no place on such an axis" % place)
    return mark


# ---- measuring

def measure(paths, points, rounds):
    """The rows of the table, one by one."""
    with tempfile.TemporaryDirectory() as room:
        for point in points:
            remark("growth", "{:,} endpoints of other nodes, {:,} policies".format(point.endpoints, point.policies))
            files = [write_cluster(os.path.join(room, str(changes)), point, changes) for changes in (0, point.changes)]
            # The programs take turns, so that both are measured beside the same other work.
            ran = [[[run_one(path, file) for path in paths] for file in files] for _ in range(rounds)]
            for place, program in enumerate(PROGRAMS):
                yield row_of(point, program, [(without[place], ended[place]) for without, ended in ran])


def row_of(point, program, ran):
    """The row of the runs without changes and with them in each round."""
    without, seconds = (min(ended.seconds for ended in runs) for runs in zip(*ran))
    return Row(point, program, without, seconds, max(ended.megabytes for _, ended in ran))


def write_cluster(path, point, changes):
    size = cluster_lines.Size(point.endpoints + LOCAL, LOCAL, point.policies, changes)
    with open(path, "wb") as file:
        file.writelines(cluster_lines.lines(size))
    return path


def run_one(path, file):
    with open(file, "rb") as given, open(os.devnull, "wb") as taken:
        ended = run_alone(path, ["--node", "n1"], given, taken)
    if ended.status:
        raise ProgramError("%s ended with %d" % (path, ended.status))
    return ended
