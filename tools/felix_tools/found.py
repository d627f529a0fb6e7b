"""tools/found: what a node's own tools save of its tables, as the first line for felix-restore."""
import json
import os
import re
import sys

from felix_tools.node_tables import CHAIN_FRONT, SET_FRONT, last_tables
from felix_tools.options import tool_parser
from felix_tools.reading import InputError, read_bytes, read_text
from felix_tools.saved_rules import Unread, member_text, protocols_of, rule_text, type_text
from felix_tools.start import answered, remark

DESCRIPTION = """\
Writes what a node's own tools save of its sets and its filter table as the first line for felix-restore.

  (ipset save; iptables-save -t filter) > saved
  tools/found --printed tables.txt saved > restart.jsonl
  tools/lines --without-flush cluster.json calico.json >> restart.jsonl
  ./felix-restore --node n1 < restart.jsonl

Rows of ours get the text that felix-replay prints, where both texts load as the same thing in the kernel. A row that
has no such text keeps its own: felix-restore refuses it, and it is told here on standard error. All other rows stand as
they are saved. Save by the backend that the rules are in (iptables-legacy-save or iptables-nft-save).

Status: 0 done, 1 done, and felix-restore will refuse the line, 2 some file or word can't be read, or no filter table
is in them, 5 the line can't be written."""

PROTOCOLS = "/etc/protocols"
LINE_LIMIT = 4194304
# From so much of the limit on it is told.
NEAR = 0.9
ROW_FRONTS = {"sets": ("create ", "add "), "filter": (":", "-A ")}
SHOWN = 120


def main(words):
    return answered("found", write_line, parser().parse_args(words))


def parser():
    made = tool_parser("found", DESCRIPTION)
    made.add_argument("files", nargs="+", metavar="FILE",
                      help="what `ipset save` and `iptables-save` wrote, in any order; `-` is standard input")
    made.add_argument("--printed", metavar="FILE",
                      help="the tables that felix-replay printed when the node's chains were last written. The kernel "
                           "keeps no trace of `-s 0.0.0.0/0` and `-d 0.0.0.0/0`: a chain that is this one's but for "
                           "these gets its text")
    made.add_argument("--protocols", metavar="FILE", default=PROTOCOLS,
                      help="the node's list of protocols' names (%(default)s)")
    made.add_argument("--empty-filter", action="store_true",
                      help="the node has no filter table; without this word such a text is a fault")
    return made


def write_line(options):
    saved = Saved(protocols_of(protocols_text(options.protocols)))
    for path in options.files:
        saved.take_text(read_bytes(path))
    rows = saved.rows(options.empty_filter)
    if options.printed:
        rows = with_printed_rules(rows, last_tables(read_text(options.printed), options.printed))
    line = json.dumps({"found": rows}, ensure_ascii=False, separators=(",", ":")).encode("utf-8")
    sys.stdout.buffer.write(line + b"\n")
    return tell(saved, rows, len(line))


def protocols_text(path):
    """A machine without such a file knows the names alone that its tools have by themselves."""
    return "" if path == PROTOCOLS and not os.path.exists(path) else read_text(path)


def tell(saved, rows, size):
    """Tells what felix-restore will refuse, as far as can be seen from here; the status that says whether it will."""
    if saved.other_bytes:
        remark("found", "%d rows aren't UTF-8, and have \\x.. in the place of such bytes" % saved.other_bytes)
    if saved.unread:
        places = [place for place, row in enumerate(rows) if row in saved.unread]
        others = " (nor are %d others)" % (len(places) - 1) if len(places) > 1 else ""
        refused = "so felix-restore refuses the line (40 BadRow)"
        remark("found", "row %d isn't such as our tables have%s, %s: %.*s" % (
            places[0], others, refused, SHOWN, rows[places[0]]))
    if size > LINE_LIMIT * NEAR:
        end = ": it refuses this one (20 LineTooLong)" if size > LINE_LIMIT else ""
        remark("found", "the line has {:,} bytes, and felix-restore reads {:,} at most{}".format(size, LINE_LIMIT, end))
    return 1 if saved.unread or size > LINE_LIMIT else 0


class Saved:
    """Rows of sets and of the filter table, out of what the node's tools saved."""

    def __init__(self, protocols):
        self.protocols = protocols
        self.sets = []
        self.filter = []
        self.table = None
        self.types = {}
        self.unread = set()
        self.other_bytes = 0

    def take_text(self, text):
        for raw in text.split(b"\n"):
            line = raw.decode("utf-8", "backslashreplace")
            self.other_bytes += line.encode("utf-8") != raw
            self.take(line)
        if self.table is not None:
            raise InputError("the table `%s` has no end: the text was cut off" % self.table)

    def take(self, line):
        if line.startswith("# Table `filter'"):
            raise InputError("iptables-save says that it can't show the filter table: %s" % line)
        if not line.strip() or line.startswith("#"):
            return
        if line.startswith("*"):
            self.begin_table(line)
        elif self.table is None:
            self.take_set_row(line)
        elif line == "COMMIT":
            self.end_table()
        elif self.table == "filter":
            self.take_filter_row(line)

    def begin_table(self, line):
        self.table = line[1:]
        if self.table == "filter":
            if self.filter:
                raise InputError("there are two filter tables in this: save them by the one backend that the node uses")
            self.filter.append(line)

    def end_table(self):
        if self.table == "filter":
            self.filter.append("COMMIT")
        self.table = None

    def take_set_row(self, row):
        words = row.split(" ")
        if words[0] in ("create", "add") and len(words) > 2:
            if words[0] == "create":
                self.types[words[1]] = words[2]
            if words[1].startswith(SET_FRONT):
                row = self.as_printed(row, self.set_row, words)
        self.keep(self.sets, row, "sets")

    def set_row(self, words):
        word, name = words[:2]
        if word == "create":
            text = type_text(name, words[2], words[3:])
        else:
            text = member_text(self.types.get(name), " ".join(words[2:]), self.protocols)
        return " ".join((word, name, text))

    def take_filter_row(self, row):
        counted = re.fullmatch(r"\[[0-9]+:[0-9]+\] (-A .*)", row)
        row = counted[1] if counted else row
        if row.startswith("-A " + CHAIN_FRONT):
            row = self.as_printed(row, self.rule_row, row.split(" ", 2))
        elif row.startswith(":" + CHAIN_FRONT):
            row = re.sub(r"^(:[^ ]+ -) \[[0-9]+:[0-9]+\]$", r"\1 [0:0]", row)
        self.keep(self.filter, row, "filter")

    def rule_row(self, words):
        return " ".join(words[:2] + [rule_text(words[2] if len(words) > 2 else "", self.protocols)])

    def as_printed(self, row, read, words):
        try:
            return read(words)
        except Unread:
            self.unread.add(row)
            return row

    def keep(self, rows, row, part):
        if not row.startswith(ROW_FRONTS[part]):
            self.unread.add(row)
        rows.append(row)

    def rows(self, may_be_empty):
        if not self.filter and not may_be_empty:
            raise InputError("no filter table is in this (the line `*filter`); say --empty-filter where the node has "
                             "none")
        return self.sets + (self.filter or ["*filter", "COMMIT"])


# ---- nets of length 0

def with_printed_rules(rows, printed):
    """The rows, with the printed rules in each chain of ours that is the printed one but for nets of length 0."""
    rows, theirs = list(rows), places_by_chain(printed)
    for chain, places in places_by_chain(rows).items():
        mine, printed_rules = [rows[place] for place in places], [printed[place] for place in theirs.get(chain, [])]
        if [bare(row) for row in mine] == [bare(row) for row in printed_rules]:
            for place, row in zip(places, printed_rules):
                rows[place] = row
    return rows


def places_by_chain(rows):
    chains = {}
    for place, row in enumerate(rows):
        if row.startswith("-A " + CHAIN_FRONT):
            chains.setdefault(row.split(" ", 2)[1], []).append(place)
    return chains


def bare(row):
    """A rule's row without what the kernel doesn't keep."""
    return re.sub(r"(?<!!) -[sd] 0\.0\.0\.0/0(?= )", "", row)
