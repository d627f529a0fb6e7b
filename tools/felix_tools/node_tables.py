"""The tables of a node as rows, and the operations of felix-restore on them."""
import collections
import re

from felix_tools.reading import InputError
from felix_tools.saved_rules import SET_NAME, SET_TYPES

CHAIN_FRONT = "cali-"
SET_FRONT = "cali40"
CHAIN_NAME = re.compile("cali-[A-Za-z0-9_./-]{0,23}")
MEMBER = re.compile(r"[0-9.]+(?:/[0-9]+|,[a-z0-9]+:[0-9]+)")
SET_WORDS = ("create", "add", "remove", "destroy")

# What felix-restore does to one set or chain; `rest` is the set's type, a member, or how many rules the chain has.
Operation = collections.namedtuple("Operation", "word name rest")


def is_own(row):
    """Whether the row is of a set or a chain with a name of ours."""
    word, _, rest = row.partition(" ")
    if word in ("create", "add"):
        return rest.startswith(SET_FRONT)
    return word.startswith(":" + CHAIN_FRONT) or word == "-A" and rest.startswith(CHAIN_FRONT)


def last_tables(text, origin):
    """The rows of the last tables in what felix-replay wrote."""
    rows = text.split("\n")
    begins = [place for place, row in enumerate(rows) if row == "*filter"]
    ends = [place for place, row in enumerate(rows) if row == "COMMIT"]
    if not begins or not ends or ends[-1] < begins[-1]:
        asked = '{"tables":true}'
        raise InputError("%s: there are no tables at its end; a line %s asks felix-replay for them" % (origin, asked))
    begin = begins[-1]
    while begin > 0 and rows[begin - 1].startswith(("create ", "add ")):
        begin -= 1
    return rows[begin:ends[-1] + 1]


class NodeTables:
    """Our sets, each with its members, and our chains, each with its rules, of rows."""

    def __init__(self, rows):
        self.sets = {}
        self.chains = {}
        for row in filter(is_own, rows):
            self.take(row)

    def take(self, row):
        word, _, rest = row.partition(" ")
        name, _, rest = rest.partition(" ")
        if word == "create":
            self.sets[name] = set()
        elif word == "add":
            self.sets.setdefault(name, set()).add(rest)
        elif word == "-A":
            self.chains.setdefault(name, []).append(rest)
        else:
            self.chains.setdefault(word[1:], [])

    def do(self, operation, goal):
        """Does one operation, by which a chain gets the rules that it has in the goal."""
        word, name, rest = operation
        if word == "create":
            self.sets[name] = set()
        elif word == "add":
            self.sets[name].add(rest)
        elif word == "remove":
            self.sets[name].discard(rest)
        elif word == "destroy":
            self.sets.pop(name, None)
        elif word == "write":
            self.chains[name] = goal.chains[name]
        else:
            self.chains.pop(name, None)

    def difference(self, other):
        """In words, the first set or chain in which these differ, or None."""
        for what, mine, others in (("set", self.sets, other.sets), ("chain", self.chains, other.chains)):
            for name in sorted(set(mine) | set(others)):
                if mine.get(name) != others.get(name):
                    return "%s %s" % (what, name)
        return None


# ---- what felix-restore wrote

class Restored:
    """What felix-restore wrote: its refusals, and the operations, or that it waits."""

    def __init__(self, text, origin):
        lines = text.split("\n")
        self.refusals = [line for line in lines if line.startswith("refused ")]
        if len(lines) < 2 or lines[-1] or not re.fullmatch("restored (0 waiting|[0-9]+)", lines[-2]):
            raise InputError("%s: this isn't all that felix-restore writes: its last line is `restored N`" % origin)
        self.is_waiting = lines[-2].endswith("waiting")
        self.operations = [operation_of(line, origin) for line in lines[len(self.refusals):-2]]
        count = len(self.operations)
        if not self.is_waiting and lines[-2] != "restored %d" % count:
            raise InputError("%s: there are %d operations, and the last line is `%s`" % (origin, count, lines[-2]))


def operation_of(line, origin):
    """The operation of a line. Its words go to a shell, so each is looked at."""
    word, name, rest = (line.split(" ") + ["", ""])[:3]
    found = SET_NAME.fullmatch(name)
    if word == "create":
        is_right = found and rest == SET_TYPES[found[1]]
    elif word in ("add", "remove"):
        is_right = found and MEMBER.fullmatch(rest)
    elif word == "destroy":
        is_right = found and not rest
    else:
        is_change = word == "delete" and not rest or word == "write" and rest.isdecimal()
        is_right = CHAIN_NAME.fullmatch(name) and is_change
    if not is_right or line != " ".join(part for part in (word, name, rest) if part):
        raise InputError("%s: this is no operation of felix-restore: %s" % (origin, line))
    return Operation(word, name, rest)
