"""tools/apply: the operations of felix-restore as what `ipset restore` and `iptables-restore --noflush` read."""
import itertools
import json
import sys

from felix_tools.node_tables import SET_WORDS, NodeTables, Restored, last_tables
from felix_tools.options import number_up_to, tool_parser
from felix_tools.reading import STANDARD_INPUT, InputError, read_text
from felix_tools.start import REFUSED, answered, remark

DESCRIPTION = """\
Writes a script that does what felix-restore wrote, with the rules of chains taken from felix-replay's tables. It
changes nothing itself.

  ./felix-restore --node n1 < restart.jsonl > restored.txt
  (tools/lines cluster.json calico.json; echo '{"tables":true}') | ./felix-replay --node n1 > tables.txt
  tools/apply --tables tables.txt --found restart.jsonl restored.txt > script
  sh script

Both programs must have read the same resources for the same node. The script has three commands at most: what comes
into the sets, then all chains at once, then what goes from the sets. The first that fails ends it, and felix-restore
says of what is found then what is left to do.

Status: 0 done, 2 some file or word can't be read, or the files don't fit each other, 3 felix-restore waits, or it
refused some resource: these are told on standard error, and nothing is written without --although-refused,
5 the script can't be written."""

# A set that `ipset create` makes by itself holds so many members.
USUAL_ROOM = 65536
MOST_ROOM = 2 ** 31
COMMANDS = {"ipset": "ipset restore", "iptables": "{iptables}-restore --wait --noflush"}
END = "END"


def main(words):
    return answered("apply", write_script, parser().parse_args(words))


def parser():
    made = tool_parser("apply", DESCRIPTION)
    made.add_argument("file", nargs="?", metavar="RESTORED", default=STANDARD_INPUT,
                      help="what felix-restore wrote; none is standard input")
    made.add_argument("--tables", metavar="FILE", required=True,
                      help="what felix-replay wrote, with the tables at its end")
    made.add_argument("--found", metavar="FILE",
                      help="the lines that felix-restore read: looks whether the operations lead from what was found "
                           "to the tables")
    made.add_argument("--backend", choices=("legacy", "nft"), help="names the backend of iptables in the script")
    made.add_argument("--each", action="store_true", help="a command for each operation, in their order")
    made.add_argument("--maxelem", type=room, metavar="N",
                      help="the room of each set that is made; without it one gets more than the usual {:,} where it "
                           "gets more members".format(USUAL_ROOM))
    made.add_argument("--although-refused", action="store_true", help="also where some resource was refused")
    return made


def room(text):
    return number_up_to(text, MOST_ROOM, "a number of members")


def write_script(options):
    restored = Restored(read_text(options.file), options.file)
    for refusal in restored.refusals:
        remark("apply", "felix-restore %s" % refusal)
    if restored.is_waiting:
        remark("apply", "felix-restore waits: the found line was refused, or no line says in sync")
    if restored.is_waiting or restored.refusals and not options.although_refused:
        return REFUSED
    goal = NodeTables(last_tables(read_text(options.tables), options.tables))
    check_goal(restored.operations, goal, options.tables)
    if options.found:
        check_way(found_tables(read_text(options.found), options.found), restored.operations, goal, options)
    sys.stdout.write("\n".join(script(restored.operations, goal, options)) + "\n")
    return 0


# ---- whether the files fit each other

def check_goal(operations, goal, origin):
    for word, name, rest in operations:
        if word == "write" and (name not in goal.chains or len(goal.chains[name]) != int(rest)):
            raise InputError("%s has no chain %s of %s rules: is it of the same resources and the same node?" % (
                origin, name, rest))


def found_tables(text, origin):
    """The tables of the found line, which is the first one that isn't blank."""
    line = next((line for line in text.split("\n") if line.strip()), "")
    try:
        rows = json.loads(line)["found"]
        return NodeTables(rows)
    except (ValueError, TypeError, KeyError, AttributeError):
        raise InputError("%s: its first line has no found rows" % origin)


def check_way(tables, operations, goal, options):
    for operation in operations:
        if operation.word in ("add", "remove") and operation.name not in tables.sets:
            raise InputError("%s: there is no set %s at its turn" % (options.file, operation.name))
        tables.do(operation, goal)
    differing = tables.difference(goal)
    if differing:
        raise InputError("the operations don't lead from %s to %s: the %s differs at the end; are all of the same "
                         "resources and the same node?" % (options.found, options.tables, differing))


# ---- the script

def script(operations, goal, options):
    if not operations:
        return ["# Nothing is to be done: the node stands as it should."]
    head = "# Does the %d operations of felix-restore, as root; the first command that fails ends it." % len(operations)
    lines = [head, "set -e"]
    warn_of_nft(operations, goal)
    rooms = rooms_of(operations, options.maxelem)
    for group in groups(operations, options.each):
        tool = tool_of(group[0])
        command = COMMANDS[tool].format(iptables="iptables-" + options.backend if options.backend else "iptables")
        heads = ["# " + " ".join(filter(None, group[0]))] if options.each else []
        rows = set_rows(group, rooms) if tool == "ipset" else chain_rows(group, goal)
        lines += heads + ["%s <<'%s'" % (command, END)] + rows + [END]
    return lines


def tool_of(operation):
    return "ipset" if operation.word in SET_WORDS else "iptables"


def groups(operations, is_each):
    if is_each:
        return [[operation] for operation in operations]
    return [list(group) for _, group in itertools.groupby(operations, tool_of)]


def set_rows(operations, rooms):
    words = {"create": "create", "add": "add", "remove": "del", "destroy": "destroy"}
    parts = [(words[word], name, rest, word == "create" and rooms.get(name)) for word, name, rest in operations]
    return [" ".join(filter(None, row)) for row in parts]


def rooms_of(operations, given):
    """The words that give each new set its room, where it isn't the usual one."""
    counts = {name: 0 for word, name, _ in operations if word == "create"}
    for word, name, _ in operations:
        if word == "add" and name in counts:
            counts[name] += 1
    needed = {name: 1 << (count - 1).bit_length() if count > USUAL_ROOM else None for name, count in counts.items()}
    return {name: "maxelem %d" % (given or own) for name, own in needed.items() if given or own}


def chain_rows(operations, goal):
    """By iptables-restore a chain that is declared is made or emptied; one that goes is emptied and then deleted."""
    written = [name for word, name, _ in operations if word == "write"]
    deleted = [name for word, name, _ in operations if word == "delete"]
    rows = ["*filter"] + [":%s - [0:0]" % name for name in written + deleted]
    rows += ["-A %s %s" % (name, rule) for name in written for rule in goal.chains[name]]
    return rows + ["-X %s" % name for name in deleted] + ["COMMIT"]


def warn_of_nft(operations, goal):
    rules = [rule for word, name, _ in operations if word == "write" for rule in goal.chains[name]]
    if any(" %s 0.0.0.0/0 " % option in " " + rule for rule in rules for option in ("! -s", "! -d")):
        remark("apply", "some rule has `! -s 0.0.0.0/0` or `! -d 0.0.0.0/0`, which iptables-nft refuses; "
                        "iptables-legacy takes it")
