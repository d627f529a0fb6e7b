"""tools/test --kernel: tables on a real kernel, in network namespaces of their own, by the tools and both programs.

A pair is two drawn sets of resources for one node and one backend of iptables. In a fresh namespace with rules and sets
of others:

1. felix-restore says of the empty node and the first resources what is to be done, and tools/apply's script does it: at
   once, or operation by operation, and then what is saved after each is what the operations so far come to;
2. of what is saved then felix-restore says `restored 0`; without --printed it writes at most chains with a net of
   length 0;
3. of the same and the second resources it says what is to be done, and the script does it;
4. of what is saved then it says `restored 0`, and all rows of others stand as they did."""
import collections
import concurrent.futures
import ctypes
import json
import multiprocessing
import os
import random
import shutil
import subprocess
import sys
import tempfile

import drawn_resources
from felix_tools import program
from felix_tools.found import bare
from felix_tools.node_tables import NodeTables, Restored, is_own, last_tables
from felix_tools.reading import InputError

TOOLS = os.path.dirname(os.path.dirname(os.path.abspath(__file__)))
BACKENDS = ("legacy", "nft")
NEW_NETWORK = 0x40000000
ASKED = b'{"flush":{}}\n{"tables":true}\n'
NOTHING = "restored 0\n"
# What iptables-nft refuses, and with it the whole table.
REFUSED_BY_NFT = (" ! -s 0.0.0.0/0 ", " ! -d 0.0.0.0/0 ")
SETS_OF_OTHERS = """\
create blocked hash:ip family inet counters comment
add blocked 198.51.100.9 comment "seen twice"
create blocked6 hash:net family inet6
add blocked6 2001:db8::/32
create ports bitmap:port range 0-1023
add ports 22
create both list:set
add both blocked
"""
RULES_OF_OTHERS = """\
*nat
:KUBE-SERVICES - [0:0]
-A PREROUTING -m comment --comment "kubernetes service portals" -j KUBE-SERVICES
COMMIT
*filter
:INPUT DROP [0:0]
:KUBE-FORWARD - [0:0]
:LOGGED - [0:0]
-A INPUT -i lo -j ACCEPT
-A INPUT -m set --match-set blocked src -m comment --comment "an operator's list" -j LOGGED
-A INPUT -p tcp -m tcp --dport 22 -m conntrack --ctstate NEW -m limit --limit 3/min -j ACCEPT
-A FORWARD -m comment --comment "kubernetes forwarding rules" -j KUBE-FORWARD
-A KUBE-FORWARD -m mark --mark 0x4000/0x4000 -j ACCEPT
-A LOGGED -j LOG --log-prefix "blocked: " --log-level 6
-A LOGGED -j REJECT --reject-with icmp-host-prohibited
COMMIT
"""
HOOK = "*filter\n-I FORWARD 1 -j cali-FORWARD\nCOMMIT\n"

Pair = collections.namedtuple("Pair", "seed backend replay restore")
Tried = collections.namedtuple("Tried", "pair counts faults")


class Fault(Exception):
    """Something isn't as it should be; the text says what."""


def main(options):
    os.environ["PATH"] += ":/usr/sbin:/sbin"
    unusable, missing = available()
    backends = [backend for backend in BACKENDS if backend not in unusable]
    if missing:
        print("tools/test --kernel can't be run here. What is missing:")
        print(*("  " + text for text in missing), sep="\n")
        return 1
    replay, restore = map(program.path_if_built, (program.REPLAY, program.RESTORE))
    seeds = range(options.seed, options.seed + options.pairs)
    pairs = [Pair(seed, backend, replay, restore) for backend in backends for seed in seeds]
    with processes() as pool:
        tried = list(pool.map(try_pair, pairs))
    for backend in backends:
        tell(backend, [one for one in tried if one.pair.backend == backend])
    for backend, why in unusable.items():
        print("%s: not tried: %s" % (backend, why))
    faults = [(one.pair, fault) for one in tried for fault in one.faults]
    for pair, fault in faults:
        print("%s, seed %d: %s" % (pair.backend, pair.seed, fault))
    return 1 if faults else 0


def processes():
    """Each enters namespaces of its own, and the one that makes them stays where it is."""
    return concurrent.futures.ProcessPoolExecutor(mp_context=multiprocessing.get_context("fork"))


# ---- what has to be there

def available():
    """Why which backend can't be tried, and what is missing of all that one of them takes, in words."""
    missing = [] if os.geteuid() == 0 else ["root: rules are loaded, each time in a network namespace of its own"]
    missing += ["the command %s" % command for command in ("ipset", "sh") if not shutil.which(command)]
    for one in (program.REPLAY, program.RESTORE):
        if not program.path_if_built(one):
            named = (one.name, one.name, one.variable)
            missing.append("the program %s: ./%s builds it, and %s=PATH names another one" % named)
    unusable = {backend: fault for backend in BACKENDS for fault in [backend_fault(backend, bool(missing))] if fault}
    if len(unusable) == len(BACKENDS):
        missing += ["a backend of iptables; %s: %s" % pair for pair in unusable.items()]
    return unusable, missing


def backend_fault(backend, by_commands_alone):
    """Why this backend can't be tried: commands that aren't there, or what the kernel doesn't take."""
    commands = ["iptables-%s-%s" % (backend, end) for end in ("save", "restore")]
    lacking = [command for command in commands if not shutil.which(command)]
    if lacking or by_commands_alone:
        return "no command %s" % lacking[0] if lacking else None
    with processes() as pool:
        return pool.submit(kernel_fault, backend).result()


def kernel_fault(backend):
    try:
        Node(backend, None, None, None).load_others()
        return None
    except (Fault, OSError) as fault:
        return str(fault)


def enter_new_network():
    """Goes to a network namespace of its own. The rules of the machine are never touched: without one this raises."""
    before = os.readlink("/proc/self/ns/net")
    libc = ctypes.CDLL(None, use_errno=True)
    if libc.unshare(NEW_NETWORK) != 0:
        raise OSError(ctypes.get_errno(), "no network namespace: " + os.strerror(ctypes.get_errno()))
    if os.readlink("/proc/self/ns/net") == before:
        raise Fault("the network namespace is still that of the machine")


# ---- a node

class Node:
    """A fresh network namespace, which this process enters, and a folder for what the tools read and write."""

    def __init__(self, backend, replay, restore, folder):
        enter_new_network()
        self.backend = backend
        self.replay = replay
        self.restore = restore
        self.folder = folder
        self.counts = collections.Counter()

    def run(self, words, given=""):
        how = {"input": given, "stdout": subprocess.PIPE, "stderr": subprocess.PIPE, "universal_newlines": True}
        done = subprocess.run(words, env=dict(os.environ, LC_ALL="C.UTF-8"), **how)
        if done.returncode != 0:
            told = (done.stderr or done.stdout).strip()[:300]
            raise Fault("%s ended with %d: %s" % (" ".join(words[:3]), done.returncode, told))
        return done.stdout

    def tool(self, name, *words):
        return self.run([sys.executable, os.path.join(TOOLS, name)] + list(words))

    def file(self, name, text):
        path = os.path.join(self.folder, name)
        with open(path, "w", encoding="utf-8") as file:
            file.write(text)
        return path

    def load_others(self):
        self.run(["ipset", "restore"], SETS_OF_OTHERS)
        self.run(["iptables-%s-restore" % self.backend], RULES_OF_OTHERS)

    def load_hook(self):
        self.run(["iptables-%s-restore" % self.backend, "--noflush"], HOOK)

    def tables(self, name, lines):
        """The file of what felix-replay prints of these resources."""
        text = (b"".join(lines) + ASKED).decode("ascii")
        return self.file(name, self.run([self.replay, "--node", drawn_resources.NODE], text))

    def found(self, printed=None):
        """The found line of what stands now."""
        saved = self.run(["ipset", "save"]) + self.run(["iptables-%s-save" % self.backend])
        return self.tool("found", *["--printed", printed] * bool(printed), self.file("saved", saved))

    def restored(self, found, lines):
        """What felix-restore says of it."""
        self.file("read", found + b"".join(lines).decode("ascii"))
        with open(os.path.join(self.folder, "read"), encoding="utf-8") as file:
            return self.run([self.restore, "--node", drawn_resources.NODE], file.read())

    def script(self, restored, tables, *words):
        read, wrote = os.path.join(self.folder, "read"), self.file("restored", restored)
        return self.tool("apply", "--tables", tables, "--found", read, "--backend", self.backend, wrote, *words)

    # ---- what is tried

    def lead(self, lines, tables, printed=None):
        """Does what is to be done, at once."""
        restored = self.restored(self.found(printed), lines)
        self.run(["sh"], self.script(restored, tables))
        self.counts["operations"] += len(Restored(restored, "felix-restore").operations)

    def lead_by_steps(self, lines, tables, printed=None):
        """Does what is to be done one by one, and looks after each at what stands."""
        found = self.found(printed)
        restored = self.restored(found, lines)
        operations = Restored(restored, "felix-restore").operations
        commands = self.script(restored, tables, "--each").split("\n# ")[1:]
        if len(commands) != len(operations):
            raise Fault("%d commands for %d operations" % (len(commands), len(operations)))
        now, goal = (NodeTables(map(bare, rows)) for rows in (rows_of(found), table_rows(tables)))
        for operation, command in zip(operations, commands):
            self.run(["sh"], "# " + command)
            now.do(operation, goal)
            differing = now.difference(NodeTables(rows_of(self.found())))
            if differing:
                raise Fault("after `%s` the %s isn't what it should be" % (" ".join(operation), differing))
        self.counts["operations"] += len(operations)
        self.counts["looked at"] += len(operations)

    def audit(self, lines, printed, when):
        found = self.found(printed)
        self.counts["rows"] += sum(map(is_own, rows_of(found)))
        self.counts["rows of others"] += sum(not is_own(row) for row in rows_of(found))
        restored = self.restored(found, lines)
        if restored != NOTHING:
            raise Fault("%s felix-restore says: %s" % (when, restored[:300]))
        self.counts["audits"] += 1

    def audit_without_printed(self, lines, tables):
        without_trace = {row.split(" ")[1] for row in table_rows(tables) if bare(row) != row}
        for word, name, _ in Restored(self.restored(self.found(), lines), "felix-restore").operations:
            if word != "write" or name not in without_trace:
                raise Fault("without --printed felix-restore says: %s %s" % (word, name))
            self.counts["written anew without --printed"] += 1

    def others(self):
        return [row for row in rows_of(self.found()) if not is_own(row)]


def rows_of(found):
    return json.loads(found)["found"]


def table_rows(path):
    with open(path, encoding="utf-8") as file:
        return last_tables(file.read(), path)


# ---- pairs

def try_pair(pair):
    with tempfile.TemporaryDirectory() as folder:
        node = Node(pair.backend, pair.replay, pair.restore, folder)
        try:
            try_on(node, pair)
            return Tried(pair, node.counts, [])
        except (Fault, InputError, OSError) as fault:
            return Tried(pair, node.counts, [str(fault)])


def try_on(node, pair):
    draw = random.Random(pair.seed)
    resources = drawn_resources.drawn(draw)
    first = drawn_resources.lines_of(resources)
    second = drawn_resources.lines_of(drawn_resources.changed(resources, draw))
    tables = node.tables("first", first), node.tables("second", second)
    if pair.backend == "nft" and any(map(is_refused_by_nft, tables)):
        node.counts["left out"] += 1
        return
    lead = node.lead_by_steps if pair.seed % 2 else node.lead
    node.load_others()
    lead(first, tables[0])
    node.load_hook()
    others = node.others()
    node.audit(first, tables[0], "where nothing changed")
    node.audit_without_printed(first, tables[0])
    lead(second, tables[1], tables[0])
    node.audit(second, tables[1], "after the operations")
    if node.others() != others:
        raise Fault("rows of others changed")
    node.counts["pairs"] += 1


def is_refused_by_nft(tables):
    return any(sign in row for row in table_rows(tables) for sign in REFUSED_BY_NFT)


def tell(backend, tried):
    counts = sum((one.counts for one in tried), collections.Counter())
    held = "`restored 0` where nothing changed and after the operations, rows of others as they were"
    print("{}: {:,} of {:,} pairs hold: {}".format(backend, counts["pairs"], len(tried) - counts["left out"], held))
    print("  {:,} audits with `restored 0`, of {:,} rows of ours beside {:,} of others".format(
        counts["audits"], counts["rows"], counts["rows of others"]))
    print("  {:,} operations done, and after each of {:,} what is saved is what they come to".format(
        counts["operations"], counts["looked at"]))
    print("  without --printed {:,} chains with a net of length 0 would be written anew, and nothing else".format(
        counts["written anew without --printed"]))
    if counts["left out"]:
        print("  {:,} more pairs left out for `! -s 0.0.0.0/0`, which iptables-nft refuses".format(counts["left out"]))
