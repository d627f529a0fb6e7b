"""A node's own tables: what is saved of them, and what is done to them."""
import contextlib
import io
import json
import os
import subprocess
import tempfile
import unittest
from unittest import mock

import kernel
from felix_tools import apply, found, program
from felix_tools.node_tables import NodeTables, Restored, last_tables
from felix_tools.reading import InputError
from felix_tools.saved_rules import BUILT_IN, Unread, member_text, rule_text, type_text

TESTS = os.path.dirname(os.path.abspath(__file__))
NODE = os.path.join(TESTS, "data", "node")
PORTS, NETS = "cali40n:" + 23 * "A", "cali40s:" + 23 * "A"
# Each loads as something that no rule of the tables loads as, or in the place of which two would have to stand.
UNREAD_RULES = """\
-m comment --comment cali -j DROP
-p tcp -m tcp --dport 80 -j DROP
-m state --state INVALID -j DROP
-m conntrack --ctstate NEW -j DROP
-m conntrack ! --ctstate INVALID -j DROP
-m mark ! --mark 0x1/0x1 -j DROP
-m mark --mark 1/1 -j DROP
-p tcp -m multiport --ports 80 -j DROP
-p tcp -m multiport --dports 5:5 -j DROP
-p tcp -m multiport --dports 80:79 -j DROP
-p tcp -m multiport --dports 65536 -j DROP
-p icmp -m icmp --icmp-type any -j DROP
-p icmp -m icmp --icmp-type 255 -j DROP
-p icmp -m icmp --icmp-type 8/256 -j DROP
-p unheard-of -j DROP
-p 0 -j DROP
-p 256 -j DROP
-s 10.0.0.1/8 -j DROP
-s 10.0.0.0/255.0.255.0 -j DROP
-s 10.0.0.0/33 -j DROP
-s 10.0.0 -j DROP
-s fd00::/8 -j DROP
-s 10.0.0.1/32 -s 10.0.0.2/32 -j DROP
! -i cali1 -j DROP
-f -j DROP
-m conntrack --ctstate INVALID -m mark --mark 0x1/0x1 -j DROP
-m mark --mark 0x1/0x1 -m mark --mark 0x2/0x2 -j DROP
-m set --match-set {ports} dst,dst -m set --match-set {ports} src,src -j DROP
-m set --match-set {nets} src,src -j DROP
-m set --match-set {nets} src --return-nomatch -j DROP
-m set --match-set others src -j DROP
-j LOG --log-prefix cali
-j LOG --log-level 6
-j MARK --set-mark 0x1
-j MARK --set-xmark 0x1/0x1 -j DROP
-j REJECT --reject-with icmp-port-unreachable
-j "cali-x"
! -j DROP
-m mark
-j

""".format(ports=PORTS, nets=NETS).split("\n")[:-1]
UNREAD_MEMBERS = (
    ("hash:net", "10.0.0.0/8 nomatch"), ("hash:net", "10.0.0.0/8 timeout 9"), ("hash:net", "10.0.0.1/8"),
    ("hash:net", "fd00::/8"), ("hash:ip,port", "10.0.0.1,icmp:8/0"), ("hash:ip,port", "10.0.0.1,80"),
    ("hash:ip,port", "10.0.0.1,tcp:http"), ("hash:ip,port", "10.0.0.1,tcp:080"), ("hash:ip,port", "fd00::1,tcp:80"),
    ("hash:ip,port", "10.0.0.1,tcp:80 packets 1 bytes 60"),
)
UNREAD_TYPES = (
    "family inet6", "family inet maxelem 1024", "family inet timeout 0", "counters", "family inet comment",
    "family inet family inet",
)

EMPTY_FILTER = "*filter\nCOMMIT\n"
NO_OPERATIONS = (
    "create %s hash:ip" % NETS, "create a; hash:net", "add %s 10.0.0.1/32; reboot" % NETS, "add %s $(reboot)" % NETS,
    "destroy %s " % NETS, "destroy cali40s:x", "write cali-x", "write cali-$(reboot) 1", "write FORWARD 1",
    "delete cali-x 1", "delete cali-" + 24 * "x", "flush", "",
)
# Writes down its name, its words and its input, and fails if it is the command that is to fail.
STAND_IN = "#!/bin/sh\nname=${0##*/}\necho \"$name $*\" >> $ROOM/ran\ncat >> $ROOM/ran\n[ $name != \"$FAILING\" ]\n"


def saved_of(text, **more):
    saved = found.Saved(BUILT_IN)
    saved.take_text(text if isinstance(text, bytes) else text.encode("utf-8"))
    return saved, saved.rows(more.get("may_be_empty", False))


def told(work, *words):
    """The status, and what is told on standard error."""
    with contextlib.redirect_stderr(io.StringIO()) as error:
        status = work(*words)
    return status, error.getvalue()


def stored(name):
    with open(os.path.join(NODE, name), encoding="utf-8") as file:
        return file.read()


class Found(unittest.TestCase):
    def test_what_has_no_text_of_the_tables_keeps_its_own(self):
        for text in UNREAD_RULES:
            self.assertRaises(Unread, rule_text, text, BUILT_IN)
        for kind, text in UNREAD_MEMBERS:
            self.assertRaises(Unread, member_text, kind, text, BUILT_IN)
        for text in UNREAD_TYPES:
            self.assertRaises(Unread, type_text, NETS, "hash:net", text.split(" "))
        for name, kind in ((NETS, "hash:ip"), (NETS, "hash:ip,port"), ("cali40all-ipam-pools", "hash:net")):
            self.assertRaises(Unread, type_text, name, kind, [])

    def test_printed_tables_are_as_they_are_saved(self):
        for name in ("first.tables", "second.tables"):
            tables = last_tables(stored(name), name)
            self.assertEqual(saved_of("\n".join(tables))[1], tables)

    def test_both_backends_and_the_printed_tables_agree(self):
        for name in ("found-nft", "found-legacy"):
            with open(os.path.join(TESTS, "cases", name, "stdout"), encoding="utf-8") as file:
                rows = json.load(file)["found"]
            self.assertIsNone(NodeTables(rows).difference(NodeTables(last_tables(stored("first.tables"), name))), name)

    def test_a_chain_that_differs_in_more_than_nets_of_length_0_keeps_its_rules(self):
        printed = [
            "-A cali-a -s 0.0.0.0/0 -j DROP", "-A cali-b -d 0.0.0.0/0 -j cali-a", "-A cali-c ! -s 0.0.0.0/0 -j DROP",
        ]
        rows = ["-A cali-a -j DROP", "-A cali-b -j cali-c", "-A cali-c ! -d 0.0.0.0/0 -j DROP", "-A cali-d -j DROP"]
        self.assertEqual(found.with_printed_rules(rows, printed), printed[:1] + rows[1:])
        self.assertEqual(found.with_printed_rules(rows[:1] * 2, printed), rows[:1] * 2)

    def test_what_is_no_whole_filter_table(self):
        unreadable = "# Table `filter' is incompatible, use 'nft' tool.\n"
        for text in (EMPTY_FILTER * 2, "*filter\n-A INPUT -j DROP\n", "*nat\nCOMMIT\n", unreadable):
            self.assertRaises(InputError, saved_of, text)
        rows = saved_of("create a hash:ip\n", may_be_empty=True)[1]
        self.assertEqual(rows, ["create a hash:ip", "*filter", "COMMIT"])

    def test_rows_that_are_no_rows(self):
        sets = b"create a hash:ip comment\nadd a 10.0.0.1 comment \"\xff\"\nipset v7.17: an error\n"
        saved, rows = saved_of(sets + EMPTY_FILTER.encode("ascii"))
        self.assertEqual((saved.unread, saved.other_bytes), ({"ipset v7.17: an error"}, 1))
        self.assertEqual(rows[1], 'add a 10.0.0.1 comment "\\xff"')

    def test_the_limit_of_a_line(self):
        saved, rows = saved_of(EMPTY_FILTER)
        refused = "it refuses this one (20 LineTooLong)\n"
        near = "4,194,304 at most\n"
        for size, status, end in ((3774873, 0, ""), (3774874, 0, near), (4194304, 0, near), (4194305, 1, refused)):
            ended, remark = told(found.tell, saved, rows, size)
            self.assertEqual((ended, bool(remark)), (status, bool(end)))
            self.assertTrue(remark.endswith(end), remark)


class Apply(unittest.TestCase):
    def apply(self, restored, tables, *words):
        """The status of tools/apply on these texts, what it writes, and what it tells."""
        with tempfile.TemporaryDirectory() as room:
            paths = [os.path.join(room, name) for name in ("tables", "restored")]
            for path, text in zip(paths, (tables, restored)):
                with open(path, "w", encoding="utf-8") as file:
                    file.write(text)
            with contextlib.redirect_stdout(io.StringIO()) as output:
                status, error = told(apply.main, ["--tables"] + paths + list(words))
            return status, output.getvalue(), error

    def test_lines_that_are_no_operations(self):
        for line in NO_OPERATIONS:
            self.assertRaises(InputError, Restored, "%s\nrestored 1\n" % line, "here")

    def test_an_output_that_is_not_whole(self):
        wrong_counts = ("restored 1\n", "delete cali-x\nrestored 0\n", "restored 0\nrestored 0\n")
        for text in ("", "delete cali-x\n", "restored 0") + wrong_counts:
            self.assertRaises(InputError, Restored, text, "here")

    def test_a_set_of_many_members_gets_room(self):
        for count, room in ((65536, ""), (65537, " maxelem 131072")):
            adds = "".join("add %s 10.%d.%d.%d/32\n" % (NETS, n >> 16, n >> 8 & 255, n & 255) for n in range(count))
            made = "create %s hash:net\n" % NETS
            _, script, _ = self.apply("%s%srestored %d\n" % (made, adds, count + 1), EMPTY_FILTER)
            self.assertIn("\ncreate %s hash:net%s\n" % (NETS, room), script)
        _, script, _ = self.apply(made + "restored 1\n", EMPTY_FILTER, "--maxelem", "70000")
        self.assertIn("\ncreate %s hash:net maxelem 70000\n" % NETS, script)

    def test_what_nft_refuses_is_told(self):
        tables = "*filter\n:cali-a - [0:0]\n-A cali-a %s -j DROP\nCOMMIT\n"
        rules = {"! -s 0.0.0.0/0": True, "-p tcp ! -d 0.0.0.0/0": True, "-s 0.0.0.0/0": False, "! -s 10.0.0.0/8": False}
        for rule, is_told in rules.items():
            status, _, error = self.apply("write cali-a 1\nrestored 1\n", tables % rule)
            self.assertEqual((status, "iptables-nft refuses" in error), (0, is_told), rule)

    def test_refused_resources_are_applied_only_if_asked(self):
        refused = stored("refused.restored").replace("restored 0", "delete cali-x\nrestored 1")
        self.assertEqual(self.apply(refused, EMPTY_FILTER)[:2], (3, ""))
        status, script, error = self.apply(refused, EMPTY_FILTER, "--although-refused")
        self.assertEqual((status, "-X cali-x\n" in script), (0, True))
        self.assertIn("refused 2 5 Unsupported", error)

    def test_the_script_gives_each_command_its_input_and_ends_at_a_failure(self):
        whole = self.ran("")
        self.assertEqual([line for line in whole.split("\n") if "restore" in line],
                         ["ipset restore", "iptables-nft-restore --wait --noflush", "ipset restore"])
        member = "cali40s:F-mgxqjCXfWXau7Rb7n3njN 203.0.113.7/32"
        self.assertIn("\n-X cali-po-np/shop/db\nCOMMIT\nipset restore\ndel %s\n" % member, whole)
        for failing, end in (("ipset", "iptables-nft-restore"), ("iptables-nft-restore", "ipset restore\ndel ")):
            self.assertEqual(self.ran(failing), whole[:whole.index(end)])

    def ran(self, failing):
        """What the commands of a script were given, up to the one that fails."""
        with open(os.path.join(TESTS, "cases", "apply-change", "stdout"), encoding="utf-8") as file:
            script = file.read()
        with tempfile.TemporaryDirectory() as room:
            for command in ("ipset", "iptables-nft-restore"):
                path = os.path.join(room, command)
                with open(path, "w", encoding="utf-8") as file:
                    file.write(STAND_IN)
                os.chmod(path, 0o755)
            environment = dict(os.environ, PATH=room + ":" + os.environ["PATH"], ROOM=room, FAILING=failing)
            done = subprocess.run(["sh"], input=script, env=environment, universal_newlines=True)
            self.assertEqual(done.returncode == 0, not failing)
            with open(os.path.join(room, "ran"), encoding="utf-8") as file:
                return file.read()


class Programs(unittest.TestCase):
    """The stored texts of both programs, where these are built."""

    def answer(self, which, text):
        path = program.path_if_built(which)
        if not path:
            self.skipTest("%s isn't built" % which.name)
        done = program.run_bytes(path, "n1", text.encode("utf-8"))
        self.assertIn(done.returncode, (0, 1))
        return done.stdout.decode("utf-8")

    def test_tables(self):
        for name in ("first", "second"):
            asked = stored(name + ".jsonl") + '{"flush":{}}\n{"tables":true}\n'
            self.assertEqual(self.answer(program.REPLAY, asked), stored(name + ".tables"))

    def test_operations(self):
        lines = {"empty": '{"found":[]}\n'}
        for case in ("nft", "legacy", "calico"):
            with open(os.path.join(TESTS, "cases", "found-" + case, "stdout"), encoding="utf-8") as file:
                lines[case] = file.read()
        runs = (
            ("empty", "first", "first"), ("nft", "second", "second"), ("legacy", "second", "second"),
            ("nft", "first", "nothing"), ("legacy", "first", "nothing"), ("calico", "first", "waiting"),
        )
        for line, resources, answer in runs:
            written = self.answer(program.RESTORE, lines[line] + stored(resources + ".jsonl"))
            self.assertEqual(written, stored(answer + ".restored"), (line, resources))
        refused = lines["nft"] + stored("refused.jsonl") + stored("first.jsonl")
        self.assertEqual(self.answer(program.RESTORE, refused), stored("refused.restored"))


class Kernel(unittest.TestCase):
    def test_what_is_missing_is_told(self):
        options = mock.Mock(program=None, restore=None)
        with mock.patch("os.geteuid", return_value=1), mock.patch("shutil.which", return_value=None), \
                mock.patch.object(program, "path_if_built", return_value=None), mock.patch.dict(os.environ), \
                contextlib.redirect_stdout(io.StringIO()) as output:
            self.assertEqual(kernel.main(options), 1)
        for word in ("root", "the command ipset", "no command iptables-nft-save", "felix-replay", "felix-restore"):
            self.assertRegex(output.getvalue(), "(?m)^  .*" + word)

    def test_a_namespace_that_is_the_machines_own_is_refused(self):
        with mock.patch("ctypes.CDLL", return_value=mock.Mock(unshare=mock.Mock(return_value=0))):
            self.assertRaises(kernel.Fault, kernel.enter_new_network)
        with mock.patch("ctypes.CDLL", return_value=mock.Mock(unshare=mock.Mock(return_value=-1))):
            self.assertRaises(OSError, kernel.enter_new_network)


if __name__ == "__main__":
    unittest.main()
