"""Answers of the program, rules as they were written, and their texts."""
import os
import unittest
from unittest import mock

from felix_tools import program
from felix_tools.answers import Answers
from felix_tools.asking import Asking
from felix_tools.cluster import Cluster, Outside, UnknownEnd
from felix_tools.conversion import PodLeftOut, convert
from felix_tools.pods import ON_HOST
from felix_tools.questions import QuestionError, Wish, port_traffic, traffic_of
from felix_tools.reading import Change
from felix_tools.resolving import resolve
from felix_tools.rule_words import rule_words, target
from felix_tools.rules import Place, place_of, place_words
from felix_tools.workloads import Workload
from felix_tools.yaml_text import yaml_lines

OUTPUT = """\
refused 3 5 Unsupported spec.ingress[0].http
policy _abc knp/shop/a-long-name in 1 out 0
policy gnp/t.g gnp/t.g in 1 out 0
profile kns.shop kns.shop in 1 out 1
endpoint cali1 shop/web in t(gnp/t.g);default(_abc,gnp/t.g) out - profiles kns.shop
endpoint cali2 shop/bare in - out - profiles -
flushed 5
create cali40s:x hash:net
add cali40s:x 10.0.0.0/8
*filter
:cali-FORWARD - [0:0]
-A cali-FORWARD -i cali+ -j cali-from-wl-dispatch
COMMIT
path cali-FORWARD:1 cali-pi-knp/shop/a:2
ingress cali1 policy knp/shop/a 2
verdict allow
flushed 0
path -
verdict deny
"""


class ReadAnswers(unittest.TestCase):
    def test_an_output(self):
        answers = Answers(OUTPUT)
        self.assertEqual(answers.refusals, [(3, 5, "Unsupported", "spec.ingress[0].http")])
        self.assertEqual(answers.endpoints["cali1"].tiers["ingress"],
                         [("t", ["gnp/t.g"]), ("default", ["knp/shop/a-long-name", "gnp/t.g"])])
        self.assertEqual(answers.endpoints["cali2"], ("shop/bare", {"ingress": [], "egress": []}, []))
        self.assertEqual(answers.sets, {"cali40s:x": ["10.0.0.0/8"]})
        self.assertEqual(answers.rule("cali-FORWARD", 1), "-i cali+ -j cali-from-wl-dispatch")
        first, second = answers.packets
        path = [("cali-FORWARD", 1), ("cali-pi-knp/shop/a", 2)]
        self.assertEqual(first, (path, {"ingress": ["cali1", "policy", "knp/shop/a", "2"]}, "allow", 1))
        self.assertEqual(second, ([], {}, "deny", 1))

    def test_tables_that_differ_are_not_those_of_the_packet(self):
        answers = Answers(OUTPUT + "flushed 1\n*filter\n:cali-FORWARD - [0:0]\nCOMMIT\n")
        self.assertNotEqual(answers.packets[0].state, answers.tables_state)


class KubernetesRules(unittest.TestCase):
    """The rules of a NetworkPolicy as docs/INPUT.md counts them: for each peer, and for each protocol of its ports."""
    POLICY = {"spec": {"ingress": [
        {},
        {"from": [{"podSelector": {}}, {"namespaceSelector": {}}]},
        {"from": [{"podSelector": {}}, {"ipBlock": {}}], "ports": [{"protocol": "UDP", "port": 53}, {"port": 53}, {"protocol": "UDP"}]},
        {"from": None, "ports": [{"protocol": "SCTP", "port": 7}]},
    ]}}

    def test_places(self):
        wanted = [Place(0, None, None), Place(1, 0, None), Place(1, 1, None), Place(2, 0, "TCP"), Place(2, 0, "UDP"),
                  Place(2, 1, "TCP"), Place(2, 1, "UDP"), Place(3, None, "SCTP")]
        found = [place_of("knp/a/p", self.POLICY, "ingress", number) for number in range(1, 9)]
        self.assertEqual(found, wanted)
        self.assertIsNone(place_of("knp/a/p", self.POLICY, "ingress", 9))
        self.assertIsNone(place_of("knp/a/p", self.POLICY, "egress", 1))

    def test_words(self):
        self.assertEqual(place_words("ingress", Place(2, 1, "UDP")), "ingress[2] (from[1], UDP)")
        self.assertEqual(place_words("egress", Place(0, None, None)), "egress[0]")

    def test_rules_of_calico_count_one_each(self):
        self.assertEqual(place_of("gnp/p", self.POLICY, "ingress", 3), Place(2, None, None))


class Texts(unittest.TestCase):
    def test_yaml(self):
        value = [{"action": "Allow", "source": {"nets": ["10.0.0.0/8"], "selector": "app == 'web'"},
                  "destination": {"ports": [80, "8000:8080"]}, "notNets": [], "quoted": "yes", "number": "80", "nothing": None,
                  "other": ["a: b", {"c": [[1]]}]}]
        self.assertEqual(yaml_lines(value), [
            "- action: Allow", "  source:", "    nets:", "    - 10.0.0.0/8", "    selector: app == 'web'", "  destination:", "    ports:",
            "    - 80", '    - "8000:8080"', "  notNets: []", '  quoted: "yes"', '  number: "80"', "  nothing: null",
            "  other:", '  - "a: b"', "  - c:", "    - - 1"])

    def test_rules_of_the_tables(self):
        rows = [
            ("-j MARK --set-xmark 0x0/0xf0000", "→ clear all four marks", None),
            ("-m mark --mark 0x10000/0x10000 -j RETURN", "if “accepted” → back", None),
            ("-m mark --mark 0x0/0x20000 -j cali-pi-gnp/p", "unless “passed” → cali-pi-gnp/p", "cali-pi-gnp/p"),
            ("-i cali12+ -g cali-from-wl-dispatch-2", "in by cali12… ⇒ cali-from-wl-dispatch-2", "cali-from-wl-dispatch-2"),
            ("-p tcp ! -s 10.0.0.0/8 -m multiport --dports 80,443 -j DROP", "tcp not from 10.0.0.0/8 port 80, 443 → DROP", None),
            ("-p 47 -m set ! --match-set cali40s:abcdefghij dst -j LOG", "protocol 47 not to set s:abcde… {10.0.0.1/32} → log", None),
            ("-m conntrack --ctstate RELATED,ESTABLISHED -j ACCEPT", "known connection → ACCEPT", None),
            ("-p icmp -m icmp --icmp-type 8/0 -j DROP", "icmp type 8/0 → DROP", None),
        ]
        for rule, words, led_to in rows:
            self.assertEqual(rule_words(rule, {"cali40s:abcdefghij": ["10.0.0.1/32"]}), words)
            self.assertEqual(target(rule), led_to)


def endpoint(name, node, interface, *nets, **more):
    return {"apiVersion": "projectcalico.org/v3", "kind": "WorkloadEndpoint", "metadata": {"name": name, "namespace": "a"},
            "spec": dict({"node": node, "interfaceName": interface, "ipNetworks": list(nets)}, **more)}


def cluster(*endpoints):
    return Cluster(convert([Change("put", resource, "a file") for resource in endpoints]).lines)


# Pods that have no endpoint: name, why, node and what they belong to.
PODS_LEFT_OUT = [
    ("agent-a", ON_HOST, "n1", "daemonset", "agent"), ("agent-b", ON_HOST, "n2", "daemonset", "agent"),
    ("report-a", "ended", "n1", "job", "report"), ("report-b", "not on a node yet", "", "job", "report"),
]


class Ends(unittest.TestCase):
    CLUSTER = cluster(
        endpoint("n1-k8s-web-eth0", "n1", "cali1", "10.0.0.1/32", "fd00::1/128", pod="web"),
        endpoint("db", "n2", "cali2", "10.0.0.2/32"),
        endpoint("n1-k8s-two-eth0", "n1", "cali3", "10.0.0.3/32", pod="two"),
        endpoint("n1-k8s-two-eth1", "n1", "cali4", "10.0.0.3/32", pod="two"),
        endpoint("six", "n1", "cali5", "fd00::5/128"))

    def test_names(self):
        self.assertEqual([end.interface for end in self.CLUSTER.ends("a/web")], ["cali1"])
        self.assertEqual([end.interface for end in self.CLUSTER.ends("a/n1-k8s-two-eth1")], ["cali4"])
        self.assertEqual([end.interface for end in self.CLUSTER.ends("a/*b")], ["cali1", "cali2"])
        self.assertEqual([end.interface for end in self.CLUSTER.ends("10.0.0.2")], ["cali2"])
        self.assertEqual(self.CLUSTER.ends("192.0.2.1"), [Outside("192.0.2.1")])

    def test_a_namespace_is_its_profile_and_the_last_put_stands(self):
        namespace = {"apiVersion": "v1", "kind": "Namespace", "metadata": {"name": "a"}}
        profile = {"apiVersion": "projectcalico.org/v3", "kind": "Profile", "metadata": {"name": "kns.a"}}
        for last, first in ((namespace, profile), (profile, namespace)):
            self.assertEqual(cluster(first, last).resource("projectcalico.org/v3", "Profile", "", "kns.a"), last)

    def test_names_that_fit_none_or_several(self):
        for name in ("a/two", "10.0.0.3", "a/wep", "web", "b/*", "300.1.1.1"):
            with self.assertRaises(UnknownEnd, msg=name):
                self.CLUSTER.ends(name)

    def test_why_a_name_is_none(self):
        rows = [
            ("web", "a pod is named NAMESPACE/POD; there is a/web"),
            ("www.example.com", "names of hosts aren't looked up"),
            ("300.1.1.1", "neither an address nor a name"),
        ]
        for name, wanted in rows:
            with self.assertRaisesRegex(UnknownEnd, wanted):
                self.CLUSTER.ends(name)

    def test_pods_without_an_endpoint_by_what_they_belong_to(self):
        found = Cluster([], {"x/%s" % name: PodLeftOut(why, node, ["192.0.2.%s" % node[1:]], Workload(kind, "x", own))
                             for name, why, node, kind, own in PODS_LEFT_OUT})
        self.assertEqual([end.node for end in found.ends("x/agent")], ["n1", "n2"])
        self.assertEqual([end.node for end in found.ends("daemonset/agent")], ["n1", "n2"])
        self.assertEqual([end.node for end in found.ends("x/agent-b")], ["n2"])
        self.assertTrue(found.is_on_host("x/agent"))
        self.assertFalse(found.is_on_host("x/report"))
        with self.assertRaisesRegex(UnknownEnd, r"the pods of x/report have no workload endpoint \(ended, not on a node yet\)"):
            found.ends("x/report")

    def test_what_is_asked_on_which_node(self):
        asking = Asking("no program", [], "eth0")
        traffic = port_traffic("TCP", 80)
        rows = [
            ("a/web", "a/db", [("n1", "cali1", "eth0"), ("n2", "eth0", "cali2")]),
            ("a/web", "192.0.2.1", [("n1", "cali1", "eth0")]),
            ("192.0.2.1", "a/db", [("n2", "eth0", "cali2")]),
            ("a/web", "a/n1-k8s-two-eth0", [("n1", "cali1", "cali3")]),
        ]
        for sender, receiver, wanted in rows:
            question, = resolve(Wish(sender, receiver, traffic, None, None), self.CLUSTER)
            found = [(run.node, packet["in"], packet["out"]) for run, packet in asking.packets_of(question)]
            self.assertEqual(found, wanted, (sender, receiver))

    def test_pairs_that_nothing_is_asked_of(self):
        traffic = port_traffic("TCP", 80)
        self.assertEqual(len(resolve(Wish("a/*b", "a/*b", traffic, None, None), self.CLUSTER)), 2)
        self.assertEqual(resolve(Wish("192.0.2.1", "192.0.2.2", traffic, None, None), self.CLUSTER), [])
        with self.assertRaisesRegex(QuestionError, "no IPv4 address"):
            resolve(Wish("a/six", "a/db", traffic, None, None), self.CLUSTER)

    def test_traffic(self):
        self.assertEqual(traffic_of(["udp", "53"], "here").members["dport"], 53)
        for words in (["tcp"], ["tcp", "65536"], ["icmp", "8"], ["0"], ["256"], ["x"]):
            with self.assertRaises(QuestionError, msg=words):
                traffic_of(words, "here")


class FindProgram(unittest.TestCase):
    def test_the_order(self):
        with mock.patch.dict(os.environ, {program.REPLAY.variable: "/from/environment"}):
            self.assertEqual(program.find("/given"), "/given")
            self.assertEqual(program.find(), "/from/environment")

    def test_a_program_that_fails(self):
        with self.assertRaisesRegex(program.ProgramError, "No such file"):
            program.run("/no/such/program", "n1", "")
        with mock.patch("subprocess.run", return_value=mock.Mock(returncode=5)):
            with self.assertRaisesRegex(program.ProgramError, "ended with 5: memory ran out"):
                program.run("program", "n1", "")


if __name__ == "__main__":
    unittest.main()
