"""Which pods are asked about together, and which answers are one row."""
import collections
import os
import re
import unittest

from felix_tools.cluster import Cluster
from felix_tools.conversion import convert
from felix_tools.progress import Progress
from felix_tools.questions import Question, Wish, name_of, port_traffic
from felix_tools.reading import Change
from felix_tools.replicas import Cells, Replicas, merged, net_of, pairs_of
from felix_tools.resolving import resolve
from felix_tools.verdicts import Answer, verdict_of

CASES = os.path.join(os.path.dirname(os.path.abspath(__file__)), "cases")
TCP = port_traffic("TCP", 80)


def pod(name, address, labels=None, owner="web", node="n1", **spec):
    return {
        "apiVersion": "v1", "kind": "Pod",
        "metadata": {"name": name, "namespace": "a", "labels": labels or {"app": "web"}, "ownerReferences": [{"kind": "StatefulSet", "name": owner}]},
        "spec": dict({"nodeName": node, "containers": []}, **spec), "status": {"podIP": address, "hostIP": "192.0.2.1"},
    }


def policy(*nets):
    return {"apiVersion": "networking.k8s.io/v1", "kind": "NetworkPolicy", "metadata": {"name": "p", "namespace": "a"},
            "spec": {"podSelector": {}, "ingress": [{"from": [{"ipBlock": {"cidr": net}} for net in nets]}]}}


def cluster(*resources):
    return Cluster(convert([Change("put", resource, "a file") for resource in resources]).lines)


def crowds(*resources):
    made = cluster(*resources)
    return [[end.name for end in crowd] for crowd in Replicas(made).crowds(made.endpoints)]


class Alike(unittest.TestCase):
    def test_what_tells_pods_apart(self):
        one = pod("web-0", "10.0.0.1")
        rows = [
            (pod("web-1", "10.0.0.2"), True),
            (pod("web-1", "10.0.0.2", node="n2"), True),
            (pod("web-1", "10.0.0.2", owner="api"), False),
            (pod("web-1", "10.0.0.2", labels={"app": "web", "x": "y"}), False),
            (pod("web-1", "10.0.0.2", serviceAccountName="b"), False),
            (pod("web-1", "10.0.0.2", containers=[{"ports": [{"name": "http", "containerPort": 80}]}]), False),
            (pod("web-1", "10.0.0.1"), False),
            (pod("web-1", "10.0.0.9"), False),
        ]
        for other, are_alike in rows:
            self.assertEqual(len(crowds(one, other, policy("10.0.0.8/31"))), 1 if are_alike else 2, other)

    def test_nets_count_as_far_as_they_have_the_addresses(self):
        pods = [pod("web-%d" % number, "10.0.%d.1" % number) for number in range(4)]
        self.assertEqual(crowds(*pods, policy("10.1.0.0/16", "10.0.0.0/8")), [["a/web-0", "a/web-1", "a/web-2", "a/web-3"]])
        self.assertEqual(crowds(*pods, policy("10.0.1.0/24", "10.0.2.0/24")), [["a/web-0", "a/web-3"], ["a/web-1"], ["a/web-2"]])

    def test_cells(self):
        cells = Cells([net_of(text) for text in ("10.0.0.0/24", "10.0.0.128/25", "10.0.2.0/24", "10.0.0.7", "0.0.0.0/0")])
        addresses = ["10.0.0.1", "10.0.0.200", "10.0.0.7", "10.0.1.1", "10.0.2.255", "10.0.3.0", "255.255.255.255", "0.0.0.0"]
        found = [cells.of(address) for address in addresses]
        self.assertEqual([found.index(cell) for cell in found], [0, 1, 2, 3, 4, 3, 3, 3])
        self.assertEqual([net_of(text) for text in ("a", "fd00::/8", "80", "")], [None] * 4)


class Questions(unittest.TestCase):
    RESOURCES = [pod("web-%d" % number, "10.0.0.%d" % number) for number in range(3)] + [pod("api-0", "10.0.0.9", {"app": "api"}, "api")]

    def asked(self, sender, receiver):
        made = cluster(*self.RESOURCES)
        found = resolve(Wish(sender, receiver, TCP, None, None), made, Replicas(made))
        return [(name_of(it.sender), name_of(it.receiver), len(it.senders), len(it.receivers), pairs_of(it)) for it in found]

    def test_pods_that_are_alike_are_asked_about_once(self):
        self.assertEqual(self.asked("a/*", "a/*"), [
            ("a/web-0", "a/web-2", 3, 3, 6), ("a/web-0", "a/api-0", 3, 1, 3), ("a/api-0", "a/web-2", 1, 3, 3)])

    def test_no_pod_is_asked_about_itself_in_the_place_of_others(self):
        self.assertEqual(self.asked("a/web-2", "a/web"), [("a/web-2", "a/web-0", 1, 3, 2)])
        self.assertEqual(self.asked("a/web-0", "a/web"), [("a/web-0", "a/web-2", 1, 3, 2)])
        self.assertEqual(self.asked("a/web", "a/web-0"), [("a/web-1", "a/web-0", 3, 1, 2)])
        self.assertEqual(self.asked("a/web", "a/web-2"), [("a/web-0", "a/web-2", 3, 1, 2)])
        self.assertEqual(self.asked("a/web-0", "a/web-0"), [("a/web-0", "a/web-0", 1, 1, 1)])

    def test_a_node_knows_its_own_pods(self):
        self.assertEqual([row[:2] for row in self.asked("192.0.2.1", "a/web")], [("192.0.2.1", "a/web-%d" % number) for number in range(3)])
        self.assertEqual(self.asked("192.0.2.2", "a/web"), [("192.0.2.2", "a/web-2", 1, 3, 3)])


Pod = collections.namedtuple("Pod", "name id workload")


class Names:
    """A cluster of two workloads of three pods."""
    PODS = {workload: [Pod("a/%s-%d" % (workload, number), "%s-%d" % (workload, number), workload) for number in range(3)]
            for workload in ("web", "db")}

    def pods_of(self, workload):
        return self.PODS[workload]

    def name_of_workload(self, workload):
        return "a/" + workload


class Rows(unittest.TestCase):
    def rows(self, verdict):
        """The rows of a table of all pairs of pods, with their verdicts."""
        pods = [pod for pods in Names.PODS.values() for pod in pods]
        answers = [Answer(Question(a, b, "", "", TCP, "", (), (a,), (b,)), verdict(a.id, b.id), []) for a in pods for b in pods if a != b]
        return [((it.question.names or (it.question.sender.name, it.question.receiver.name)), it.verdict) for it in merged(answers, Names(), verdict_of)]

    def test_equal_answers_are_one_row(self):
        whole = ["a/web (3 pods)", "a/db (3 pods)"]
        self.assertEqual(self.rows(lambda a, b: "denied"), [((a, b), "denied") for a in whole for b in whole])

    def test_a_pod_that_differs_stands_by_itself(self):
        rows = self.rows(lambda a, b: "allowed" if (a, b[:2]) == ("web-1", "db") else "denied")
        self.assertEqual([row for row in rows if row[0][1].startswith("a/db")], [
            (("a/web (2 of 3 pods: web-0, web-2)", "a/db (3 pods)"), "denied"),
            (("a/web-1", "a/db (3 pods)"), "allowed"),
            (("a/db (3 pods)", "a/db (3 pods)"), "denied")])

    def test_each_row_says_what_each_of_its_pairs_says(self):
        rules = [
            lambda a, b: "allowed" if a < b else "denied",
            lambda a, b: "allowed" if a[-1] == b[-1] else "denied",
            lambda a, b: "allowed" if a == "web-0" or b == "web-0" else "denied",
            lambda a, b: "allowed" if (int(a[-1]) + int(b[-1])) % 2 else "denied",
            lambda a, b: "allowed" if (a, b) == ("web-0", "web-1") else "denied",
        ]
        for number, verdict in enumerate(rules):
            pods = [pod for pods in Names.PODS.values() for pod in pods]
            answers = [Answer(Question(a, b, "", "", TCP, "", (), (a,), (b,)), verdict(a.id, b.id), []) for a in pods for b in pods if a != b]
            told = [(a.id, b.id, it.verdict) for it in merged(answers, Names(), verdict_of)
                    for a in it.question.senders for b in it.question.receivers if a != b]
            self.assertEqual(sorted(told), sorted((it.question.sender.id, it.question.receiver.id, it.verdict) for it in answers), number)

    def test_the_stored_tables_agree(self):
        """The table of workloads says of each pair of pods what the table of each pod says."""
        rows, columns = table("matrix-workloads")
        each, pods = table("matrix-each-pod")
        self.assertEqual((len(each), len(pods)), (14, 14))
        for sender, marks in each.items():
            for receiver, mark in zip(pods, marks):
                if sender != receiver:
                    wanted = rows[row_of(sender, rows)][columns.index(row_of(receiver, columns))]
                    self.assertEqual(mark, wanted, (sender, receiver))


def table(name):
    """The first table of a stored answer: marks by the label of the row, and the labels of the columns."""
    with open(os.path.join(CASES, name, "stdout"), encoding="utf-8") as file:
        lines = file.read().partition("TCP 8080")[0].split("\n")
    rows = {found[1].strip(): found[2].split() for found in (re.match(r" *(?:\d+ )?(\w\S*/.*?)((?:  [-+.?])+)$", line) for line in lines) if found}
    columns = [found[1] for found in (re.match(r" +[A-Z] (\w\S*/.*)$", line) for line in lines) if found]
    return rows, columns or list(rows)


def row_of(pod, labels):
    """The label of the row in which a pod stands: its own, or its workload's."""
    front = pod.rpartition("-")[0]
    own = [label for label in labels if label == pod]
    return (own or [label for label in labels if " (" in label and (front + "-").startswith(label.partition(" (")[0] + "-")])[0]


class Stream:
    def __init__(self, is_terminal):
        self.is_terminal = is_terminal
        self.written = ""

    def isatty(self):
        return self.is_terminal

    def write(self, text):
        self.written += text

    def flush(self):
        pass


class Watched(unittest.TestCase):
    def test_progress_is_for_a_terminal(self):
        for is_terminal, total, wanted in ((True, 3, "\r\033[K0 of 3 nodes\r\033[K1 of 3 nodes\r\033[K"), (False, 3, ""), (True, 1, "")):
            stream = Stream(is_terminal)
            with Progress(total, "nodes", stream=stream) as progress:
                progress.step()
            self.assertEqual(stream.written, wanted)


if __name__ == "__main__":
    unittest.main()
