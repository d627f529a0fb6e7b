"""What is expected of a cluster: lines, YAML and netassert's tests; and the reports of what holds."""
import collections
import importlib.util
import os
import tempfile
import unittest
import xml.etree.ElementTree

from felix_tools.assertions import read_assertions
from felix_tools.questions import QuestionError
from felix_tools.reports import junit_text, tap_lines

IS_INSTALLED = importlib.util.find_spec("yaml") is not None
Check = collections.namedtuple("Check", "title place holds is_failure is_error message why")
NETASSERT = """\
---
- name: web-to-db
  type: k8s
  protocol: tcp
  targetPort: 5432
  timeoutSeconds: 67
  attempts: 3
  exitCode: 1
  src:
    k8sResource:
      kind: deployment
      name: web
      namespace: shop
  dst:
    k8sResource:
      kind: statefulset
      name: db
      namespace: shop
- name: web-to-outside
  type: k8s
  protocol: udp
  targetPort: 53
  exitCode: 0
  src:
    k8sResource:
      kind: pod
      name: web-0
  dst:
    host:
      name: 192.0.2.53
"""


def read(text, must_expect=True):
    with tempfile.TemporaryDirectory() as folder:
        path = os.path.join(folder, "list")
        with open(path, "w", encoding="utf-8") as file:
            file.write(text)
        try:
            return [(it.wish.sender, it.wish.receiver, it.wish.traffic.words, it.expected, it.name) for it in read_assertions(path, must_expect)]
        except QuestionError as fault:
            return str(fault).replace(path, "list")


class Lines(unittest.TestCase):
    def test_forms(self):
        rows = [
            ("shop/web -> shop/db tcp/5432 deny", ("shop/web", "shop/db", "TCP 5432", False, None)),
            ("shop/web => 192.0.2.1 UDP/53 allowed", ("shop/web", "192.0.2.1", "UDP 53", True, None)),
            ("shop/* deployment/db sctp 7 allow  # why", ("shop/*", "deployment/db", "SCTP 7", True, None)),
            ("shop/app=web → shop/db icmp blocked", ("shop/app=web", "shop/db", "ICMP echo request", False, None)),
            ("shop/web -> shop/db 47 Deny", ("shop/web", "shop/db", "protocol 47", False, None)),
        ]
        for line, wanted in rows:
            self.assertEqual(read("# these\n\n%s\n" % line), [wanted], line)

    def test_a_line_that_only_asks(self):
        wanted = [("a/b", "a/c", "TCP 80", None, None), ("a/b", "a/c", "TCP 81", True, None)]
        self.assertEqual(read("a/b a/c tcp 80\na/b a/c tcp 81 allow\n", must_expect=False), wanted)

    def test_what_is_no_assertion_names_its_line(self):
        rows = [
            ("a/b -> a/c tcp/80", "list, line 2: `tcp/80` is no verdict: allow or deny"),
            ("a/b -> a/c tcp/80 maybe", "list, line 2: `maybe` is no verdict: allow or deny"),
            ("a/b -> a/c deny", "list, line 2: a line has FROM -> TO TRAFFIC"),
            ("a/b ->", "list, line 2: a line has FROM -> TO TRAFFIC"),
            ("a/b -> a/c tcp/x/y deny", "list, line 2: `tcp x y` is no protocol"),
            ("", "list: nothing is in it; a line has FROM"),
        ]
        for line, told in rows:
            self.assertTrue(read("# first\n%s\n" % line).startswith(told), (line, read("# first\n%s\n" % line)))


@unittest.skipUnless(IS_INSTALLED, "PyYAML isn't installed")
class Yaml(unittest.TestCase):
    def test_our_members(self):
        text = "- from: shop/web\n  to: shop/db\n  traffic: tcp/5432\n  verdict: deny\n  name: not by itself\n"
        wanted = [("shop/web", "shop/db", "TCP 5432", False, "not by itself")]
        for front in ("", "---\n", "# a head\n---\n"):
            self.assertEqual(read(front + text), wanted)
        self.assertEqual(read("from: a/b\nto: a/c\ntraffic: 47\nverdict: allow\n"), [("a/b", "a/c", "protocol 47", True, None)])
        self.assertEqual(read('[{"from": "a/b", "to": "a/c", "traffic": "icmp", "verdict": "allow"}]'),
                         [("a/b", "a/c", "ICMP echo request", True, None)])

    def test_netasserts_tests(self):
        self.assertEqual(read(NETASSERT), [
            ("shop/deployment/web", "shop/statefulset/db", "TCP 5432", False, "web-to-db"),
            ("default/pod/web-0", "192.0.2.53", "UDP 53", True, "web-to-outside"),
        ])

    def test_what_is_no_assertion_names_its_item(self):
        whole = "- {from: a/b, to: a/c, traffic: icmp, verdict: deny}\n"
        rows = [
            ("- {from: a/b, too: a/c, traffic: icmp, verdict: deny}", "list, item 2: unknown field `too`, no `to`"),
            ("- {from: a/b, to: a/c, traffic: icmp, verdict: never}", "list, item 2: `never` is no verdict"),
            ("- a/b", "list, item 2: an assertion has the members"),
            ("- {src: {}, dst: {}, protocol: tcp, targetPort: 1}", "list, item 2: an end of netassert has"),
            ("- {src: {}, dst: {}, protocol: tcp, targetPort: http}", "list, item 2: a test of netassert has `protocol`"),
        ]
        for line, told in rows:
            self.assertTrue(read(whole + line + "\n").startswith(told), read(whole + line + "\n"))


class Reports(unittest.TestCase):
    CHECKS = [
        Check("shop/web -> shop/db #1", "list, line 1", True, False, False, "", []),
        Check("a <b>", "list, line 2", False, True, False, "expected denied, and it's allowed", ["denied & \x01", "  by 'x'"]),
        Check("c", "it's here", False, False, True, "nobody knows", ["why"]),
    ]

    def test_tap(self):
        self.assertEqual(tap_lines(self.CHECKS), [
            "TAP version 13", "1..3", "ok 1 - shop/web -> shop/db \\#1", "not ok 2 - a <b>", "  ---", "  at: 'list, line 2'", "  message: |",
            "    denied & \x01", "      by 'x'", "  ...", "not ok 3 - c", "  ---", "  at: 'it''s here'", "  message: |", "    why", "  ..."])

    def test_junit(self):
        suite, = xml.etree.ElementTree.fromstring(junit_text(self.CHECKS, 'a "list"').encode("utf-8"))
        self.assertEqual(suite.attrib, {"name": 'a "list"', "tests": "3", "failures": "1", "errors": "1", "skipped": "0"})
        self.assertEqual([(case.get("classname"), case.get("name")) for case in suite], [(it.place, it.title) for it in self.CHECKS])
        told = [[(it.tag, it.get("message"), it.text) for it in case] for case in suite]
        self.assertEqual(told, [[], [("failure", "expected denied, and it's allowed", "denied & ?\n  by 'x'")], [("error", "nobody knows", "why")]])


if __name__ == "__main__":
    unittest.main()
