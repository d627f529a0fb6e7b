"""YAML as it is read, and what is said of a text that is neither YAML nor JSON."""
import importlib.util
import sys
import unittest
from unittest import mock

from felix_tools import yaml_in
from felix_tools.reading import InputError, documents

IS_INSTALLED = importlib.util.find_spec("yaml") is not None


@unittest.skipUnless(IS_INSTALLED, "PyYAML isn't installed")
class Yaml(unittest.TestCase):
    def test_values_are_those_that_kubectl_reads(self):
        rows = [
            ("8080", 8080), ("010", 8), ("0x1F", 31), ("-7", -7), ("1e3", 1000.0), ("10.5", 10.5), (".5", 0.5),
            ("yes", True), ("Off", False), ("true", True), ("~", None), ("", None), ("null", None),
            ("'8080'", "8080"), ('"yes"', "yes"), ("10.0.0.0/8", "10.0.0.0/8"), ("1:30", "1:30"), ("1.2.3", "1.2.3"),
            ("2026-03-02T09:14:07Z", "2026-03-02T09:14:07Z"), ("|\n  8", "8\n"), ("[1, {b: c}]", [1, {"b": "c"}]), ("{}", {}),
        ]
        for text, value in rows:
            self.assertEqual(yaml_in.documents("a: %s\n" % text), [{"a": value}], text)

    def test_each_document_is_one_and_empty_ones_are_none(self):
        self.assertEqual(list(documents("---\na: 1\n---\n# nothing\n---\nb: 2\n", "f")), [{"a": 1}, {"b": 2}])

    def test_members_are_taken_over(self):
        text = "a: &x {p: 1, q: 2}\nb:\n  <<: *x\n  q: 3\nc: *x\n"
        self.assertEqual(yaml_in.documents(text), [{"a": {"p": 1, "q": 2}, "b": {"p": 1, "q": 3}, "c": {"p": 1, "q": 2}}])

    def test_what_is_no_yaml_names_its_place(self):
        for text, told in (("a: [1", "line 1, column 6"), ("a: 1\nb: c: d\n", "line 2, column 5"), ("a: *b\n", "undefined alias")):
            with self.assertRaisesRegex(InputError, "^f: .*" + told):
                list(documents(text, "f"))


class Texts(unittest.TestCase):
    def test_without_pyyaml_it_says_what_to_do(self):
        with mock.patch.dict(sys.modules, {"yaml": None}):
            self.assertEqual(list(documents('{"a": 1} [2]', "f")), [{"a": 1}, [2]])
            with self.assertRaisesRegex(InputError, "f: this isn't JSON. YAML is read by PyYAML, which isn't installed here"):
                list(documents("a: 1\n", "f"))

    def test_what_kubectl_says_beside_its_json_is_told_as_such(self):
        said = ("Warning: v1 ComponentStatus is deprecated in v1.19+", "W0312 09:14:07.123456    1234 loader.go:222] no kubeconfig",
                "E0312 09:14:07.1 memcache.go:265] couldn't get the list", "No resources found in shop namespace.",
                "Error from server (Forbidden): pods is forbidden", "error: the server doesn't have a resource type \"tiers\"",
                "Unable to connect to the server: EOF", "The connection to the server 127.0.0.1:6443 was refused")
        for line in said:
            with self.assertRaises(InputError) as raised:
                list(documents('%s\n{"kind": "List", "items": []}\n' % line, "dump.json"))
            self.assertIn("dump.json: begins with what kubectl says on standard error", str(raised.exception))
            self.assertIn("`%s`" % line, str(raised.exception))


if __name__ == "__main__":
    unittest.main()
