"""Answers as JSON, against the form that docs/answers.schema.json describes."""
import importlib.util
import json
import os
import unittest

TESTS = os.path.dirname(os.path.abspath(__file__))
CASES = os.path.join(TESTS, "cases")
SCHEMA = os.path.join(os.path.dirname(os.path.dirname(TESTS)), "docs", "answers.schema.json")
# The words of the schema that `Form` knows, and those that say nothing about a value.
KNOWN = {"$ref", "type", "enum", "const", "oneOf", "required", "properties", "additionalProperties", "items", "minItems", "minimum",
         "maximum", "pattern"}
SILENT = {"description", "title", "$schema", "definitions"}
TYPES = {"object": dict, "array": list, "string": str, "boolean": bool, "integer": int, "null": type(None)}


def read(*path):
    with open(os.path.join(*path), encoding="utf-8") as file:
        return json.load(file)


def stored():
    """The stored answers that are JSON, by the name of their case."""
    found = {}
    for name in sorted(os.listdir(CASES)):
        with open(os.path.join(CASES, name, "command"), encoding="utf-8") as file:
            if "--json" in file.read().split():
                found[name] = read(CASES, name, "stdout")
    return found


class Form:
    """As much of JSON Schema as this one schema has: what of a value isn't of the form, by its place."""

    def __init__(self, schema):
        self.schema = schema

    def faults(self, value, form=None, place=""):
        form = self.schema if form is None else form
        assert set(form) <= KNOWN | SILENT, set(form)
        if "$ref" in form:
            return self.faults(value, self.schema["definitions"][form["$ref"].rpartition("/")[2]], place)
        found = [place + ": " + word for word in ("type", "enum", "const", "minimum", "maximum") if not getattr(self, word)(value, form)]
        if "oneOf" in form and sum(not self.faults(value, one, place) for one in form["oneOf"]) != 1:
            found.append(place + ": oneOf")
        if isinstance(value, dict):
            found += self.of_object(value, form, place)
        if isinstance(value, list):
            found += [fault for number, item in enumerate(value) for fault in self.faults(item, form.get("items", {}), "%s[%d]" % (place, number))]
            found += [place + ": minItems"] if len(value) < form.get("minItems", 0) else []
        return found

    def of_object(self, value, form, place):
        members = form.get("properties", {})
        found = ["%s.%s: absent" % (place, name) for name in form.get("required", []) if name not in value]
        if form.get("additionalProperties") is False:
            found += ["%s.%s: unknown" % (place, name) for name in value if name not in members]
        return found + [fault for name, item in value.items() if name in members for fault in self.faults(item, members[name], place + "." + name)]

    def type(self, value, form):
        names = form.get("type", [])
        return not names or any(type(value) is TYPES[name] for name in ([names] if isinstance(names, str) else names))

    def enum(self, value, form):
        return value in form.get("enum", [value])

    def const(self, value, form):
        return value == form.get("const", value)

    def minimum(self, value, form):
        return "minimum" not in form or value >= form["minimum"]

    def maximum(self, value, form):
        return "maximum" not in form or value <= form["maximum"]


class Json(unittest.TestCase):
    def test_stored_answers_are_of_the_form(self):
        form = Form(read(SCHEMA))
        self.assertEqual({answer["kind"] for answer in stored().values()}, {"ask", "policies", "diff", "check"})
        for name, answer in stored().items():
            self.assertEqual(form.faults(answer), [], name)

    def test_what_is_not_of_the_form_is_found(self):
        form, answer = Form(read(SCHEMA)), stored()["ask-json"]
        for change in (lambda it: it.update(form=2), lambda it: it.update(status=7), lambda it: it.pop("answers"),
                       lambda it: it.update(more=1), lambda it: it["answers"][0].update(verdict="maybe"),
                       lambda it: it["answers"][0]["from"].update(pods=[]), lambda it: it["answers"][0]["reasons"][0].pop("met"),
                       lambda it: it["answers"][0].update(notes="one")):
            changed = json.loads(json.dumps(answer))
            change(changed)
            self.assertNotEqual(form.faults(changed), [])

    @unittest.skipUnless(importlib.util.find_spec("jsonschema"), "jsonschema isn't installed")
    def test_jsonschema_agrees(self):
        import jsonschema
        jsonschema.Draft7Validator.check_schema(read(SCHEMA))
        for name, answer in stored().items():
            self.assertEqual([fault.message for fault in jsonschema.Draft7Validator(read(SCHEMA)).iter_errors(answer)], [], name)

    def test_the_status_is_that_of_the_run(self):
        for name, answer in stored().items():
            path = os.path.join(CASES, name, "status")
            self.assertEqual(answer["status"], read(path) if os.path.exists(path) else 0, name)


if __name__ == "__main__":
    unittest.main()
