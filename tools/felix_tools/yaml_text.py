"""Writes a value of JSON as YAML, as kubectl and calicoctl would show it."""
import json
import re

PLAIN = re.compile(r"[A-Za-z_/][A-Za-z0-9_./-]*( [A-Za-z0-9_./=&|!'-]+)*\Z")
NET = re.compile(r"[0-9]+(\.[0-9]+){3}(/[0-9]+)?\Z")
OTHER_TYPES = {"true", "false", "null", "yes", "no", "on", "off", "y", "n"}


def yaml_lines(value):
    """The lines of a value."""
    if isinstance(value, dict) and value:
        return [line for name, item in value.items() for line in member_lines(name, item)]
    if isinstance(value, list) and value:
        return [line for item in value for line in item_lines(item)]
    return [scalar(value)]


def member_lines(name, item):
    head = scalar(name) + ":"
    if isinstance(item, dict) and item:
        return [head] + ["  " + line for line in yaml_lines(item)]
    if isinstance(item, list) and item:
        return [head] + yaml_lines(item)
    return ["%s %s" % (head, scalar(item))]


def item_lines(item):
    first, *others = yaml_lines(item)
    return ["- " + first] + ["  " + line for line in others]


def scalar(value):
    if isinstance(value, str) and (NET.match(value) or PLAIN.match(value) and value.lower() not in OTHER_TYPES):
        return value
    return json.dumps(value, ensure_ascii=False)
