"""Reads YAML by PyYAML, where that is installed, as kubectl reads it: into the values of JSON."""
import re

ABSENT = ("YAML is read by PyYAML, which isn't installed here (`pip install pyyaml`); JSON is read by itself: ask for "
          "`-o json`")
# What is a truth, a number or nothing, as kubectl's own reader of YAML has it.
TRUE = {"true", "True", "TRUE", "yes", "Yes", "YES", "on", "On", "ON", "y", "Y"}
FALSE = {"false", "False", "FALSE", "no", "No", "NO", "off", "Off", "OFF", "n", "N"}
NULL = {"", "~", "null", "Null", "NULL"}
WHOLE = re.compile(r"[-+]?(0[xX][0-9a-fA-F]+|0[oO]?[0-7]+|0b[01]+|0|[1-9][0-9]*)\Z")
FLOAT = re.compile(r"[-+]?(\.[0-9]+|[0-9]+(\.[0-9]*)?)([eE][-+]?[0-9]+)?\Z")
FRONTS = {"0x": 16, "0o": 8, "0b": 2}


class YamlError(Exception):
    """A text isn't YAML, or there is nothing to read it by; the text says which."""


def documents(text):
    """The values of a text of YAML, one for each of its documents; empty documents are none."""
    yaml = module()
    try:
        nodes = list(yaml.compose_all(text, Loader=yaml.BaseLoader))
        return [value for value in (value_of(yaml, node) for node in nodes if node is not None) if value is not None]
    except (yaml.YAMLError, RecursionError) as fault:
        raise YamlError("no YAML that can be read: %s" % why(fault))


def module():
    try:
        import yaml
    except ImportError:
        raise YamlError("this isn't JSON. %s" % ABSENT)
    return yaml


def why(fault):
    """What is wrong in the text and where, in one line."""
    mark = getattr(fault, "problem_mark", None)
    problem = getattr(fault, "problem", None) or "it is nested too deeply"
    return "line %d, column %d: %s" % (mark.line + 1, mark.column + 1, problem) if mark else problem


def value_of(yaml, node):
    if isinstance(node, yaml.MappingNode):
        return mapping(yaml, node)
    if isinstance(node, yaml.SequenceNode):
        return [value_of(yaml, item) for item in node.value]
    return scalar(node.value) if node.style is None else node.value


def mapping(yaml, node):
    """An object; `<<` takes over the members of others."""
    value, taken_over = {}, {}
    for name, item in node.value:
        if name.value == "<<" and getattr(name, "style", None) is None:
            of = item.value if isinstance(item, yaml.SequenceNode) else [item]
            for other in reversed(of):
                taken_over.update(value_of(yaml, other))
        else:
            value[str(name.value)] = value_of(yaml, item)
    return dict(taken_over, **value)


def scalar(text):
    """The value of a text without quotes."""
    if text in NULL:
        return None
    if text in TRUE or text in FALSE:
        return text in TRUE
    if WHOLE.match(text):
        return whole(text)
    return float(text) if FLOAT.match(text) else text


def whole(text):
    digits = text.lstrip("+-").lower()
    if digits[:2] in FRONTS:
        number = int(digits[2:], FRONTS[digits[:2]])
    else:
        number = int(digits, 8 if digits[0] == "0" and len(digits) > 1 else 10)
    return -number if text[0] == "-" else number
