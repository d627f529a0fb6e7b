"""Reads what `kubectl get` and `calicoctl get` print as JSON or YAML, and lines that were made of it."""
import collections
import ipaddress
import json
import re
import sys

from felix_tools import yaml_in

STANDARD_INPUT = "-"
# How lines begin that kubectl writes for its reader, and that end in a file by `2>&1`.
SAID = re.compile(r"Warning: |[IWEF][0-9]{4} |[Ee]rror|The connection to the server|Unable to connect|Flag --"
                  r"|No resources found")
LINE_MEMBERS = ("put", "delete", "batch", "inSync", "flush", "tables", "packet")

# A resource to put or to delete, and the file that it stands in.
Change = collections.namedtuple("Change", "action resource origin")


class InputError(Exception):
    """Some input can't be read; the text says which and why."""


def read_changes(paths):
    """The changes of all files, in their order."""
    return [change for path in paths for change in read_file(path)]


def read_file(path):
    origin = "standard input" if path == STANDARD_INPUT else path
    return [
        Change(action, resource, origin)
        for document in documents(read_text(path), origin)
        for action, resource in resources_of(document, origin)
    ]


def read_text(path):
    try:
        return read_bytes(path).decode("utf-8-sig")
    except UnicodeDecodeError:
        raise InputError("%s: not a text in UTF-8" % path)


def read_bytes(path):
    try:
        if path == STANDARD_INPUT:
            return sys.stdin.buffer.read()
        with open(path, "rb") as file:
            return file.read()
    except OSError as fault:
        raise InputError("%s: %s" % (path, fault.strerror))


def documents(text, origin):
    """The values of a text: of JSON those that stand one behind the other, of YAML its documents."""
    begun = text.lstrip()
    if not begun or begun.startswith(("{", "[")):
        return json_documents(text, origin)
    if SAID.match(begun):
        raise InputError(
            "%s: begins with what kubectl says on standard error, and not with a resource: `%s`; give what it writes "
            "on standard output alone (`> FILE`, without `2>&1`)" % (origin, begun.split("\n")[0].rstrip()))
    try:
        return yaml_in.documents(text)
    except yaml_in.YamlError as fault:
        raise InputError("%s: %s" % (origin, fault))


def json_documents(text, origin):
    decoder = json.JSONDecoder()
    place = behind_blanks(text, 0)
    while place < len(text):
        try:
            value, place = decoder.raw_decode(text, place)
        except ValueError as fault:
            raise InputError("%s: %s" % (origin, why_no_json(text, place, fault)))
        except RecursionError:
            raise InputError("%s: the JSON that begins in line %d is nested too deeply" % (origin, line_at(text, place)))
        yield value
        place = behind_blanks(text, place)


def why_no_json(text, place, fault):
    """Where a text stops to be JSON, and how: it breaks off, something odd stands there, or it never was."""
    begin, at = line_at(text, place), getattr(fault, "pos", place)
    if at >= len(text.rstrip()) or str(fault).startswith("Unterminated string"):
        return "the JSON that begins in line %d breaks off at the file's end, in line %d: is the file whole?" % (
            begin, line_at(text, len(text.rstrip())))
    if at == place:
        line = text[place:].split("\n")[0].rstrip()
        told = "is what kubectl says on standard error, and no resource" if SAID.match(line) else "isn't JSON"
        return "what begins in line %d %s: `%.80s`" % (begin, told, line)
    column = at - (text.rfind("\n", 0, at) + 1) + 1
    return "line %d, column %d: this isn't JSON (%s)" % (line_at(text, at), column, fault.msg)


def line_at(text, place):
    return text.count("\n", 0, place) + 1


def behind_blanks(text, place):
    while place < len(text) and text[place] in " \t\r\n":
        place += 1
    return place


def resources_of(value, origin):
    """The resources of a value, each with what to do with it: of a list its items, of a line what it puts or deletes."""
    if isinstance(value, list):
        return [found for item in value for found in resources_of(item, origin)]
    if not isinstance(value, dict):
        raise InputError("%s: a resource is a JSON object, and this is none: %.60s" % (origin, json.dumps(value)))
    if len(value) == 1 and next(iter(value)) in LINE_MEMBERS:
        return line_of(value)
    if is_list(value):
        return [found for item in items_of(value) for found in resources_of(item, origin)]
    return [("put", value)]


def line_of(value):
    (action, held), = value.items()
    if action == "batch":
        return [found for element in objects(held) for found in change_of(element)]
    return change_of(value)


def change_of(value):
    return [change for change in value.items() if change[0] in ("put", "delete") and isinstance(change[1], dict)]


def is_list(value):
    return "items" in value and str(value.get("kind", "List")).endswith("List")


def items_of(value):
    """The items of a list. Those of a list as the API server itself gives it don't repeat their kind."""
    kind = str(value.get("kind", ""))[:-len("List")]
    version = value.get("apiVersion")
    for item in value["items"] or []:
        if isinstance(item, dict) and kind and "kind" not in item:
            item = dict(item, kind=kind, apiVersion=item.get("apiVersion", version))
        yield item


def part(value, *names):
    """What stands in an object below these names, each in the object of the one before; None where something is absent."""
    for name in names:
        value = value.get(name) if isinstance(value, dict) else None
    return value


def texts(value):
    """The texts of a list; of anything else none."""
    return [item for item in value if isinstance(item, str)] if isinstance(value, list) else []


def members(value):
    """A value where it is an object, else one without members."""
    return value if isinstance(value, dict) else {}


def objects(value):
    """The objects of a list; of anything else none."""
    return [item for item in value if isinstance(item, dict)] if isinstance(value, list) else []


def is_address(text):
    """Whether a text is an address of IPv4."""
    try:
        return ipaddress.ip_address(text).version == 4
    except ValueError:
        return False
