"""What is expected of a cluster: lines `shop/web -> shop/db tcp/5432 deny`, or YAML with the same words or netassert's
own."""
import collections

from felix_tools import yaml_in
from felix_tools.questions import PORT_PROTOCOLS, QuestionError, Wish, traffic_of
from felix_tools.reading import InputError, part, read_text

ARROWS = ("->", "=>", "→")
VERDICTS = {
    "allow": True, "allowed": True, "accept": True, "connected": True, "reachable": True, "pass": True,
    "deny": False, "denied": False, "drop": False, "blocked": False, "block": False, "unreachable": False,
    "fail": False,
}
FORM = "FROM -> TO TRAFFIC allow|deny, as `shop/web -> shop/db tcp/5432 deny`"
MEMBERS = {"name", "from", "to", "traffic", "verdict"}

# A question, whether it is to be allowed (None: nothing is expected), its name, and the place where it stands.
Assertion = collections.namedtuple("Assertion", "wish expected name place")


def read_assertions(path, must_expect=True):
    """The assertions of a file. Where `must_expect` is false, lines may ask without expecting a verdict."""
    text = read_text(path)
    if is_yaml(text):
        return from_yaml(text, path)
    found = [of_line(words, "%s, line %d" % (path, number), must_expect)
             for number, words in enumerate(map(words_of, text.split("\n")), 1) if words]
    if not found:
        raise QuestionError("%s: nothing is in it; a line has %s" % (path, FORM))
    return found


def words_of(line):
    return line.split("#")[0].split()


def is_yaml(text):
    """Whether a text is YAML or JSON, by what its first line with words begins with."""
    first = next((line for line in map(str.rstrip, text.split("\n")) if words_of(line)), "")
    return first.startswith(("- ", "---", "[", "{")) or first == "-" or first.split(" ")[0].endswith(":")


# ---- lines

def of_line(words, place, must_expect):
    ends, rest = words[:1], words[1:]
    if rest[:1] and rest[0] in ARROWS:
        rest = rest[1:]
    ends, rest = ends + rest[:1], rest[1:]
    expected = VERDICTS.get(rest[-1].lower()) if rest else None
    traffic = rest if expected is None else rest[:-1]
    if len(ends) < 2 or not traffic:
        raise QuestionError("%s: a line has %s" % (place, FORM))
    if expected is None and must_expect:
        raise QuestionError("%s: `%s` is no verdict: allow or deny" % (place, rest[-1]))
    wish = Wish(ends[0], ends[1], traffic_of(" ".join(traffic).replace("/", " ").split(), place), None, None, place)
    return Assertion(wish, expected, None, place)


# ---- YAML

def from_yaml(text, path):
    try:
        values = yaml_in.documents(text)
    except yaml_in.YamlError as fault:
        raise InputError("%s: %s" % (path, fault))
    items = [item for value in values for item in (value if isinstance(value, list) else [value])]
    if not items:
        raise QuestionError("%s: nothing is in it" % path)
    return [of_item(item, "%s, item %d" % (path, number)) for number, item in enumerate(items, 1)]


def of_item(item, place):
    if not isinstance(item, dict):
        raise QuestionError("%s: an assertion has the members from, to, traffic and verdict" % place)
    if "src" in item and "dst" in item:
        return of_netassert(item, place)
    wrong = sorted(set(item) - MEMBERS)
    absent = [name for name in ("from", "to", "traffic", "verdict") if not item.get(name)]
    if wrong or absent:
        told = ["unknown field `%s`" % name for name in wrong] + ["no `%s`" % name for name in absent]
        raise QuestionError("%s: %s" % (place, ", ".join(told)))
    verdict = str(item["verdict"]).lower()
    if verdict not in VERDICTS:
        raise QuestionError("%s: `%s` is no verdict: allow or deny" % (place, item["verdict"]))
    traffic = traffic_of(str(item["traffic"]).replace("/", " ").split(), place)
    wish = Wish(str(item["from"]), str(item["to"]), traffic, None, None, place)
    return Assertion(wish, VERDICTS[verdict], item.get("name"), place)


def of_netassert(item, place):
    """A test of netassert: `exitCode` 0 expects that the connection is made, any other that it isn't."""
    protocol, port = str(item.get("protocol", "tcp")).upper(), item.get("targetPort")
    if protocol not in PORT_PROTOCOLS or not isinstance(port, int):
        raise QuestionError("%s: a test of netassert has `protocol` (tcp or udp) and a number as its `targetPort`"
                            % place)
    wish = Wish(end_of_netassert(item["src"], place), end_of_netassert(item["dst"], place),
                traffic_of([protocol, str(port)], place), None, None, place)
    return Assertion(wish, item.get("exitCode", 0) == 0, item.get("name"), place)


def end_of_netassert(end, place):
    host, resource = part(end, "host", "name"), part(end, "k8sResource")
    if host:
        return str(host)
    kind, name, namespace = (part(resource, member) for member in ("kind", "name", "namespace"))
    if not kind or not name:
        raise QuestionError("%s: an end of netassert has `host.name`, or `k8sResource` with `kind` and `name`" % place)
    return "%s/%s/%s" % (namespace or "default", str(kind).lower(), name)
