"""tools/cluster: a cluster of any size as lines, to measure by."""
import argparse
import collections
import random
import sys

from felix_tools import calico_lines as made
from felix_tools.options import tool_parser
from felix_tools.reading import InputError
from felix_tools.start import answered

DESCRIPTION = """\
Writes the resources of a cluster as lines for felix-replay, the same lines for the same words.

  tools/cluster 10000 100 200 20000 > lines.jsonl
  ./felix-replay --node n1 < lines.jsonl

Each endpoint has one of POLICIES labels `app`, and stands in one of 200 namespaces, whose profile it lists; the first LOCAL
are of the node n1, the others of 900 other nodes. Each policy selects one app of its namespace and lets one in. Behind
these stand `inSync` and a flush, then CHANGES lines that put an endpoint at another address, a flush after each hundred,
and a flush at the end.

Status: 0 done, 2 a word can't be read, 5 the lines can't be written."""

NAMESPACES = 200
TEAMS = 20
OTHER_NODES = 900
ORDERS = 10
# The app that a policy lets in is so much further on than its own, and so of the same namespaces.
APART = 200
TIERS = ("web", "db", "cache")
FLUSHED_EACH = 100
SEED = 1
# So many addresses 10.0.0.0/8 has.
MOST_ENDPOINTS = 2 ** 24

Size = collections.namedtuple("Size", "endpoints local policies changes")


def main(words):
    return answered("cluster", write, parser().parse_args(words))


def parser():
    parser = tool_parser("cluster", DESCRIPTION)
    parser.add_argument("endpoints", type=count, metavar="ENDPOINTS", help="how many endpoints there are")
    parser.add_argument("local", type=count, metavar="LOCAL", help="how many of them are of the node n1")
    parser.add_argument("policies", type=count, metavar="POLICIES", help="how many policies there are, and labels `app`")
    parser.add_argument("changes", type=count, metavar="CHANGES", nargs="?", default=0, help="how many endpoints move (%(default)s)")
    return parser


def count(text):
    if not (text.isascii() and text.isdigit()):
        raise argparse.ArgumentTypeError("%s isn't a number" % text)
    return int(text)


def write(options):
    size = Size(options.endpoints, options.local, options.policies, options.changes)
    check(size)
    sys.stdout.buffer.writelines(lines(size))
    return 0


def check(size):
    if not 0 < size.endpoints <= MOST_ENDPOINTS:
        raise InputError("a cluster has 1 to {:,} endpoints, and not {:,}".format(MOST_ENDPOINTS, size.endpoints))
    if size.local > size.endpoints:
        raise InputError("of %d endpoints no %d are of one node" % (size.endpoints, size.local))
    if not size.policies:
        raise InputError("a cluster has a policy at least, since each has its app")


def lines(size):
    """The lines of a cluster, each as its bytes."""
    draw = random.Random(SEED)
    yield from map(profile, range(NAMESPACES))
    for number in range(size.endpoints):
        yield endpoint(size, number, address(10, number, number), draw)
    for number in range(size.policies):
        yield policy(size, number)
    yield made.IN_SYNC
    yield made.FLUSH
    yield from changes(size, draw)
    yield made.FLUSH


def changes(size, draw):
    for change in range(size.changes):
        number = draw.randrange(size.endpoints)
        yield endpoint(size, number, address(11, number, change + 2), draw)
        if (change + 1) % FLUSHED_EACH == 0:
            yield made.FLUSH


# ---- resources

def profile(number):
    labels = {"pcns.team": "t%d" % (number % TEAMS)}
    allowed = [{"action": "Allow"}]
    return made.put("Profile", {"name": "kns.ns%d" % number}, {"labelsToApply": labels, "ingress": allowed, "egress": allowed})


def endpoint(size, number, at, draw):
    labels = {"app": app(size, number), "tier": draw.choice(TIERS)}
    node = "n1" if number < size.local else "n%d" % (2 + number % OTHER_NODES)
    spec = {
        "node": node, "interfaceName": "cali%x" % number, "orchestrator": "k8s", "ipNetworks": [at],
        "profiles": ["kns." + namespace(number)], "ports": [{"name": "http", "port": 8080, "protocol": "TCP"}],
    }
    return made.put("WorkloadEndpoint", {"name": "w%d" % number, "namespace": namespace(number), "labels": labels}, spec)


def policy(size, number):
    rule = {
        "action": "Allow", "protocol": "TCP", "source": {"selector": of_app(size, number + APART)},
        "destination": {"ports": [8080, "http"]},
    }
    spec = {"order": number % ORDERS, "selector": of_app(size, number), "types": ["Ingress"], "ingress": [rule]}
    return made.put("NetworkPolicy", {"name": "p%d" % number, "namespace": namespace(number)}, spec)


def namespace(number):
    return "ns%d" % (number % NAMESPACES)


def app(size, number):
    return "a%d" % (number % size.policies)


def of_app(size, number):
    return "app == '%s'" % app(size, number)


def address(first, number, last):
    return "%d.%d.%d.%d" % (first, number >> 16 & 255, number >> 8 & 255, last & 255)
