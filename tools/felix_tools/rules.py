"""Finds the rule of a policy that an answer counts, as it was written."""
import collections

from felix_tools.kinds import CALICO, KUBERNETES
from felix_tools.reading import objects, part

PEERS = {"egress": "to", "ingress": "from"}
PROTOCOLS = ("TCP", "UDP", "SCTP")
PROTOCOL_NUMBERS = {6: "TCP", 17: "UDP", 132: "SCTP"}
KINDS = {"gnp": (CALICO, "GlobalNetworkPolicy"), "np": (CALICO, "NetworkPolicy"), "knp": (KUBERNETES, "NetworkPolicy")}

# Where a rule stands in its list, and of Kubernetes which peer and which protocol of it decided (None where it has none).
Place = collections.namedtuple("Place", "rule peer protocol")


def policy_of(cluster, policy_id):
    """The resource of an id as `knp/shop/api`, or None."""
    sort, *names = policy_id.split("/")
    if sort not in KINDS or len(names) > 2:
        return None
    version, kind = KINDS[sort]
    return cluster.resource(version, kind, names[0] if len(names) == 2 else "", names[-1])


def place_of(policy_id, policy, direction, number):
    """Where the rule stands that the program counts so, from 1; None where there is no such rule."""
    rules = part(policy, "spec", direction) or []
    places = kubernetes_places(rules, PEERS[direction]) if policy_id.startswith("knp/") else plain_places(rules)
    return places[number - 1] if 0 < number <= len(places) else None


def plain_places(rules):
    return [Place(index, None, None) for index in range(len(rules))]


def kubernetes_places(rules, peers_name):
    """A rule of Kubernetes counts once for each peer and, where it has ports, for each protocol of theirs (docs/INPUT.md)."""
    places = []
    for index, rule in enumerate(rules):
        peers = part(rule, peers_name) or [None]
        for peer in range(len(peers)):
            for protocol in protocols_of(objects(part(rule, "ports"))) or [None]:
                places.append(Place(index, None if peers == [None] else peer, protocol))
    return places


def protocols_of(entries):
    named = {protocol_name(entry.get("protocol")) for entry in entries}
    return [protocol for protocol in PROTOCOLS if protocol in named]


def protocol_name(value):
    if isinstance(value, str):
        return value.upper()
    return PROTOCOL_NUMBERS.get(value, "TCP")


def rule_at(policy, direction, place):
    return part(policy, "spec", direction)[place.rule]


def place_words(direction, place):
    """The rule's path in its resource, and behind it which peer and which protocol of it decided."""
    path = "%s[%d]" % (direction, place.rule)
    parts = []
    if place.peer is not None:
        parts.append("%s[%d]" % (PEERS[direction], place.peer))
    if place.protocol is not None:
        parts.append(place.protocol)
    return "%s (%s)" % (path, ", ".join(parts)) if parts else path
