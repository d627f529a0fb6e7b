"""Questions: may a packet go from one end to another?"""
import collections
import re

from felix_tools.cluster import NodeEnd, Outside

SOURCE_PORT = 40000
ECHO_REQUEST = (8, 0)
PORT_PROTOCOLS = ("TCP", "UDP", "SCTP")
PORT_NAME = re.compile(r"[A-Za-z0-9][A-Za-z0-9_.-]{0,127}\Z")

# What a packet is beside its ends: the words that name it, and the members of a packet's line.
Traffic = collections.namedtuple("Traffic", "words members")
# What was asked, as it was asked: names, patterns or addresses of ends, the addresses that the packet has in place of theirs, and in
# a list its file and line.
Wish = collections.namedtuple("Wish", "sender receiver traffic source destination place", defaults=("",))
# Two ends of the cluster with the addresses that the packet has, and the traffic. `service` names the Service through
# which the receiver was found, as it is said in a title; `notes` are what is to be said of the packet's way there. Where
# it is asked for several pods at once, `senders` and `receivers` are these, and `names` is how titles name both.
Question = collections.namedtuple(
    "Question", "sender receiver source destination traffic service notes senders receivers names",
    defaults=((), (), None))


class QuestionError(Exception):
    """A question can't be asked; the text says why."""


def port_traffic(protocol, port, source_port=SOURCE_PORT):
    """Traffic to a port by its number, or by its name, which is the receiver's."""
    return Traffic("%s %s" % (protocol, port), {"proto": protocol, "sport": source_port, "dport": port})


def icmp_traffic(kind=ECHO_REQUEST[0], code=ECHO_REQUEST[1]):
    words = "ICMP echo request" if (kind, code) == ECHO_REQUEST else "ICMP type %d code %d" % (kind, code)
    return Traffic(words, {"proto": "ICMP", "icmpType": kind, "icmpCode": code})


def other_traffic(number):
    return Traffic("protocol %d" % number, {"proto": number})


def is_outside(end):
    return isinstance(end, Outside)


def is_node(end):
    return isinstance(end, NodeEnd)


def question(sender, receiver, wish, service="", notes=()):
    source = wish.source or address_of(sender)
    destination = wish.destination or address_of(receiver)
    traffic = with_number(wish.traffic, receiver)
    return Question(sender, receiver, source, destination, traffic, service, tuple(notes), (sender,), (receiver,))


def with_number(traffic, receiver):
    """The traffic, with the receiver's number of a port that is named."""
    name, protocol = traffic.members.get("dport"), traffic.members["proto"]
    if not isinstance(name, str):
        return traffic
    named = named_ports(receiver, protocol)
    if name not in named:
        told = ", ".join("%s (%s)" % pair for pair in named.items())
        raise QuestionError("%s has no %s port named %s%s" % (
            name_of(receiver), protocol, name, "; it has " + told if told else ""))
    return Traffic("%s %s (%s)" % (protocol, named[name], name), dict(traffic.members, dport=named[name]))


def has_port(end, traffic):
    """Whether an end names the port that the traffic is to."""
    return traffic.members["dport"] in named_ports(end, traffic.members["proto"])


def named_ports(end, protocol):
    ports = [] if is_outside(end) or is_node(end) else end.ports
    return {port.get("name"): port.get("port") for port in ports if (port.get("protocol") or "TCP") == protocol}


def address_of(end):
    if is_outside(end):
        return end.address
    wanted = [("IPv4 address in the input, and IPv6 isn't modelled", end.addresses)]
    if not is_node(end):
        wanted += [("node", end.node), ("interface", end.interface)]
    for what, value in wanted:
        if not value:
            raise QuestionError("%s has no %s" % (end.name, what))
    return end.addresses[0]


def name_of(end):
    return end.address if is_outside(end) else end.name


def node_of(end):
    return None if is_outside(end) else end.node


def title(asked):
    """The question with addresses and nodes; of several pods with their workload's name alone."""
    sender = end_words(asked.sender, asked.source, asked.receiver)
    receiver = end_words(asked.receiver, asked.destination, asked.sender)
    return title_of(asked, asked.names[0] if len(asked.senders) > 1 else sender,
                    asked.names[1] if len(asked.receivers) > 1 else receiver)


def short_title(asked):
    return title_of(asked, *(asked.names or (name_of(asked.sender), name_of(asked.receiver))))


def title_of(asked, sender, receiver):
    if asked.service:
        receiver = "%s, there %s" % (asked.service, receiver)
    return "%s to %s, %s" % (sender, receiver, asked.traffic.words)


def end_words(end, address, other):
    """An end with its address; an address outside that is the other end's node is said to be it."""
    if is_outside(end) and end.address in getattr(other, "hosts", ()):
        return "%s (its node %s)" % (end.address, other.node)
    if is_outside(end):
        return "%s (no pod of the input)" % end.address
    if is_node(end):
        return "the node %s (%s)" % (end.node, address)
    return "%s (%s, node %s)" % (end.name, address, end.node)


def packet(asked, incoming, outgoing):
    members = {"in": incoming, "out": outgoing, "src": asked.source, "dst": asked.destination}
    members.update(asked.traffic.members)
    return members


def host_packet(asked, direction, interface):
    """A packet that comes to a node's own processes, or from them, as felix-host reads it."""
    members = {"direction": direction, "interface": interface, "src": asked.source, "dst": asked.destination}
    members.update(asked.traffic.members)
    return members


# ---- traffic in words

def traffic_of(words, place):
    protocol = words[0].upper()
    if protocol in PORT_PROTOCOLS and len(words) == 2 and is_port(words[1]):
        return port_traffic(protocol, port_of(words[1]))
    if protocol == "ICMP" and len(words) == 1:
        return icmp_traffic()
    if is_number(protocol, 255) and int(protocol) > 0 and len(words) == 1:
        return other_traffic(int(protocol))
    raise QuestionError("%s: `%s` is no protocol with its port, such as `tcp 5432`, `tcp http`, `icmp` or `47`" % (
        place, " ".join(words)))


def is_port(text):
    """Whether a text is a port's number, or may be its name."""
    return is_number(text, 65535) or bool(PORT_NAME.match(text)) and not text.isdigit()


def port_of(text):
    return int(text) if text.isdigit() else text


def is_number(text, most):
    return text.isdigit() and text.isascii() and int(text) <= most
