"""The words that tools/ask and tools/diff share."""
import argparse

from felix_tools import program, unproved
from felix_tools.assertions import read_assertions
from felix_tools.cluster import NODE_FRONT
from felix_tools.questions import (
    PORT_PROTOCOLS, SOURCE_PORT, QuestionError, Wish, icmp_traffic, is_number, is_port, other_traffic, port_of,
    port_traffic,
)
from felix_tools.reading import is_address
from felix_tools.version import about, tool_name, with_names_here
from felix_tools.workloads import with_namespace

UPLINK = "eth0"
MOST = 1000000


def add_questions(parser):
    group = parser.add_argument_group("questions")
    group.add_argument("--from", dest="senders", action="append", metavar="END", default=[],
                       help="the sender: a pod (shop/web-0), a workload (shop/web, shop/deployment/web), labels "
                            "(shop/app=web), a pattern ('shop/*') or an address; may be given again")
    group.add_argument("--to", dest="receivers", action="append", metavar="END", default=[],
                       help="the receiver, named in the same way")
    group.add_argument("--from-address", type=address, metavar="ADDRESS",
                       help="the packet's source address, in the place of the sender's own; alone it names the sender")
    group.add_argument("--to-address", type=address, metavar="ADDRESS",
                       help="the packet's destination address, in the place of the receiver's own; alone it names the receiver")
    for way, metavar in (("from", "senders"), ("to", "receivers")):
        group.add_argument("--%s-node" % way, dest=metavar, action="append", type=node, metavar="NODE",
                           help="the processes of this node as %s: felix-host is asked" % ("the sender" if way == "from" else "the receiver"))
    for protocol in PORT_PROTOCOLS:
        group.add_argument("--" + protocol.lower(), dest=protocol, type=number_or_name, action="append", metavar="PORT",
                           default=[], help="%s to this port, by its number or by the receiver's name of it; may be given "
                                            "again" % protocol)
    group.add_argument("--icmp", action="store_true", help="an ICMP echo request")
    group.add_argument("--icmp-type", type=icmp, metavar="TYPE[/CODE]", help="ICMP of this type (and code)")
    group.add_argument("--protocol", type=protocol_number, metavar="NUMBER", help="another protocol by its number")
    group.add_argument("--source-port", type=port, metavar="PORT", default=SOURCE_PORT, help="the sender's port (%(default)s)")
    group.add_argument("--list", dest="lists", action="append", metavar="LIST", default=[],
                       help="a file with a question in each line, as `shop/web shop/db tcp 5432`, and behind it perhaps the "
                            "verdict that is expected, allow or deny")
    add_names(group)


def add_names(group):
    group.add_argument("-n", "--namespace", metavar="NAMESPACE", help="the namespace of names that have none")
    group.add_argument("--each-pod", action="store_true", help="asks of each pod by itself, and tells each by itself")
    group.add_argument("--most", type=questions_at_most, metavar="N", default=MOST,
                       help="how many questions are asked at most (%(default)s)")


def add_program(parser):
    group = parser.add_argument_group("the program")
    group.add_argument("--although-refused", action="store_true",
                       help="answers also where something was refused or isn't read that may apply, as though it weren't there")
    group.add_argument("--unproved", action="store_true",
                       help="compiles the same sources by `rt try`, without a proof, and asks these; the answer says so")
    group.add_argument("--program", metavar="PATH", help="the proved program (else $FELIX_REPLAY, else this repository's own)")
    group.add_argument("--uplink", type=uplink, metavar="INTERFACE", default=UPLINK,
                       help="the interface by which nodes reach each other (%(default)s)")


def paths_of(options):
    """The programs that the words name."""
    if options.unproved and options.program:
        raise QuestionError("--unproved and --program exclude each other")
    return unproved.Unproved() if options.unproved else program.Paths(options.program)


def wishes(options, all_pods=False):
    """The questions that the words and the lists ask, with names as they were given."""
    return plain_wishes(options, all_pods) + [it.wish for it in listed(options)]


def plain_wishes(options, all_pods=False):
    """The questions that the words ask. Ends that aren't named are none, or all pods."""
    unnamed = ["*"] if all_pods else []
    senders = options.senders or ([options.from_address] if options.from_address else unnamed)
    receivers = options.receivers or ([options.to_address] if options.to_address else unnamed)
    asked = [Wish(sender, receiver, traffic, options.from_address, options.to_address)
             for traffic in traffics(options) for sender in senders for receiver in receivers]
    return [named_here(wish, options.namespace) for wish in asked]


def listed(options):
    """The questions of the lists, each with the verdict that is expected, if one is."""
    found = [it for path in options.lists for it in read_assertions(path, must_expect=False)]
    return [it._replace(wish=named_here(it.wish, options.namespace)) for it in found]


def named_here(wish, namespace):
    """The wish, with names in this namespace that have none themselves."""
    return wish._replace(sender=name_here(wish.sender, namespace), receiver=name_here(wish.receiver, namespace))


def name_here(text, namespace):
    is_name = not is_address(text) and not text.startswith(NODE_FRONT) and ":" not in text and text != "*"
    return with_namespace(text, namespace) if is_name else text


def check_questions(options):
    """That the words ask something."""
    if options.lists and not (options.senders or options.receivers):
        return
    if not traffics(options):
        raise QuestionError("no traffic is named: --tcp, --udp or --sctp with a port, --icmp or --protocol")


def asks_packet(options):
    """Whether the words name an end, traffic or a list of questions."""
    ends = [options.senders, options.receivers, options.from_address, options.to_address, options.lists]
    return any(ends) or bool(traffics(options))


def traffics(options):
    asked = [port_traffic(protocol, number, options.source_port) for protocol in PORT_PROTOCOLS for number in getattr(options, protocol)]
    if options.icmp:
        asked.append(icmp_traffic())
    if options.icmp_type:
        asked.append(icmp_traffic(*options.icmp_type))
    if options.protocol:
        asked.append(other_traffic(options.protocol))
    return asked


def number_up_to(text, most, what):
    if not is_number(text, most):
        raise argparse.ArgumentTypeError("%s isn't %s from 0 to %d" % (text, what, most))
    return int(text)


def port(text):
    return number_up_to(text, 65535, "a port")


def number_or_name(text):
    if not is_port(text):
        return port(text)
    return port_of(text)


def icmp(text):
    kind, slash, code = text.partition("/")
    return number_up_to(kind, 255, "a type"), number_up_to(code, 255, "a code") if slash else 0


def protocol_number(text):
    if not number_up_to(text, 255, "a protocol"):
        raise argparse.ArgumentTypeError("0 isn't a protocol from 1 to 255")
    return int(text)


def questions_at_most(text):
    if not text.isdigit() or not int(text):
        raise argparse.ArgumentTypeError("%s isn't a number from 1 on" % text)
    return int(text)


def address(text):
    if not is_address(text):
        raise argparse.ArgumentTypeError("%s isn't an address of IPv4" % text)
    return text


def node(text):
    return NODE_FRONT + text


def uplink(text):
    if text.startswith("cali"):
        raise argparse.ArgumentTypeError("%s is an interface of a pod" % text)
    return text


def tool_parser(tool, description):
    """A parser of a tool's words, which tells its use and its version."""
    name = tool_name(tool)
    made = argparse.ArgumentParser(prog=name, description=with_names_here(description), formatter_class=PlainHelp)
    made.add_argument("--version", action="version", version=about(tool))
    return made


class PlainHelp(argparse.RawDescriptionHelpFormatter):
    """Help that keeps the lines of a description, within 100 columns."""

    def __init__(self, prog):
        super().__init__(prog, max_help_position=30, width=110)
