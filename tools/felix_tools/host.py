"""Host endpoints of a node, and its failsafe ports, as lines for felix-host."""
import ipaddress
import json

from felix_tools.conversion import Line, line_text, text_of
from felix_tools.kinds import CALICO
from felix_tools.reading import members, objects, part, texts

# What Felix takes where no FelixConfiguration names any (Calico's reference of Felix's configuration).
INBOUND = "failsafeInboundHostPorts"
OUTBOUND = "failsafeOutboundHostPorts"
SHARED = [("TCP", 179), ("TCP", 2379), ("TCP", 2380), ("TCP", 5473), ("TCP", 6443), ("TCP", 6666), ("TCP", 6667)]
OWN = {INBOUND: [("TCP", 22), ("UDP", 68)] + SHARED, OUTBOUND: [("UDP", 53), ("UDP", 67)] + SHARED}
DEFAULTS = {name: [(protocol, port, "") for protocol, port in ports] for name, ports in OWN.items()}
ANY = "*"
# What a host endpoint's interface is called where the packet doesn't come by it.
OTHER = "other%d"


class HostResources:
    """The HostEndpoints and the FelixConfigurations of an input."""

    def __init__(self, cluster, changes, uplink):
        self.cluster = cluster
        self.uplink = uplink
        self.endpoints = [change for change in changes if change.resource.get("kind") == "HostEndpoint"]
        self.configurations = [it.resource for it in changes if it.resource.get("kind") == "FelixConfiguration"]

    def lines_of(self, node):
        """The lines that a run for a node is given before all others."""
        chosen = self.endpoint_of(node)
        lines = []
        for number, change in enumerate(self.endpoints):
            interface = self.uplink if change is chosen else OTHER % number
            lines.append(Line("put", with_interface(change.resource, interface), change.resource, change.origin))
        return lines

    def endpoint_of(self, node):
        """The host endpoint of a node's uplink: by Felix's choice the first name of those that name the interface or
        have an address of it, and else of those of all interfaces."""
        own = sorted((it for it in self.endpoints if part(it.resource, "spec", "node") == node), key=name_of)
        named = [it for it in own if self.is_for_uplink(it.resource, node)]
        every = [it for it in own if part(it.resource, "spec", "interfaceName") == ANY]
        return next(iter(named + every), None)

    def is_for_uplink(self, resource, node):
        interface = part(resource, "spec", "interfaceName")
        expected = texts(part(resource, "spec", "expectedIPs"))
        addresses = self.cluster.nodes.get(node, [])
        return interface == self.uplink or not interface and any(it in addresses for it in expected)

    def failsafe_ports(self, node):
        """The failsafe ports of a node: by the FelixConfiguration of all nodes, then by its own, else Felix's own."""
        told = dict(DEFAULTS)
        for name in ("default", "node." + node):
            for resource in self.configurations:
                if part(resource, "metadata", "name") == name:
                    spec = members(part(resource, "spec"))
                    told.update({key: ports_of(spec[key]) for key in DEFAULTS if spec.get(key) is not None})
        return told

    def failsafe_line(self, node, packet):
        """The line of the ports that are failsafe for a packet: with a net one is it for ends of this net alone."""
        ports = self.failsafe_ports(node)
        other = packet["src"] if packet["direction"] == "in" else packet["dst"]
        made = {name: [{"protocol": protocol, "port": port} for protocol, port, net in ports[key] if is_in(other, net)]
                for name, key in (("inbound", INBOUND), ("outbound", OUTBOUND))}
        return json.dumps({"failsafe": made}, separators=(",", ":"))


def name_of(change):
    return text_of(part(change.resource, "metadata", "name"))


def peer_lines(changes):
    """The lines by which selectors in rules of pods find host endpoints, as network sets of their labels and addresses."""
    endpoints = [change for change in changes if change.resource.get("kind") == "HostEndpoint"]
    return [Line("put", network_set_of(it.resource), it.resource, it.origin) for it in endpoints]


def network_set_of(resource):
    """A global network set that a selector finds where it finds this host endpoint. No resource has a name of capitals."""
    metadata = {"name": "HostEndpoint.%s" % part(resource, "metadata", "name")}
    if part(resource, "metadata", "labels") is not None:
        metadata["labels"] = part(resource, "metadata", "labels")
    nets = texts(part(resource, "spec", "expectedIPs"))
    return {"apiVersion": CALICO, "kind": "GlobalNetworkSet", "metadata": metadata, "spec": {"nets": nets}}


def with_interface(resource, interface):
    spec = {key: value for key, value in members(part(resource, "spec")).items()
            if key in ("node", "expectedIPs", "profiles", "ports")}
    metadata = {key: value for key, value in members(part(resource, "metadata")).items()
                if key in ("name", "labels") and value is not None}
    spec["interfaceName"] = interface
    return {"apiVersion": CALICO, "kind": "HostEndpoint", "metadata": metadata, "spec": spec}


def ports_of(entries):
    return [(text_of(entry.get("protocol")).upper() or "TCP", entry.get("port"), text_of(entry.get("net")))
            for entry in objects(entries)]


def is_in(address, net):
    if not net:
        return True
    try:
        return ipaddress.ip_address(address) in ipaddress.ip_network(net, strict=False)
    except ValueError:
        return False


def host_input_of(lines, packets, failsafe_line):
    """What felix-host is given; `failsafe_line` makes the line of the ports that are failsafe for a packet."""
    texts = [line_text(line) for line in lines] + ['{"inSync":true}']
    before = None
    for packet in packets:
        ports = failsafe_line(packet)
        if ports != before:
            texts += [ports, '{"flush":{}}']
            before = ports
        texts.append(json.dumps({"hostPacket": packet}, separators=(",", ":")))
    return "".join(text + "\n" for text in texts)
