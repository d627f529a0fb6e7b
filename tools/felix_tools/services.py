"""Services: which one has an address or a node port, and which pods stand behind it, at which port."""
import collections

from felix_tools.conversion import text_of
from felix_tools.questions import PORT_PROTOCOLS, QuestionError, Traffic, is_outside
from felix_tools.reading import objects, part, texts

SERVICE_LABEL = "kubernetes.io/service-name"
PROXY = ("%s is the address of the %s %s, whose proxy ends the connection and opens one of its own: ask from the address "
         "to the proxy's pods, and from these to the pods behind it")
# A Service at one of its addresses: what that address is to it, and the resource.
Found = collections.namedtuple("Found", "name address what resource")
# A pod (or another end) behind a Service, and the traffic that comes to it.
Behind = collections.namedtuple("Behind", "end traffic")


def name_of_service(resource):
    return "%s/%s" % (part(resource, "metadata", "namespace"), part(resource, "metadata", "name"))


def addresses_of(resource):
    """(address, what it is) of each address of a Service."""
    cluster = [part(resource, "spec", "clusterIP")] + texts(part(resource, "spec", "clusterIPs"))
    balanced = [part(resource, "spec", "loadBalancerIP")] + ingress_addresses(resource)
    rows = [(address, "cluster IP") for address in cluster]
    rows += [(address, "external IP") for address in texts(part(resource, "spec", "externalIPs"))]
    rows += [(address, "load balancer's address") for address in balanced]
    return [(text_of(address), what) for address, what in rows if address]


def ingress_addresses(resource):
    return [item.get("ip") for item in objects(part(resource, "status", "loadBalancer", "ingress"))]


def service_at(cluster, address):
    """The Service that has an address, or None."""
    for resource in cluster.of_kind("Service"):
        for own, what in addresses_of(resource):
            if own == address:
                return Found(name_of_service(resource), address, what, resource)
    return None


def refuse_proxy(cluster, address):
    """That an end is no address of an Ingress or a Gateway, where a proxy ends each connection."""
    for kind in ("Ingress", "Gateway"):
        for resource in cluster.of_kind(kind):
            own = [it.get("value") for it in objects(part(resource, "status", "addresses"))]
            if address in ingress_addresses(resource) + own:
                raise QuestionError(PROXY % (address, kind, name_of_service(resource)))


def service_of_node_port(cluster, traffic):
    """The Service whose node port this traffic is for, and that port of it, or None."""
    for resource in cluster.of_kind("Service"):
        for entry in objects(part(resource, "spec", "ports")):
            if entry.get("nodePort") == traffic.members.get("dport") and protocol_of(entry) == traffic.members["proto"]:
                return resource, entry
    return None


def protocol_of(entry):
    return entry.get("protocol") or "TCP"


def port_of(found, traffic):
    """The Service's port that this traffic is for."""
    entries = objects(part(found.resource, "spec", "ports"))
    for entry in entries:
        port = traffic.members.get("dport")
        if port in (entry.get("port"), entry.get("name")) and protocol_of(entry) == traffic.members["proto"]:
            return entry
    told = ", ".join("%s %s" % (protocol_of(entry), entry.get("port")) for entry in entries) or "no port"
    raise QuestionError("%s, which answers %s and not %s" % (told_as(found), told, traffic.words))


def behind(cluster, resource, entry, traffic):
    """What stands behind a port of a Service: by its EndpointSlices, and where there are none by its selector."""
    slices = [it for it in cluster.of_kind("EndpointSlice") if is_slice_of(it, resource)]
    found = behind_slices(cluster, slices, entry, traffic) if slices else selected(cluster, resource, entry, traffic)
    if not found:
        raise QuestionError("the Service %s has no pod behind it in the input that is ready for %s" % (
            name_of_service(resource), traffic.words))
    return found


def is_slice_of(it, resource):
    names = part(resource, "metadata", "namespace"), part(resource, "metadata", "name")
    of = part(it, "metadata", "namespace"), part(it, "metadata", "labels", SERVICE_LABEL)
    return of == names and it.get("addressType") == "IPv4"


def behind_slices(cluster, slices, entry, traffic):
    found = []
    for it in slices:
        named = [port for port in objects(it.get("ports")) if (port.get("name") or "") == (entry.get("name") or "")]
        numbers = [port["port"] for port in named if isinstance(port.get("port"), int)]
        ready = [end for end in objects(it.get("endpoints")) if part(end, "conditions", "ready") is not False]
        addresses = [address for end in ready for address in texts(end.get("addresses"))]
        ends = [end_behind(cluster, address) for address in addresses]
        found += [Behind(end, to_port(traffic, number)) for number in numbers for end in ends]
    return list({(repr(one.end), one.traffic.words): one for one in found}.values())


def end_behind(cluster, address):
    """The pod that has an address, or its node where the pod is on the host's network."""
    end, nodes = cluster.end_at(address), cluster.nodes_at(address)
    return cluster.node_end(nodes[0]) if nodes and is_outside(end) else end


def selected(cluster, resource, entry, traffic):
    selector = part(resource, "spec", "selector")
    if not isinstance(selector, dict) or not selector:
        return []
    front = text_of(part(resource, "metadata", "namespace")) + "/"
    pods = [pod for pod in cluster.endpoints if pod.name.startswith(front)
            and all(pod.labels.get(key) == value for key, value in selector.items())]
    numbers = [(pod, target_of(pod, entry)) for pod in pods]
    return [Behind(pod, to_port(traffic, number)) for pod, number in numbers if number]


def target_of(pod, entry):
    """The number of the pod's port that a Service's port leads to, or None where the pod has no port of that name."""
    target = entry.get("targetPort") or entry.get("port")
    if isinstance(target, int):
        return target
    for port in pod.ports:
        if port.get("name") == target and protocol_of(port) == protocol_of(entry):
            return port.get("port")
    return None


def to_port(traffic, number):
    members = dict(traffic.members, dport=number)
    return Traffic("%s %s" % (members["proto"], number), members)


def title_of(found, traffic):
    return "the Service %s (%s, %s)" % (found.name, found.address, traffic.words)


def check_ports(found, traffic):
    if traffic.members["proto"] not in PORT_PROTOCOLS:
        raise QuestionError("%s, which answers its ports alone" % told_as(found))


def told_as(found):
    return "%s is the %s of the Service %s" % (found.address, found.what, found.name)
