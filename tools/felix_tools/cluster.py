"""What stands in the lines: workload endpoints by name and address, policies and profiles by the names that answers have."""
import collections
import difflib
import fnmatch
import ipaddress
import json
import re

from felix_tools.conversion import key_of, stands_as, text_of
from felix_tools.kinds import CALICO
from felix_tools.pods import ON_HOST, host_addresses
from felix_tools.reading import is_address, members, objects, part
from felix_tools.workloads import (
    has_labels, is_selection, name_of_workload, named_workload, selection, workload_of,
)

# A workload endpoint: its pod's name behind the namespace (or its own), its id in answers, what a packet needs of it, the
# addresses of the node that it is on, as far as the input tells them, its own labels, the ports that have names, what it
# belongs to, and what policies see of it beside its addresses.
Endpoint = collections.namedtuple("Endpoint", "name id node interface addresses hosts labels ports workload traits")
# An end of a connection that is no workload endpoint.
Outside = collections.namedtuple("Outside", "address")
# The processes of a node itself, which no interface of a workload leads to.
NodeEnd = collections.namedtuple("NodeEnd", "name node addresses interface", defaults=(None,))

PATTERN_LETTERS = "*?["
# As a host is named in DNS: parts with dots between them, the last of letters.
HOST_NAME = re.compile(r"[A-Za-z0-9-]+(\.[A-Za-z0-9-]+)*\.[A-Za-z]+\.?\Z")
NODE_FRONT = "node:"
SHOWN = 5


class UnknownEnd(Exception):
    """A name or an address fits no end, or several; the text says which."""


class Cluster:
    """The resources that stand once all lines were taken; of one that was put twice the last."""

    def __init__(self, lines, pods_left_out=None, beside=()):
        self.pods_left_out = pods_left_out or {}
        self.beside = list(beside)
        self.written = collections.OrderedDict()
        made = collections.OrderedDict()
        for line in lines:
            key = stands_as(key_of(line.resource))
            self.written.pop(key, None)
            made.pop(key, None)
            if line.action == "put":
                self.written[key], made[key] = line.written, line.resource
        self.endpoints = [endpoint_of(resource, self.written[key]) for key, resource in made.items()
                          if key[:2] == (CALICO, "WorkloadEndpoint")]
        self.nodes = self.node_addresses()
        self.workloads = by_workload(self.endpoints)
        self.kinds_of_name = collections.Counter((it.namespace, it.name) for it in self.workloads)
        self.workloads_left_out = by_workload(self.pods_left_out.values())

    def node_addresses(self):
        """The addresses of each node, by the node itself and by what its pods say of it."""
        nodes = collections.OrderedDict()
        for resource in self.of_kind("Node"):
            told = [text_of(item.get("address")) for item in objects(part(resource, "status", "addresses"))
                    if item.get("type") in ("InternalIP", "ExternalIP")]
            nodes.setdefault(text_of(part(resource, "metadata", "name")), []).extend(filter(is_address, told))
        for pod in self.endpoints + [pod for pod in self.pods_left_out.values() if pod.node]:
            known = nodes.setdefault(pod.node, [])
            known += [address for address in pod.hosts if address not in known]
        return nodes

    def of_kind(self, kind):
        """The resources of a kind that becomes no line."""
        return [resource for resource in self.beside if resource.get("kind") == kind]

    def resource(self, version, kind, namespace, name):
        return self.written.get(stands_as((version, kind, namespace, name)))

    def ends(self, text):
        """The ends that a name of a pod or of several, a pattern of names or an address stands for."""
        if is_address(text):
            return [self.end_at(text)]
        refuse_other_addresses(text)
        if text.startswith(NODE_FRONT):
            return [self.node_end(text[len(NODE_FRONT):])]
        if is_selection(text):
            return self.selected(text)
        if any(letter in text for letter in PATTERN_LETTERS):
            return self.named_like(text)
        return self.named(text)

    def end_at(self, address):
        found = [endpoint for endpoint in self.endpoints if address in endpoint.addresses]
        if len(found) > 1:
            raise UnknownEnd("%s is the address of several endpoints: %s" % (address, ", ".join(e.name for e in found)))
        return found[0] if found else Outside(address)

    def node_end(self, name):
        if name not in self.nodes:
            raise UnknownEnd("no node %s in the input%s" % (name, near_words(name, list(self.nodes))))
        return NodeEnd("the node " + name, name, self.nodes[name])

    def nodes_at(self, address):
        """The names of the nodes that have an address."""
        return [name for name, addresses in self.nodes.items() if address in addresses]

    def named_like(self, pattern):
        found = [endpoint for endpoint in self.endpoints if fnmatch.fnmatchcase(endpoint.name, pattern)]
        if not found:
            raise UnknownEnd(self.why_empty() or "no pod has a name like %s" % pattern)
        return found

    def selected(self, text):
        """The pods of a namespace that have some labels."""
        wanted = selection(text)
        if not wanted:
            raise UnknownEnd("%s isn't NAMESPACE/LABEL=VALUE" % text)
        inside = [it for it in self.endpoints if fnmatch.fnmatchcase(it.name.partition("/")[0], wanted[0])]
        found = [endpoint for endpoint in inside if has_labels(endpoint.labels, wanted[1])]
        if not found:
            raise UnknownEnd(self.why_empty() or "no pod in %s has the labels %s" % (wanted[0], text.partition("/")[2]))
        return found

    def named(self, name):
        """The pod of this name, or all pods of the workload of this name."""
        found = [endpoint for endpoint in self.endpoints if name in (endpoint.name, endpoint.id)]
        if len(found) > 1:
            raise UnknownEnd("%s has several endpoints: %s; name one of these" % (name, ", ".join(e.id for e in found)))
        found = found or self.of_workload(name, self.workloads) or self.nodes_of(name)
        if not found:
            raise UnknownEnd(self.why_unknown(name))
        return found

    def of_workload(self, name, workloads):
        """What belongs to the one of these workloads that a name is of."""
        kind, namespace, own = named_workload(name) or (None, None, None)
        found = [workload for workload in workloads
                 if workload.name == own and namespace in (None, workload.namespace) and kind in (None, workload.kind)]
        if len(found) > 1:
            told = ", ".join("%s/%s/%s" % (it.namespace, it.kind, it.name) for it in found)
            raise UnknownEnd("%s is the name of several: %s" % (name, told))
        return workloads[found[0]] if found else []

    def left_out(self, name):
        """The pods without an endpoint that a pod's or a workload's name is of."""
        if name in self.pods_left_out:
            return [self.pods_left_out[name]]
        return [] if self.of_workload(name, self.workloads) else self.of_workload(name, self.workloads_left_out)

    def nodes_of(self, name):
        """The nodes of pods on the host's network, which are as their nodes are."""
        nodes = [pod.node for pod in self.left_out(name) if pod.why == ON_HOST and pod.node in self.nodes]
        return [self.node_end(node) for node in dict.fromkeys(nodes)]

    def pods_of(self, workload):
        return self.workloads.get(workload, [])

    def name_of_workload(self, workload):
        """The workload's name; with its kind where several have that name."""
        if self.kinds_of_name[workload.namespace, workload.name] < 2:
            return name_of_workload(workload)
        return "%s/%s/%s" % (workload.namespace, workload.kind, workload.name)

    def is_on_host(self, name):
        """Whether a name is that of pods on the host's network, in whose place nodes are asked about."""
        is_named = any(name in (endpoint.name, endpoint.id) for endpoint in self.endpoints)
        return not is_named and bool(self.nodes_of(name))

    def why_empty(self):
        """That there is no pod to be asked about, where that is so."""
        if self.endpoints:
            return ""
        if not self.pods_left_out:
            return "no pods in the input"
        reasons = collections.Counter(pod.why for pod in self.pods_left_out.values())
        return "no pods in the input that a packet can reach: " + ", ".join("%d %s" % (n, why) for why, n in sorted(reasons.items()))

    def why_unknown(self, name):
        if "/" not in name:
            return self.why_no_name(name)
        if self.left_out(name):
            return self.why_left_out(name)
        if not self.endpoints:
            return self.why_empty()
        if self.service(name):
            return service_words(self.service(name), name)
        begin = [endpoint.name for endpoint in self.endpoints if endpoint.name.startswith(name)]
        if begin:
            return "no running pod %s in the input; there %s %s" % (name, "is" if len(begin) == 1 else "are", shown_names(begin))
        return "no running pod %s in the input%s" % (name, near_words(name, self.names()))

    def why_no_name(self, text):
        """Why a text without a namespace is no end."""
        if HOST_NAME.match(text):
            return "%s is no address, and names of hosts aren't looked up: give an address of it" % text
        own = [name for name in self.names() if name.partition("/")[2] == text]
        return "%s is neither an address nor a name; a pod is named NAMESPACE/POD%s" % (
            text, "; there is " + shown_names(own) if own else "")

    def service(self, name):
        """The Service of this name, or None."""
        for resource in self.of_kind("Service"):
            if name == "%s/%s" % (part(resource, "metadata", "namespace"), part(resource, "metadata", "name")):
                return resource
        return None

    def names(self):
        """The names of workloads and pods."""
        names = [name_of_workload(it) for it in self.workloads] + [endpoint.name for endpoint in self.endpoints]
        return list(dict.fromkeys(names))

    def why_left_out(self, name):
        left_out = self.left_out(name)
        first, whose = left_out[0], "the pod %s has" if name in self.pods_left_out else "the pods of %s have"
        if first.why != ON_HOST:
            return (whose + " no workload endpoint (%s)") % (name, ", ".join(sorted({pod.why for pod in left_out})))
        return ("the pod %s is on the host's network: it has its node's addresses and no workload endpoint, so ask about its node, "
                "by --from-node or --to-node %s" % (name, first.node or "NODE"))


def by_workload(pods):
    """Pods by what they belong to."""
    found = collections.defaultdict(list)
    for pod in pods:
        found[pod.workload].append(pod)
    return found


def service_words(resource, name):
    """By what to ask in the place of a Service's name."""
    address = text_of(part(resource, "spec", "clusterIP"))
    if not is_address(address):
        return "%s is a Service without an address, and no pod: ask about the pods behind it" % name
    return "%s is a Service, and no pod: ask by its cluster IP, %s, to a port of it" % (name, address)


def near_words(name, names):
    near = difflib.get_close_matches(name, names, 3)
    return "; there is " + ", ".join(near) if near else ""


def shown_names(names):
    """Some of the names, and how many there are beside these."""
    more = len(names) - SHOWN
    return ", ".join(names[:SHOWN]) + (" and %d more" % more if more > 0 else "")


def refuse_other_addresses(text):
    """That an end is no address of IPv6 and no net, which no question is about."""
    try:
        found = ipaddress.ip_interface(text)
    except ValueError:
        return
    if found.version == 6:
        raise UnknownEnd("%s is %s of IPv6, which isn't modelled: all answers are those of IPv4" % (
            text, "a net" if "/" in text else "an address"))
    raise UnknownEnd("%s is a net, and a packet has one address at each end: give an address of it" % text)


def standing_lines(lines, refusals):
    """The lines without those that were refused."""
    refused = {id(line) for line, _ in refusals}
    return [line for line in lines if id(line) not in refused]


def endpoint_of(resource, written):
    namespace = text_of(part(resource, "metadata", "namespace"))
    own = text_of(part(resource, "metadata", "name"))
    pod = text_of(part(resource, "spec", "pod"))
    nets = part(resource, "spec", "ipNetworks")
    return Endpoint(
        name="%s/%s" % (namespace, pod or own),
        id="%s/%s" % (namespace, own),
        node=text_of(part(resource, "spec", "node")),
        interface=text_of(part(resource, "spec", "interfaceName")),
        addresses=[text_of(net).split("/")[0] for net in nets if ":" not in text_of(net)] if isinstance(nets, list) else [],
        hosts=host_addresses(written),
        labels=members(part(resource, "metadata", "labels")),
        ports=objects(part(resource, "spec", "ports")),
        workload=workload_of(written, namespace, pod or own),
        traits=traits_of(resource),
    )


def traits_of(resource):
    """What policies see of an endpoint, beside its addresses and its namespace."""
    spec = part(resource, "spec") or {}
    ports = sorted(json.dumps(port, sort_keys=True) for port in objects(spec.get("ports")))
    told = [part(resource, "metadata", "labels"), ports] + [spec.get(name) for name in ("orchestrator", "serviceAccountName", "profiles")]
    return json.dumps(told, sort_keys=True)
