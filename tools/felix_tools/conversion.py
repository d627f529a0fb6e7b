"""From resources as kubectl and calicoctl print them to those that the program reads."""
import collections
import json

from felix_tools.fields import field_words, unknown_fields
from felix_tools.kinds import BESIDE, CALICO, KUBERNETES, READ, has_say, why_not_read
from felix_tools.orders import Orders
from felix_tools.pods import endpoint_of, host_addresses, why_no_endpoint
from felix_tools.reading import objects, part
from felix_tools.workloads import workload_of

NAME_LABEL = "projectcalico.org/name"
COPY_PREFIX = "knp.default."
# Endpoints come last, and before them what selects them: the program is faster so. What is one resource stays in its order.
RANKS = {"WorkloadEndpoint": 2, "GlobalNetworkPolicy": 1, "NetworkPolicy": 1, "NetworkSet": 1, "GlobalNetworkSet": 1}
NAMESPACED = {(KUBERNETES, "NetworkPolicy"), (CALICO, "NetworkPolicy"), (CALICO, "NetworkSet")}

# A line for the program: what is done with which resource, and the resource of the input that it was made of.
Line = collections.namedtuple("Line", "action resource written origin")


class LeftOut(collections.Counter):
    """How many resources of a kind were left out and why: by (kind, apiVersion, why, has a say in verdicts)."""

    def note(self, resource, why, is_deciding=False):
        version, kind = kind_of(resource)
        self[kind or "object without kind", version or "no apiVersion", why, is_deciding] += 1

    def texts(self, is_deciding):
        return ["%d %s of %s: %s" % (count, kind, version, why)
                for (kind, version, why, decides), count in sorted(self.items()) if decides == is_deciding]


# Why a pod has no endpoint, what is known of its node, and what it belongs to.
PodLeftOut = collections.namedtuple("PodLeftOut", "why node hosts workload")
# A resource that isn't read, or not as it is written, and may have a say. `is_selected` says whether that is so only where the
# program says that it applies.
Unread = collections.namedtuple("Unread", "resource origin why is_selected", defaults=(False,))


class Conversion:
    """The lines that were made of some changes, what was left out, and what is to be said of the changes themselves."""

    def __init__(self, changes):
        self.lines = []
        self.left_out = LeftOut()
        self.unread = []
        self.unknown_fields = []
        self.pods_left_out = {}
        self.beside = collections.OrderedDict()
        self.repeated = collections.OrderedDict()
        self.mistakes = []
        self.origins = {}
        self.pods = {}
        self.orders = Orders([change.resource for change in changes])
        self.kubernetes_policies = {key_of(c.resource) for c in changes if kind_of(c.resource) == (KUBERNETES, "NetworkPolicy")}
        self.namespaces = namespaces_of(changes)
        for change in changes:
            self.look_at(change)
            self.take(change)
        self.lines.sort(key=lambda line: RANKS.get(line.resource["kind"], 0))

    def take(self, change):
        written = change.resource
        why = self.why_left_out(written)
        if kind_of(written) in BESIDE:
            self.take_beside(change)
        if why:
            self.leave_out(change, why)
        elif kind_of(written) == ("v1", "Pod"):
            self.take_pod(change)
        else:
            self.lines.append(Line(change.action, converted(written, self.orders), written, change.origin))

    def leave_out(self, change, why):
        written = change.resource
        is_deciding = kind_of(written) not in READ and has_say(*kind_of(written))
        self.left_out.note(written, why, is_deciding)
        if is_deciding:
            self.unread.append(Unread(written, change.origin, why))

    def take_beside(self, change):
        self.beside.pop(key_of(change.resource), None)
        if change.action == "put":
            self.beside[key_of(change.resource)] = change

    def take_pod(self, change):
        pod = change.resource
        name = "%s/%s" % (part(pod, "metadata", "namespace"), part(pod, "metadata", "name"))
        if change.action == "delete":
            self.delete_pod(change, name)
            return
        why = why_no_endpoint(pod)
        if why:
            self.left_out.note(pod, why)
            self.pods_left_out[name] = pod_left_out(pod, why)
            return
        self.pods[name] = endpoint_of(pod)
        self.lines.append(Line(change.action, self.pods[name], pod, change.origin))

    def delete_pod(self, change, name):
        """A pod's endpoint is named after its node, which a delete need not tell."""
        self.pods_left_out.pop(name, None)
        if name in self.pods or not why_no_endpoint(change.resource):
            made = self.pods.pop(name, None) or endpoint_of(change.resource)
            self.lines.append(Line("delete", made, change.resource, change.origin))

    def why_left_out(self, resource):
        """Why this resource becomes no line, or None where it becomes one; pods have reasons of their own."""
        kind = kind_of(resource)
        if kind == ("v1", "Pod"):
            return None
        if kind not in READ:
            return why_not_read(*kind)
        if kind == (CALICO, "NetworkPolicy") and self.is_copy(resource):
            return "calicoctl's copy of a policy of Kubernetes that is there itself"
        return None

    def is_copy(self, resource):
        _, _, namespace, name = key_of(resource)
        return name.startswith(COPY_PREFIX) and \
            (KUBERNETES, "NetworkPolicy", namespace, name[len(COPY_PREFIX):]) in self.kubernetes_policies

    # ---- what is to be said of the changes themselves

    def look_at(self, change):
        """Notes what kubectl would say of a change, and what stands in two files."""
        key = self.key_here(change.resource)
        before = self.origins.get(key)
        if change.action == "delete":
            if before is None and kind_of(change.resource) in READ | {("v1", "Pod")}:
                self.mistakes.append("%s (%s) is deleted, and isn't there" % (display_name(change.resource), change.origin))
            self.origins.pop(key, None)
            return
        if before is not None and before.origin != change.origin:
            self.repeated[key] = (before, change)
        self.origins[key] = change
        self.look_at_fields(change)
        namespace = key_of(change.resource)[2]
        if kind_of(change.resource) in NAMESPACED and self.namespaces and namespace not in self.namespaces:
            self.mistakes.append("%s (%s) is of the namespace %s, which isn't in the input" % (
                display_name(change.resource), change.origin, namespace or "without a name"))

    def key_here(self, resource):
        """By what a resource is known: a pod by its endpoint, where it has one."""
        if kind_of(resource) == ("v1", "Pod"):
            name = "%s/%s" % (part(resource, "metadata", "namespace"), part(resource, "metadata", "name"))
            made = self.pods.get(name) or (None if why_no_endpoint(resource) else endpoint_of(resource))
            return stands_as(key_of(made or resource))
        return stands_as(key_of(resource))

    def look_at_fields(self, change):
        for path in unknown_fields(change.resource):
            self.unknown_fields.append(Unread(change.resource, change.origin, field_words(path), "[" in path))

    def repeated_texts(self):
        """What stands in two files, in words."""
        return ["%s stands in %s and in %s%s" % (
            display_name(new.resource), old.origin, new.origin,
            ", alike" if new.resource == old.resource else ", not alike: the last one counts")
            for old, new in self.repeated.values()]


def namespaces_of(changes):
    """The names of the namespaces that the changes tell of, as namespaces or as profiles."""
    named = {kind: {key_of(change.resource)[3] for change in changes if kind_of(change.resource) == kind}
             for kind in (("v1", "Namespace"), (CALICO, "Profile"))}
    front = "kns."
    return named["v1", "Namespace"] | {name[len(front):] for name in named[CALICO, "Profile"] if name.startswith(front)}


def display_name(resource):
    """The resource as a reader names it: kind, namespace and name."""
    _, kind, namespace, name = key_of(resource)
    return "%s %s" % (kind or "resource", "%s/%s" % (namespace, name) if namespace else name or "without a name")


def kind_of(resource):
    return text_of(resource.get("apiVersion")), text_of(resource.get("kind"))


def key_of(resource):
    return kind_of(resource) + (text_of(part(resource, "metadata", "namespace")), text_of(part(resource, "metadata", "name")))


def stands_as(key):
    """The key of the resource that this one is to the program: a namespace and a service account are profiles."""
    version, kind, namespace, name = key
    if (version, kind) == ("v1", "Namespace"):
        return CALICO, "Profile", "", "kns.%s" % name
    if (version, kind) == ("v1", "ServiceAccount"):
        return CALICO, "Profile", "", "ksa.%s.%s" % (namespace, name)
    return key


def text_of(value):
    """The value where it is a text, else one that nothing is named by."""
    return value if isinstance(value, str) else ""


def converted(written, orders):
    """The resource with what is read of it alone."""
    resource = {"apiVersion": written["apiVersion"], "kind": written["kind"], "metadata": metadata_of(written)}
    if "spec" in written and kind_of(written)[0] != "v1":
        resource["spec"] = spec_of(written, orders)
    return resource


def metadata_of(written):
    metadata = written.get("metadata")
    if not isinstance(metadata, dict):
        return metadata
    kept = {name: metadata[name] for name in ("name", "namespace", "labels") if metadata.get(name) is not None}
    if kind_of(written)[0] == "v1" and isinstance(kept.get("labels", {}), dict):
        kept["labels"] = dict(kept.get("labels", {}), **{NAME_LABEL: kept.get("name")})
    return kept


def spec_of(written, orders):
    """The specification as the program reads it: a workload endpoint's without the ports that have no name, which no policy can
    name; an order as a whole number; and without `applyOnForward`, which says nothing about workloads."""
    spec = written["spec"]
    ports = part(spec, "ports")
    if written["kind"] == "WorkloadEndpoint" and isinstance(ports, list):
        return dict(spec, ports=[port for port in objects(ports) if port.get("name")])
    if not isinstance(spec, dict) or kind_of(written)[0] != CALICO:
        return spec
    kept = {name: value for name, value in spec.items() if name != "applyOnForward" or value is not True or is_for_hosts(written)}
    if "order" in kept:
        kept["order"] = orders.of(written)
    return kept


def is_for_hosts(written):
    """Whether a policy is for host endpoints alone, as Calico says of one before NAT and of one without connection tracking."""
    return any(part(written, "spec", name) is True for name in ("preDNAT", "doNotTrack"))


# ---- rules that name services

SLICE = ("discovery.k8s.io/v1", "EndpointSlice")
SERVICE_LABEL = "kubernetes.io/service-name"


def services_lines(lines, beside):
    """The lines of EndpointSlices where some rule names a Service, else None; and the policies whose Service no slice tells of."""
    naming = [(line, named) for line in lines if line.action == "put" for named in services_named(line.resource)]
    if not naming:
        return None, []
    slices = [change for change in beside if kind_of(change.resource) == SLICE]
    told = {(key_of(it.resource)[2], part(it.resource, "metadata", "labels", SERVICE_LABEL)) for it in slices}
    unread = [Unread(line.written, line.origin, "it names the Service %s/%s, of which no EndpointSlice is in the input" % named, True)
              for line, named in naming if named not in told]
    return [Line(it.action, slice_of(it.resource), it.resource, it.origin) for it in slices], unread


def services_named(resource):
    """(namespace, name) of each Service that a rule of the resource names."""
    found = []
    for direction in ("ingress", "egress"):
        for rule in objects(part(resource, "spec", direction)):
            for side in ("source", "destination"):
                named = part(rule, side, "services")
                if isinstance(named, dict) and named:
                    found.append((named.get("namespace") or key_of(resource)[2], named.get("name")))
    return list(dict.fromkeys(found))


def slice_of(written):
    """An EndpointSlice with what is read of it alone."""
    made = {name: written[name] for name in ("apiVersion", "kind", "addressType") if name in written}
    made["metadata"] = metadata_of(written)
    made["endpoints"] = [{"addresses": item.get("addresses") or []} for item in objects(written.get("endpoints"))]
    made["ports"] = [{name: port[name] for name in ("port", "protocol") if port.get(name) is not None} for port in objects(written.get("ports"))]
    return made


# ---- lines

def convert(changes):
    return Conversion(changes)


def pod_left_out(pod, why):
    namespace, name = (text_of(part(pod, "metadata", member)) for member in ("namespace", "name"))
    return PodLeftOut(why, text_of(part(pod, "spec", "nodeName")), host_addresses(pod), workload_of(pod, namespace, name))


def line_text(line):
    return json.dumps({line.action: line.resource}, separators=(",", ":"))


def start_of(lines):
    """The lines of a start: what stands, and that it is all. felix-restore takes no more."""
    return "".join(text + "\n" for text in [line_text(line) for line in lines] + ['{"inSync":true}'])


def input_of(lines, packets=(), with_tables=False):
    """What felix-replay is given: the lines of a start, a flush, and what is asked then."""
    texts = ['{"flush":{}}']
    if with_tables:
        texts.append('{"tables":true}')
    texts += [json.dumps({"packet": packet}, separators=(",", ":")) for packet in packets]
    return start_of(lines) + "".join(text + "\n" for text in texts)
