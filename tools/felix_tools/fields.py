"""Fields that the kinds that are read don't have, told as kubectl tells them: `unknown field "spec.podSelecter"`.

The fields are those of Kubernetes' API reference and of Calico's resource reference. LEAF stands for a value that isn't
looked into."""
from felix_tools.kinds import CALICO, KUBERNETES

LEAF = None
METADATA = dict.fromkeys((
    "name", "namespace", "labels", "annotations", "uid", "resourceVersion", "generation", "creationTimestamp",
    "deletionTimestamp", "deletionGracePeriodSeconds", "finalizers", "generateName", "managedFields", "ownerReferences",
    "selfLink", "clusterName"))


def resource(spec=LEAF, **more):
    return dict({"apiVersion": LEAF, "kind": LEAF, "metadata": METADATA, "spec": spec, "status": LEAF}, **more)


LABEL_SELECTOR = {"matchLabels": LEAF, "matchExpressions": dict.fromkeys(("key", "operator", "values"))}
BLOCK = dict.fromkeys(("cidr", "except"))
PEER = {"podSelector": LABEL_SELECTOR, "namespaceSelector": LABEL_SELECTOR, "ipBlock": BLOCK}
PORT = dict.fromkeys(("protocol", "port", "endPort"))
SIDE = dict(dict.fromkeys(("nets", "notNets", "selector", "notSelector", "namespaceSelector", "ports", "notPorts")),
            services=dict.fromkeys(("name", "namespace")), serviceAccounts=dict.fromkeys(("names", "selector")))
ICMP = dict.fromkeys(("type", "code"))
RULE = dict(dict.fromkeys(("action", "ipVersion", "protocol", "notProtocol")), icmp=ICMP, notICMP=ICMP,
            source=SIDE, destination=SIDE,
            http={"methods": LEAF, "paths": dict.fromkeys(("exact", "prefix"))}, metadata={"annotations": LEAF})
POLICY = dict(dict.fromkeys(("tier", "order", "selector", "serviceAccountSelector", "types", "performanceHints")),
              ingress=RULE, egress=RULE)
GLOBAL_POLICY = dict(POLICY, **dict.fromkeys(("namespaceSelector", "doNotTrack", "preDNAT", "applyOnForward")))
ENDPOINT = dict.fromkeys((
    "orchestrator", "workload", "node", "containerID", "pod", "endpoint", "serviceAccountName", "ipNetworks", "ipNATs",
    "ipv4Gateway", "ipv6Gateway", "profiles", "interfaceName", "mac", "ports", "allowSpoofedSourcePrefixes", "qosControls"))
FIELDS = {
    ("v1", "Pod"): resource(),
    ("v1", "Namespace"): resource({"finalizers": LEAF}),
    ("v1", "ServiceAccount"): resource(secrets=LEAF, imagePullSecrets=LEAF, automountServiceAccountToken=LEAF),
    (KUBERNETES, "NetworkPolicy"): resource({
        "podSelector": LABEL_SELECTOR, "policyTypes": LEAF,
        "ingress": {"from": PEER, "ports": PORT}, "egress": {"to": PEER, "ports": PORT}}),
    (CALICO, "Tier"): resource(dict.fromkeys(("order", "defaultAction"))),
    (CALICO, "GlobalNetworkPolicy"): resource(GLOBAL_POLICY),
    (CALICO, "NetworkPolicy"): resource(POLICY),
    (CALICO, "NetworkSet"): resource({"nets": LEAF}),
    (CALICO, "GlobalNetworkSet"): resource({"nets": LEAF}),
    (CALICO, "Profile"): resource({"ingress": RULE, "egress": RULE, "labelsToApply": LEAF}),
    (CALICO, "WorkloadEndpoint"): resource(ENDPOINT),
}


def unknown_fields(value):
    """The paths of a resource's members that its kind doesn't have."""
    kind = value.get("apiVersion"), value.get("kind")
    known = FIELDS.get(kind) if all(isinstance(name, str) for name in kind) else None
    return list(unknown_below(value, known, "")) if known else []


def unknown_below(value, known, path):
    if known is LEAF:
        return
    if isinstance(value, list):
        for place, item in enumerate(value):
            yield from unknown_below(item, known, "%s[%d]" % (path, place))
        return
    for name, held in value.items() if isinstance(value, dict) else ():
        below = "%s.%s" % (path, name) if path else name
        if name not in known:
            yield below
        else:
            yield from unknown_below(held, known[name], below)


def field_words(path):
    return 'unknown field "%s"' % path
