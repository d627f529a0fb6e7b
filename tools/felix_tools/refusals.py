"""Why the program refused a resource, in words (docs/INPUT.md says when it does)."""
import json
import re

FAULTS = {
    "UnknownKind": "no kind that is read",
    "MissingField": "a member that is required is absent",
    "BadField": "a value of another form than is read",
    "BadSelector": "the selector doesn't parse; the number is the place in it",
    "Unsupported": "a value that isn't read yet",
    "PortsWithoutProtocol": "ports without protocol TCP, UDP or SCTP",
    "IcmpWithoutProtocol": "icmp without protocol ICMP",
    "PassInProfile": "Pass in a profile",
    "BlockWithSelector": "ipBlock beside a selector",
    "BadEndPort": "an endPort that isn't one",
    "BadExpression": "an expression of a selector that isn't one",
    "LineTooLong": "the resource is longer than 4 MiB",
    "BadJson": "no JSON in UTF-8",
    "BadLine": "no resource",
    "Taken": "another resource has its name in the kernel",
}
# What a value at a path should be; the first pattern that fits the path's end counts.
WANTED = [
    (r"spec\.order", "a number"),
    (r"spec\.defaultAction", "Deny or Pass"),
    (r"(types|policyTypes)(\[\d+\])?", "a list of Ingress and Egress"),
    (r"metadata\.namespace", "a namespace: 1 to 63 of a-z, 0-9 and -"),
    (r"(metadata\.name|spec\.node|spec\.tier|serviceAccountName|orchestrator|(names|profiles)\[\d+\]|services\.name)",
     "a name: 1 to 253 of A-Z, a-z, 0-9, _, . and -"),
    (r"(labels|labelsToApply|matchLabels)(\..*)?", "labels: an object whose values are texts"),
    (r"action", "Allow, Deny, Log or Pass"),
    (r"ipVersion", "4 or 6"),
    (r"(protocol|notProtocol)",
     "TCP, UDP, ICMP, ICMPv6, SCTP, UDPLite or a number from 1 to 255; of Kubernetes TCP, UDP or SCTP"),
    (r"(nets|notNets|ipNetworks|except)\[\d+\]|cidr", "a net, as 10.0.0.0/8"),
    (r"(ports|notPorts)\[\d+\](\.port)?", "a port: a number, a range as 8000:8080, or a port's name"),
    (r"icmp\.type|notICMP\.type", "a number from 0 to 254"),
    (r"icmp\.code|notICMP\.code", "a number from 0 to 255"),
    (r"interfaceName", "an interface of 1 to 15 letters, a workload's begins with cali"),
    (r"(doNotTrack|preDNAT|applyOnForward)", "true or false"),
    (r"(selector|notSelector|namespaceSelector|serviceAccountSelector)", "a text: a selector"),
    (r"(ingress|egress|from|to|ports|nets|notNets|notPorts|profiles|ipNetworks|except|names|matchExpressions)",
     "a list"),
    (r"(spec|metadata|source|destination|icmp|notICMP|podSelector|ipBlock|serviceAccounts|services|\w+\[\d+\])",
     "an object"),
]
SHOWN = 40


def fault_words(refusal, written):
    """The fault, its place and what is wanted: `BadField at spec.order (a number is wanted there, and not "ten")`."""
    where = " at %s" % refusal.rest if refusal.rest and refusal.name != "Taken" else ""
    return "%s%s (%s)" % (refusal.name, where, why_words(refusal, written))


def why_words(refusal, written):
    why = FAULTS.get(refusal.name, refusal.name)
    if refusal.name == "Taken":
        return "%s: %s" % (why, refusal.rest)
    wanted = wanted_at(refusal.rest) if refusal.name == "BadField" else ""
    if not wanted:
        return why
    found = value_at(written, refusal.rest)
    return "%s is wanted there%s" % (wanted, ", and not %s" % shown(found) if found is not None else "")


def wanted_at(path):
    return next((words for pattern, words in WANTED if re.search(r"(^|\.)(%s)$" % pattern, path)), "")


def value_at(value, path):
    """What stands at a path of a resource, or None."""
    for name, place in re.findall(r"([^.\[\]]+)|\[(\d+)\]", path):
        if place:
            value = value[int(place)] if isinstance(value, list) and int(place) < len(value) else None
        else:
            value = value.get(name) if isinstance(value, dict) else None
    return value


def shown(value):
    text = json.dumps(value, ensure_ascii=False)
    return text if len(text) <= SHOWN else text[:SHOWN] + ".."
