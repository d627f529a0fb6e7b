"""Lines that put resources, made from their parts, for runs at the limits."""
import json

CALICO = "projectcalico.org/v3"
IN_SYNC = b'{"inSync":true}\n'
FLUSH = b'{"flush":{}}\n'


def compact(value):
    return json.dumps(value, separators=(",", ":"))


def put(kind, metadata, spec=None, version=CALICO):
    return ('{"put":%s}\n' % compact({"apiVersion": version, "kind": kind, "metadata": metadata, "spec": spec or {}})).encode("ascii")


def policy(name, selector=None, **spec):
    if selector is not None:
        spec["selector"] = selector
    return put("GlobalNetworkPolicy", {"name": name}, spec)


def endpoint(name, interface, labels=None, node="n1", profiles=(), addresses=("10.0.0.1",), **spec):
    spec.update(node=node, interfaceName=interface, ipNetworks=list(addresses), profiles=list(profiles))
    return put("WorkloadEndpoint", {"name": name, "namespace": "a", "labels": labels or {}}, spec)


def batch(lines):
    """The line of a batch of what these lines put."""
    return b'{"batch":[%s]}\n' % b",".join(line.strip() for line in lines)


def served(*lines):
    """The lines of a start, and a flush behind them."""
    return b"".join(lines) + IN_SYNC + FLUSH
