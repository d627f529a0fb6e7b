"""A pod as the workload endpoint that Calico makes of it (libcalico-go, the conversion of pods)."""
import hashlib

from felix_tools.kinds import CALICO
from felix_tools.reading import is_address, objects, part

ENDED = ("Succeeded", "Failed", "Completed")
PROTOCOLS = ("TCP", "UDP", "SCTP")
ON_HOST = "on the host's network"
ADDRESSES_NOTE = "cni.projectcalico.org/podIPs"
ADDRESS_NOTE = "cni.projectcalico.org/podIP"


def why_no_endpoint(pod):
    """Why the pod has no endpoint, in words, or None where it has one."""
    if part(pod, "spec", "hostNetwork") is True:
        return ON_HOST
    if not part(pod, "spec", "nodeName"):
        return "not on a node yet"
    if has_ended(pod):
        return "ended"
    if not addresses(pod):
        return "without an address"
    return None


def has_ended(pod):
    if part(pod, "status", "phase") in ENDED:
        return True
    # Calico's plugin empties this annotation when it takes the network from a pod that is being deleted.
    return bool(part(pod, "metadata", "deletionTimestamp")) and part(pod, "metadata", "annotations", ADDRESS_NOTE) == ""


def addresses(pod):
    """The pod's addresses: by its status, or before the kubelet wrote that, by the annotations of Calico's plugin."""
    several = [item.get("ip") for item in objects(part(pod, "status", "podIPs"))]
    if several:
        return [address for address in several if address and isinstance(address, str)]
    one = part(pod, "status", "podIP")
    if one and isinstance(one, str):
        return [one]
    notes = part(pod, "metadata", "annotations", ADDRESSES_NOTE) or part(pod, "metadata", "annotations", ADDRESS_NOTE) or ""
    if not isinstance(notes, str):
        return []
    return [note.split("/")[0] for note in notes.split(",") if note]


def host_addresses(pod):
    """The IPv4 addresses of the node that a pod is on, which its status tells."""
    told = [part(pod, "status", "hostIP")] + [item.get("ip") for item in objects(part(pod, "status", "hostIPs"))]
    return list(dict.fromkeys(address for address in told if isinstance(address, str) and is_address(address)))


def endpoint_of(pod):
    """The workload endpoint of a pod that has one."""
    namespace, name = part(pod, "metadata", "namespace"), part(pod, "metadata", "name")
    node, account = part(pod, "spec", "nodeName"), part(pod, "spec", "serviceAccountName")
    spec = {
        "orchestrator": "k8s",
        "node": node,
        "pod": name,
        "endpoint": "eth0",
        "interfaceName": interface_name(namespace, name),
        "ipNetworks": [net_of(address) for address in addresses(pod)],
        "profiles": ["kns.%s" % namespace],
    }
    if account:
        spec["serviceAccountName"] = account
        spec["profiles"].append("ksa.%s.%s" % (namespace, account))
    ports = named_ports(pod)
    if ports:
        spec["ports"] = ports
    metadata = {"name": endpoint_name(node, name), "namespace": namespace}
    if part(pod, "metadata", "labels"):
        metadata["labels"] = part(pod, "metadata", "labels")
    return {"apiVersion": CALICO, "kind": "WorkloadEndpoint", "metadata": metadata, "spec": spec}


def interface_name(namespace, name):
    digest = hashlib.sha1(("%s.%s" % (namespace, name)).encode("utf-8")).hexdigest()
    return "cali" + digest[:11]


def endpoint_name(node, pod):
    """Calico's name of the endpoint; a dash within a part is doubled."""
    return "-".join(text.replace("-", "--") for text in (str(node), "k8s", str(pod), "eth0"))


def net_of(address):
    return address + ("/128" if ":" in address else "/32")


def named_ports(pod):
    """The ports that policies can name; a port without a name is left out."""
    ports = []
    for container in objects(part(pod, "spec", "containers")):
        for port in objects(container.get("ports")):
            protocol = port.get("protocol") or "TCP"
            if port.get("name") and port.get("containerPort") and protocol in PROTOCOLS:
                ports.append({"name": port["name"], "protocol": protocol, "port": port["containerPort"]})
    return ports
