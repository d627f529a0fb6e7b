"""Questions that no policy decides, or that aren't modelled: a pod and itself, and a node and its own pods."""
from felix_tools.questions import is_node, is_outside
from felix_tools.resolving import is_to_itself
from felix_tools.verdicts import ALLOWED, UNKNOWN, Answer, Reason

ITSELF = ": a pod reaches itself within its own network, so no policy is asked"
OWN_POD = ": a node always reaches its own pods, as the kubelet's probes do, so no policy is asked"
OWN_NODE = ("what a pod sends to its own node passes the node's INPUT and not FORWARD, where Calico asks the pod's "
            "policies for egress, and then `defaultEndpointToHostAction` of its FelixConfiguration decides; that isn't modelled")
ITSELF_BY_SERVICE = ("a pod that reaches itself through a Service has its own address changed on the way; that isn't "
                     "modelled")
OTHER_NODE = "%s is an address of the node %s, and is taken as any other: for its own side ask by --%s-node %s"
TUNNEL = "where nodes reach other nodes' pods through a tunnel, a node's packets have the tunnel's address: ask by --from-address"


def settled(question, cluster):
    """The answer to a question that the program isn't asked, or None."""
    if is_to_itself(question):
        if question.service:
            return unknown(question, ITSELF_BY_SERVICE)
        return allowed(question, "itself", ITSELF)
    if is_own_node(question.receiver, question.sender, cluster):
        return allowed(question, "own-node", OWN_POD)
    if is_own_node(question.sender, question.receiver, cluster):
        return unknown(question, OWN_NODE)
    if is_node(question.sender) and is_node(question.receiver) and question.sender.node == question.receiver.node:
        return unknown(question, "what a node sends to itself passes its loopback interface; that isn't modelled")
    return None


def unknown(question, cause):
    return Answer(question, UNKNOWN, [], list(question.notes), cause)


def allowed(question, sort, words):
    end = question.receiver
    return Answer(question, ALLOWED, [Reason("ingress", end.name, end.node, ALLOWED, sort, words)], list(question.notes))


def is_own_node(pod, other, cluster):
    """Whether the other end is the node that the pod is on."""
    if is_outside(pod) or is_node(pod):
        return False
    return is_node(other) and other.node == pod.node or is_outside(other) and pod.node in cluster.nodes_at(other.address)


def near_notes(question, cluster):
    """What is to be said of an end that is a node, or the address of one."""
    notes = [TUNNEL] if is_of_node(question.sender, cluster) and not is_node(question.receiver) else []
    for end in (question.sender, question.receiver):
        if is_outside(end):
            for node in cluster.nodes_at(end.address):
                notes.append(OTHER_NODE % (end.address, node, "from" if end == question.sender else "to", node))
    return notes


def why_nothing(wishes, cluster):
    """Why wishes ask nothing; of an address that is a node's by what to ask."""
    told = ["; %s is an address of the node %s, whose processes are asked about by --%s-node %s (in lists node:%s)" % (
        text, node, way, node, node) for wish in wishes for way, text in (("from", wish.sender), ("to", wish.receiver))
        for node in cluster.nodes_at(text)]
    return "of a question's two ends one at least is a pod or a node" + "".join(dict.fromkeys(told))


def is_of_node(end, cluster):
    return is_node(end) or is_outside(end) and bool(cluster.nodes_at(end.address))
