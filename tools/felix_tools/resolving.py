"""From a question as it was asked to those of pods: names and patterns, addresses, Services, nodes and their ports."""
from felix_tools import services
from felix_tools.cluster import NODE_FRONT, UnknownEnd
from felix_tools.questions import QuestionError, has_port, is_node, is_outside, question
from felix_tools.reading import is_address, part
from felix_tools.replicas import pair_of

MASQUERADE = ("the Service's traffic policy is Cluster, so a node that forwards to another node's pod puts its own "
              "address in the client's place: ask with --from-address NODE'S-ADDRESS too")
ON_HOST = "%s is on the host's network, so its node is asked about"
NODE_PORT = ("a node port is translated before the node's INPUT, and the packet is forwarded: the Service's pods are "
             "asked, and no host endpoint's policy, of which those with preDNAT or applyOnForward would meet it")


def resolve(wish, cluster, replicas=None, most=None):
    """The questions of a wish in a cluster, one for each pair of its ends of which one is a pod or a node; of pods that are alike in
    `replicas` one for all."""
    try:
        return resolved(wish, cluster, replicas, most)
    except (UnknownEnd, QuestionError) as fault:
        if not wish.place:
            raise
        raise type(fault)("%s: %s" % (wish.place, fault))


def resolved(wish, cluster, replicas, most):
    senders = senders_of(wish, cluster)
    through = service_questions(wish, cluster, senders)
    if through is not None:
        return through
    receivers = with_port(cluster.ends(wish.receiver), wish.traffic)
    is_one = len(senders) == len(receivers) == 1
    if replicas:
        senders, receivers = replicas.together(senders, receivers)
    else:
        senders, receivers = [(end,) for end in senders], [(end,) for end in receivers]
    check_number(len(senders) * len(receivers), most)
    notes = [ON_HOST % text for text in (wish.sender, wish.receiver) if cluster.is_on_host(text)]
    asked = [(*pair_of(several, others), several, others) for several in senders for others in receivers]
    return [question(a, b, wish, notes=notes)._replace(senders=several, receivers=others)
            for a, b, several, others in asked if (a != b or is_one) and not (is_outside(a) and is_outside(b))]


def with_port(receivers, traffic):
    """The receivers: of a port that is named those that name it, if some do."""
    if not isinstance(traffic.members.get("dport"), str):
        return receivers
    return [end for end in receivers if has_port(end, traffic)] or receivers[:1]


def check_number(number, most):
    """That no more questions are asked than may be."""
    if most is not None and number > most:
        raise QuestionError("these are {:,} questions, and --most says {:,} at most: name fewer ends, or give --most "
                            "a larger number".format(number, most))


def senders_of(wish, cluster):
    found = service_here(wish.sender, cluster)
    if found:
        raise QuestionError("%s, which sends nothing: its pods send from their own addresses" % services.told_as(found))
    return cluster.ends(wish.sender)


def service_here(text, cluster):
    """The Service that an address is of; none where a pod has the address."""
    if not is_address(text) or not is_outside(cluster.end_at(text)):
        return None
    return services.service_at(cluster, text)


def service_questions(wish, cluster, senders):
    """The questions to the pods behind a Service, where the receiver is an address of it or a node port; else None."""
    found = service_here(wish.receiver, cluster)
    if found:
        return questions_to(wish, cluster, senders, found)
    if wish.receiver.startswith(NODE_FRONT):
        return questions_to_node_port(wish, cluster, senders)
    if is_address(wish.receiver) and is_outside(cluster.end_at(wish.receiver)):
        services.refuse_proxy(cluster, wish.receiver)
    return None


def questions_to(wish, cluster, senders, found):
    services.check_ports(found, wish.traffic)
    entry = services.port_of(found, wish.traffic)
    title = services.title_of(found, wish.traffic)
    notes = [] if found.what == "cluster IP" else masquerade_notes(found.resource)
    return through(wish, cluster, senders, found.resource, entry, title, notes)


def questions_to_node_port(wish, cluster, senders):
    found = services.service_of_node_port(cluster, wish.traffic)
    if not found:
        return None
    node = cluster.node_end(wish.receiver[len(NODE_FRONT):])
    resource, entry = found
    name = services.name_of_service(resource)
    title = "the node port of the Service %s (node %s, %s)" % (name, node.node, wish.traffic.words)
    return through(wish, cluster, senders, resource, entry, title, [NODE_PORT] + masquerade_notes(resource))


def through(wish, cluster, senders, resource, entry, title, notes):
    found = services.behind(cluster, resource, entry, wish.traffic)
    return [question(sender, one.end, wish._replace(traffic=one.traffic), title, notes)
            for sender in senders for one in found if not (is_outside(sender) and is_outside(one.end))]


def masquerade_notes(resource):
    return [] if part(resource, "spec", "externalTrafficPolicy") == "Local" else [MASQUERADE]


def is_to_itself(asked):
    return asked.sender == asked.receiver and not is_outside(asked.sender) and not is_node(asked.sender)
