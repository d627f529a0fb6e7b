"""Pods of one workload that no policy can tell apart: they are asked about once; and where all answers of pods are
equal, they are one row."""
import bisect
import collections
import dataclasses
import ipaddress
import sys

from felix_tools.questions import is_node, is_outside, name_of

ENDPOINT = "WorkloadEndpoint"
# How many names a title lists.
SHOWN = 5
# From so many questions on it is told how many they are.
MANY = 1000


class Replicas:
    """Which pods are alike in each of some clusters: of one workload, with equal labels, account, profiles and ports,
    each with one address of its own, and these addresses in the same ones of all nets of the input."""

    def __init__(self, *clusters):
        self.clusters = clusters
        self.kinds = collections.defaultdict(list)
        for number, cluster in enumerate(clusters):
            kinds = kinds_of(cluster)
            for endpoint in cluster.endpoints:
                self.kinds[endpoint.id].append((number, kinds[endpoint.id]))

    def together(self, senders, receivers):
        """The senders and the receivers, those together that are asked about at once."""
        senders, receivers = self.crowds(senders), self.crowds(receivers)
        if self.tells_nodes_apart(senders) or self.tells_nodes_apart(receivers):
            return each(senders), each(receivers)
        return senders, receivers

    def crowds(self, ends):
        """The ends in their order, those that are alike together."""
        found = collections.OrderedDict()
        for end in ends:
            is_pod = not is_outside(end) and not is_node(end)
            key = tuple(self.kinds[end.id]) if is_pod and end.id in self.kinds else id(end)
            found.setdefault(key, []).append(end)
        return [tuple(crowd) for crowd in found.values()]

    def tells_nodes_apart(self, crowds):
        """Whether some end is a node's, to whose own pods other words apply than to pods of other nodes."""
        ends = [end for crowd in crowds for end in crowd if is_node(end) or is_outside(end)]
        return any(is_node(end) or cluster.nodes_at(end.address) for end in ends for cluster in self.clusters)


def each(crowds):
    return [(end,) for crowd in crowds for end in crowd]


def pair_of(senders, receivers):
    """Two ends that are asked about for all of these: not a pod and itself, if there are others."""
    first, last = senders[0], receivers[-1]
    if first is not last:
        return first, last
    return (senders[1], last) if len(senders) > 1 else (first, receivers[0])


def kinds_of(cluster):
    """What policies see of each endpoint, by its id: equal where they see the same."""
    owners = collections.Counter(address for endpoint in cluster.endpoints for address in endpoint.addresses)
    cells = Cells(nets_of(cluster))
    kinds = {}
    for endpoint in cluster.endpoints:
        if len(endpoint.addresses) == 1 and owners[endpoint.addresses[0]] == 1:
            kinds[endpoint.id] = (endpoint.workload, endpoint.traits, cells.of(endpoint.addresses[0]))
        else:
            kinds[endpoint.id] = endpoint.id
    return kinds


def nets_of(cluster):
    """All nets and addresses that stand in resources of the input, except for those of endpoints."""
    texts = set()
    for key, resource in cluster.written.items():
        if key[1] != ENDPOINT:
            collect_texts(resource.get("spec"), texts)
    for resource in cluster.beside:
        if resource.get("kind") in ("EndpointSlice", "HostEndpoint"):
            collect_texts([resource.get("endpoints"), resource.get("spec")], texts)
    return [net for net in map(net_of, texts) if net]


def collect_texts(value, texts):
    if isinstance(value, str):
        texts.add(value)
    elif isinstance(value, (dict, list)):
        for item in value.values() if isinstance(value, dict) else value:
            collect_texts(item, texts)


def net_of(text):
    try:
        net = ipaddress.ip_network(text, strict=False)
    except ValueError:
        return None
    return net if net.version == 4 else None


class Cells:
    """Which of some nets have an address: equal for two addresses where the same nets have them."""

    def __init__(self, nets):
        ends = collections.defaultdict(int)
        for number, net in enumerate(nets):
            ends[int(net.network_address)] ^= 1 << number
            ends[int(net.broadcast_address) + 1] ^= 1 << number
        self.starts, self.members = [-1], [0]
        for start in sorted(ends):
            self.starts.append(start)
            self.members.append(self.members[-1] ^ ends[start])

    def of(self, address):
        return self.members[bisect.bisect_right(self.starts, int(ipaddress.ip_address(address))) - 1]


# ---- answers that are equal

def merged(answers, cluster, value_of):
    """The answers, those that are equal (by `value_of`) for all pods of a workload, or for some of them, as one."""
    by_traffic = collections.OrderedDict()
    for answer in answers:
        by_traffic.setdefault((answer.question.traffic.words, answer.question.service), []).append(answer)
    return [named(made, cluster) for group in by_traffic.values() for made in Table(group, value_of).merged()]


def named(answer, cluster):
    """An answer whose ends are named, where it is of several pods."""
    asked = answer.question
    if len(asked.senders) == len(asked.receivers) == 1:
        return answer
    ends = asked.senders, asked.receivers
    names = tuple(names_of(it, cluster) for it in ends)
    return answer.of(asked._replace(names=names), [counted(it, cluster) for it in ends])


def tell_number(questions):
    """Tells how many questions there are, if they are many, and how many of them are asked."""
    pairs = sum(map(pairs_of, questions))
    if pairs >= MANY:
        print("{:,} questions, of which {:,} are asked: pods that no policy tells apart have one answer".format(
            pairs, len(questions)), file=sys.stderr)


def pairs_of(asked):
    """For how many pairs of ends a question is asked."""
    shared = set(map(id, asked.senders)) & set(map(id, asked.receivers))
    return max(1, len(asked.senders) * len(asked.receivers) - len(shared))


class Table:
    """Answers about one traffic, by the ends that each stands for."""

    def __init__(self, answers, value_of):
        self.answers = collections.OrderedDict()
        for answer in answers:
            self.answers[ends_of(answer.question.senders), ends_of(answer.question.receivers)] = answer
        self.values = {key: value_of(answer) for key, answer in self.answers.items()}
        self.senders = {ends_of(it.question.senders): it.question.senders for it in answers}
        self.receivers = {ends_of(it.question.receivers): it.question.receivers for it in answers}
        self.apart = set()

    def merged(self):
        while True:
            rows = self.groups(self.senders, self.receivers, lambda end, other: (end, other))
            columns = self.groups(self.receivers, self.senders, lambda end, other: (other, end))
            blocks, mixed = self.blocks(rows, columns)
            if not mixed:
                return blocks
            self.apart |= mixed

    def groups(self, ends, others, key):
        """Which ends are in which group: (ends of the group) by end."""
        found, groups = collections.defaultdict(list), {}
        for end, held in ends.items():
            workload = workload_of(held)
            alike = [] if workload is None or workload in self.apart else [
                group for group in found[workload] if all(self.are_alike(end, it, others, key) for it in group)]
            groups[end] = alike[0] if alike else []
            if not alike:
                found[workload].append(groups[end])
            groups[end].append(end)
        return groups

    def are_alike(self, end, other, others, key):
        """Whether two ends have equal answers; what neither of them is asked about itself doesn't count."""
        return all(self.values.get(key(end, it)) == self.values.get(key(other, it))
                   for it in others if it not in (end, other))

    def blocks(self, rows, columns):
        """The answers by group and group, and the workloads of groups whose answers aren't all equal."""
        found, mixed = collections.OrderedDict(), set()
        for (sender, receiver), answer in self.answers.items():
            found.setdefault((tuple(rows[sender]), tuple(columns[receiver])), []).append((sender, receiver))
        for keys in found.values():
            first = self.values[keys[0]]
            if any(self.values[key] != first for key in keys):
                mixed |= {workload_of(self.senders[end]) for end, _ in keys}
                mixed |= {workload_of(self.receivers[end]) for _, end in keys}
        return [self.joined(*groups, keys[0]) for groups, keys in found.items()], mixed - {None} - self.apart

    def joined(self, senders, receivers, key):
        answer = self.answers[key]
        asked = answer.question._replace(senders=each_once(end for it in senders for end in self.senders[it]),
                                         receivers=each_once(end for it in receivers for end in self.receivers[it]))
        return dataclasses.replace(answer, question=asked)


def each_once(ends):
    return tuple({ends_of([end]): end for end in ends}.values())


def ends_of(ends):
    """What tells ends apart, whatever their order."""
    return tuple(sorted(name_of(end) if is_outside(end) or is_node(end) else end.id for end in ends))


def workload_of(ends):
    """The workload of which all these pods are; None where they are no pods."""
    first = ends[0]
    return None if is_outside(first) or is_node(first) else first.workload


# ---- names

def counted(ends, cluster, beside=""):
    """Ends by their name; of several pods by their workload's, and how many they are."""
    if len(ends) == 1:
        return name_of(ends[0])
    name, every = cluster.name_of_workload(ends[0].workload), cluster.pods_of(ends[0].workload)
    number = "%d pods" % len(ends) if len(ends) == len(every) else "%d of %d pods%s" % (len(ends), len(every), beside)
    return "%s (%s)" % (name, number)


def names_of(ends, cluster):
    """Ends as a title names them: of a part of a workload with the names of the pods."""
    names = [name_of(end).partition("/")[2] for end in ends]
    listed = ", ".join(names[:SHOWN]) + (" and %d more" % (len(names) - SHOWN) if len(names) > SHOWN else "")
    return counted(ends, cluster, ": " + listed)


def label_of(ends, cluster):
    """Ends in the head of a row: of a part of a workload with one of its pods."""
    return counted(ends, cluster, ", as " + name_of(ends[0]).partition("/")[2])
