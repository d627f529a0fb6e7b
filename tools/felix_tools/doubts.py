"""What isn't part of an answer and may apply to what was asked: resources that were refused or aren't read.

Whether a policy that was refused would apply to an end the program says: it is asked again, with a policy of the same
selectors and types and without the rules that it doesn't read."""
import concurrent.futures

from felix_tools.answers import Answers
from felix_tools.conversion import Line, Unread, display_name, input_of, is_for_hosts, key_of, kind_of
from felix_tools.kinds import CALICO, KUBERNETES, is_of_one_namespace
from felix_tools.questions import is_node, is_outside
from felix_tools.reading import part
from felix_tools.refusals import fault_words
from felix_tools.verdicts import Doubt

SELECTORS = {
    (KUBERNETES, "NetworkPolicy"): ("podSelector",),
    (CALICO, "NetworkPolicy"): ("selector", "serviceAccountSelector"),
    (CALICO, "GlobalNetworkPolicy"): ("selector", "namespaceSelector", "serviceAccountSelector"),
}
SORTS = {(KUBERNETES, "NetworkPolicy"): "knp", (CALICO, "NetworkPolicy"): "np", (CALICO, "GlobalNetworkPolicy"): "gnp"}
NAMESPACED = {kind for kind, names in SORTS.items() if names != "gnp"}
HOST_ENDPOINT = (CALICO, "HostEndpoint")


class Doubts:
    """The doubts of an input whose questions were asked."""

    def __init__(self, asking, unread, misread, host_policies):
        self.asking = asking
        why = "a policy with %s isn't read"
        self.host_policies = [Unread(it.written, it.origin, why % only_host_field(it.written)) for it in host_policies]
        self.refused = {is_host: [(line, refusal) for line, refusal in asking.refusals(is_host) if line.action == "put"]
                        for is_host in (False, True)}
        self.unread = unread
        self.misread = misread
        self.stand_ins = {id(line): stand_in(line) for line, _ in self.refused[False] if kind_of(line.resource) in SORTS}
        self.applying = {}

    def prepare(self, ends):
        """Asks for the nodes of these ends, several side by side, where a refused policy may apply to their pods."""
        policies = [made.resource for made in self.stand_ins.values()]
        nodes = list(dict.fromkeys(end.node for end in ends if not is_outside(end) and not is_node(end)
                                   and any(may_be_of(policy, end) for policy in policies)))
        self.asking.paths.ahead([self.given(node) for node in nodes])
        with concurrent.futures.ThreadPoolExecutor(max_workers=4) as pool:
            self.applying.update(zip(nodes, pool.map(self.run, nodes)))

    def of(self, result):
        """What may apply to the ends of a result and change its verdict: nothing where a side that is known denies."""
        ends = {"egress": result.question.sender, "ingress": result.question.receiver}
        found = {direction: self.of_end(direction, end) for direction, end in ends.items() if not is_outside(end)}
        for side in result.sides:
            if side.reason and side.reason[0] == "failsafe":
                found[side.direction] = []
        if any(not side.is_allowed and not found[side.direction] for side in result.sides):
            return []
        return list({(it.resource, it.origin, it.why): it for doubts in found.values() for it in doubts}.values())

    def of_end(self, direction, end):
        refused = [Doubt(display_name(line.written), line.origin, fault_words(refusal, line.written))
                   for line, refusal in self.refused[is_node(end)] if self.may_apply(line, direction, end)]
        unread = [doubt_of(it) for it in self.unread if may_be_of(it.resource, end)]
        misread = [doubt_of(it) for it in self.misread if self.is_misread_for(it, direction, end)]
        for_hosts = [doubt_of(it) for it in self.host_policies if self.is_guarded(end)]
        return refused + unread + misread + for_hosts

    def is_guarded(self, end):
        """Whether an end is a node with a host endpoint at its uplink: without one no policy is asked."""
        return is_node(end) and self.asking.host.endpoint_of(end.node) is not None

    def may_apply(self, line, direction, end):
        """Whether a refused resource would have a say on an end."""
        kind = kind_of(line.resource)
        if kind == HOST_ENDPOINT:
            return is_node(end) and part(line.resource, "spec", "node") == end.node
        if is_node(end):
            return self.is_guarded(end) and kind not in NAMESPACED
        if kind in SORTS:
            return self.would_apply(line, direction, end)
        if kind == (CALICO, "Tier"):
            return key_of(line.resource)[3] in self.tiers(direction, end)
        return True

    def would_apply(self, line, direction, end):
        if not may_be_of(line.resource, end):
            return False
        answers, unread = self.applying[end.node]
        if id(line) in unread:
            return True
        return id_of(line.resource) in applying(answers, direction, end)

    def run(self, node):
        """What the program answers for a node with the policies that stand in, and which of these it refused, too."""
        first = len(self.asking.forwarded_lines)
        answers = Answers(self.asking.paths.run(*self.given(node)))
        numbers = {refusal.line - first - 1 for refusal in answers.refusals if refusal.line > first}
        return answers, {key for place, key in enumerate(self.stand_ins) if place in numbers}

    def given(self, node):
        """(program, node, input) of the run that says where they would apply."""
        return self.asking.forwarding, node, input_of(self.asking.forwarded_lines + list(self.stand_ins.values()))

    def tiers(self, direction, end):
        served = self.asking.served(end)
        return [name for name, _ in served.tiers[direction]] if served else []

    def is_misread_for(self, it, direction, end):
        """Whether a policy that isn't read as it is written applies to an end, or may, where its selectors aren't."""
        kind = kind_of(it.resource)
        if kind not in SORTS or not may_be_of(it.resource, end) or is_node(end) and not self.is_guarded(end):
            return False
        if is_node(end) or not it.is_selected:
            return True
        served = self.asking.served(end)
        return bool(served) and id_of(it.resource) in [one for _, ids in served.tiers[direction] for one in ids]


def doubt_of(unread):
    return Doubt(display_name(unread.resource), unread.origin, unread.why)


def may_be_of(resource, end):
    """Whether a resource may have a say on an end: one of a namespace has it in this one alone."""
    _, kind, namespace, _ = key_of(resource)
    if not is_of_one_namespace(kind, namespace):
        return True
    return not is_node(end) and end.name.startswith(namespace + "/")


def id_of(resource):
    _, _, namespace, name = key_of(resource)
    return "/".join(filter(None, (SORTS[kind_of(resource)], namespace, name)))


def applying(answers, direction, end):
    served = answers.endpoints.get(end.interface)
    return [policy for _, ids in served.tiers[direction] for policy in ids] if served else []


def stand_in(line):
    """A line of a policy that applies where this one would, and has none of its rules."""
    resource = line.resource
    spec = resource.get("spec") if isinstance(resource.get("spec"), dict) else {}
    made = {name: spec[name] for name in SELECTORS[kind_of(resource)] if name in spec}
    made["policyTypes" if kind_of(resource)[0] == KUBERNETES else "types"] = types_of(resource, spec)
    return Line("put", dict(resource, spec=made), line.written, line.origin)


def types_of(resource, spec):
    """The directions of a policy, by its types or else by its rules."""
    is_kubernetes = kind_of(resource)[0] == KUBERNETES
    told = spec.get("policyTypes" if is_kubernetes else "types")
    if isinstance(told, list) and told:
        return told
    if not spec.get("egress"):
        return ["Ingress"]
    return ["Ingress", "Egress"] if is_kubernetes or spec.get("ingress") else ["Egress"]


def host_policies(lines):
    """The lines of policies for host endpoints alone, which no packet between pods meets."""
    return [line for line in lines if line.action == "put" and is_for_hosts(line.written)]


def without_host_policies(lines):
    """The lines without these; where such a policy takes another one's place, the other one goes."""
    left_out = set(map(id, host_policies(lines)))
    keys, kept = set(), []
    for line in lines:
        key = key_of(line.resource)
        if id(line) not in left_out:
            keys.add(key)
            kept.append(line)
        elif key in keys:
            kept.append(line._replace(action="delete"))
    return kept


def only_host_field(written):
    return next(name for name in ("preDNAT", "doNotTrack") if part(written, "spec", name) is True)


def host_policy_text(line):
    name, field = display_name(line.written), only_host_field(line.written)
    return "%s (%s): a policy with %s is for host endpoints alone" % (name, line.origin, field)
