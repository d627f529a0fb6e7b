"""Which policies select a pod, and which select none."""
import collections

from felix_tools import json_out, unproved
from felix_tools.conversion import kind_of
from felix_tools.doubts import SORTS, id_of
from felix_tools.inquiry import Inquiry
from felix_tools.options import name_here
from felix_tools.questions import QuestionError, is_node, is_outside, name_of
from felix_tools.reading import read_changes
from felix_tools.replicas import counted
from felix_tools.verdicts import policy_name
from felix_tools.start import REFUSED
from felix_tools.words import INDENT, input_blocks, told_lines

WORDS = {"ingress": "what enters", "egress": "what leaves"}

# Pods that the same policies select, and these: by direction (tier, ids of its policies) in their order.
Selected = collections.namedtuple("Selected", "ends tiers")


def answer(options):
    inquiry = Inquiry(read_changes(options.files), options)
    ends = [end for text in options.policies for end in inquiry.cluster.ends(name_here(text, options.namespace))]
    check_ends(ends)
    inquiry.asking.serve(inquiry.cluster.endpoints)
    found = selected(inquiry, ends)
    idle = idle_policies(inquiry)
    doubts = inquiry.doubts()
    doubts.prepare(ends)
    unread = {it.resource: it for end in ends for direction in WORDS for it in doubts.of_end(direction, end)}.values()
    ended = REFUSED if unread and not options.although_refused else 0
    if options.json:
        print(json_out.written("policies", json_out.input_value(inquiry, options), pods=[value_of(it) for it in found],
                               selectNoPod=idle, doubts=[json_out.doubt_value(it) for it in unread], status=ended))
    else:
        blocks = [lines_of(it, inquiry.cluster) for it in found]
        texts = ["%s (%s): %s" % (it.resource, it.origin, it.why) for it in unread]
        blocks.append(told_lines("These may select them too, and can't be asked:", texts))
        blocks.append(told_lines("Policies of the input that select no pod of it:", [policy_name(one) for one in idle]))
        head = [[unproved.SAID]] if options.unproved else []
        print("\n\n".join("\n".join(block) for block in head + input_blocks(inquiry) + blocks if block))
    return ended


def check_ends(ends):
    for end in ends:
        if is_outside(end) or is_node(end):
            raise QuestionError("%s is no pod, and these policies are asked of pods" % name_of(end))


def selected(inquiry, ends):
    """The pods with what selects them, those of one workload that the same policies select together."""
    groups = collections.OrderedDict()
    for end in ends:
        served = inquiry.asking.served(end)
        tiers = served.tiers if served else {"ingress": [], "egress": []}
        key = end.id if inquiry.options.each_pod else (end.workload, repr(tiers))
        groups.setdefault(key, Selected([], tiers)).ends.append(end)
    return list(groups.values())


def idle_policies(inquiry):
    """The ids of the policies that select no pod of the input, and weren't refused."""
    refused = {id(line) for line, _ in inquiry.refusals()}
    there = {}
    for line in inquiry.asking.lines:
        if kind_of(line.resource) in SORTS and id(line) not in refused:
            there[id_of(line.resource)] = line.action == "put"
    active = {policy for answers in inquiry.asking.answers.values() for served in answers.endpoints.values()
              for tiers in served.tiers.values() for _, ids in tiers for policy in ids}
    return sorted(policy for policy, stands in there.items() if stands and policy not in active)


def lines_of(found, cluster):
    first = found.ends[0]
    where = " (%s, node %s)" % (", ".join(first.addresses), first.node) if len(found.ends) == 1 else ""
    lines = ["%s%s" % (counted(found.ends, cluster), where)]
    for direction in ("egress", "ingress"):
        if not found.tiers[direction]:
            lines.append("  %s: no policy, so the profiles of its namespace and its account" % WORDS[direction])
        for tier, ids in found.tiers[direction]:
            lines.append("  %s, in the tier %s:" % (WORDS[direction], tier))
            lines += [INDENT + "  " + policy_name(one) for one in ids]
    return lines


def value_of(found):
    first = found.ends[0]
    value = {"end": json_out.end_value(found.ends, first, (first.addresses or [""])[0])}
    for direction in ("egress", "ingress"):
        value[direction] = [{"tier": tier, "policies": ids} for tier, ids in found.tiers[direction]]
    return value
