"""Answers as JSON, of the form that docs/answers.schema.json describes."""
import json

from felix_tools.questions import is_node, is_outside, name_of
from felix_tools.verdicts import word_of
from felix_tools.version import ANSWERS_FORMAT
from felix_tools.words import input_blocks

# A packet's members, and what they are called here.
TRAFFIC_NAMES = {"proto": "protocol", "dport": "port", "sport": "sourcePort", "icmpType": "icmpType",
                 "icmpCode": "icmpCode"}


def written(kind, statement, **members):
    """The text of a whole answer."""
    return json.dumps(dict({"form": ANSWERS_FORMAT, "kind": kind}, **dict(statement, **members)), indent=2, ensure_ascii=False)


def input_value(inquiry, options):
    """What is to be said of the resources, whatever was asked, and of the program."""
    blocks = [block for block in input_blocks(inquiry) if block]
    told = [{"head": block[0], "texts": [line.strip() for line in block[1:]]} for block in blocks]
    return {"unproved": options.unproved, "input": told}


def check_value(row):
    assertion = row.check.assertion
    value = {"title": row.title, "place": row.place, "from": assertion.wish.sender, "to": assertion.wish.receiver,
             "traffic": traffic_value(assertion.wish.traffic), "expected": row.expected, "holds": row.holds,
             "answers": [answer_value(answer) for answer in row.check.answers]}
    return dict(value, fault=row.check.fault) if row.check.fault else value


def row_value(answer, wanted):
    """An answer, and where a verdict is expected that one."""
    value = answer_value(answer)
    return value if wanted is None else dict(value, expected=word_of(wanted), holds=answer.verdict == word_of(wanted))


def answer_value(answer):
    return dict(question_value(answer.question), **verdict_value(answer))


def question_value(asked):
    value = {
        "from": end_value(asked.senders, asked.sender, asked.source),
        "to": end_value(asked.receivers, asked.receiver, asked.destination),
        "traffic": traffic_value(asked.traffic),
    }
    return dict(value, service=asked.service) if asked.service else value


def verdict_value(answer):
    """What an answer says; nothing where there is none."""
    if answer is None:
        return None
    reasons = [reason_value(reason) for reason in answer.reasons]
    value = {"verdict": answer.verdict, "reasons": reasons, "notes": answer.notes}
    if answer.cause:
        value["cause"] = answer.cause
    if answer.doubts:
        value["doubts"] = [doubt_value(it) for it in answer.doubts]
        value["without"] = answer.without
    return value


def doubt_value(doubt):
    return {"resource": doubt.resource, "origin": doubt.origin, "why": doubt.why}


def end_value(ends, first, address):
    """An end: the pods that it stands for, a node, or an address that is no pod's."""
    if is_outside(first):
        return {"sort": "address", "name": first.address, "address": address}
    if is_node(first):
        return {"sort": "node", "name": name_of(first), "node": first.node, "address": address}
    workload = first.workload
    return {
        "sort": "pods",
        "name": "%s/%s" % (workload.namespace, workload.name) if len(ends) > 1 else first.name,
        "workload": {"kind": workload.kind, "namespace": workload.namespace, "name": workload.name},
        "pods": [pod_value(end, address if len(ends) == 1 else end.addresses[0]) for end in ends],
    }


def pod_value(end, address):
    return {"name": end.name, "node": end.node, "address": address}


def traffic_value(traffic):
    members = {TRAFFIC_NAMES[name]: value for name, value in traffic.members.items() if name in TRAFFIC_NAMES}
    return dict({"words": traffic.words}, **members)


def reason_value(reason):
    value = {"side": reason.direction, "end": reason.end, "verdict": reason.verdict, "met": reason.is_met,
             "decidedBy": reason.sort, "words": reason.words.lstrip(" ,;:")}
    for name in ("node", "policy", "profile", "tier", "place", "rule"):
        if getattr(reason, name) not in ("", None):
            value[name] = getattr(reason, name)
    if reason.policies:
        value["policies"] = reason.policies
    if any(rule for _, _, rule in reason.way):
        value["way"] = [{"chain": chain, "place": place, "rule": rule} for chain, place, rule in reason.way]
    return value
