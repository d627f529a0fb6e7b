"""Answers in words."""
from felix_tools.conversion import display_name
from felix_tools.questions import title
from felix_tools.refusals import fault_words
from felix_tools.verdicts import UNKNOWN, policy_name
from felix_tools.yaml_text import yaml_lines

VERBS = {"egress": "leaves", "ingress": "enters"}
INDENT = "    "


def answer_lines(answer, with_path=False):
    """An answer: the question and its verdict, what is in doubt, then each side with its reason, and what is said beside it."""
    lines = ["%s: %s" % (title(answer.question), answer.verdict.upper())]
    lines += doubt_lines(answer)
    for reason in answer.reasons:
        lines += reason_lines(reason)
    if with_path:
        for reason in met_once(answer.reasons):
            lines += path_lines(reason)
    return lines + ["  note: %s" % note for note in answer.notes]


def doubt_lines(answer):
    """Why the verdict is unknown; and where it was asked all the same, what isn't part of it."""
    if answer.verdict == UNKNOWN and not answer.doubts:
        return ["  not known: %s" % answer.cause]
    if not answer.doubts:
        return []
    head = "  not known: %s:" % answer.cause if answer.verdict == UNKNOWN else "  these may apply to it, and aren't read, or not wholly:"
    lines = [head] + [INDENT + "  %s (%s): %s" % (it.resource, it.origin, it.why) for it in answer.doubts]
    if answer.verdict == UNKNOWN:
        lines.append("  as far as all is read it is %s (--although-refused answers so):" % answer.without)
    return lines


def reason_lines(reason):
    details = yaml_lines([reason.rule]) if reason.rule is not None else [policy_name(one) for one in reason.policies]
    would = "" if reason.is_met else "not reached; by itself "
    head = "  %s %s: %s%s%s%s" % (VERBS[reason.direction], reason.end, would, reason.verdict, reason.words, ":" * bool(details))
    return [head] + [INDENT + "  " + line for line in details]


# ---- the way through the chains

def met_once(reasons):
    """The reasons whose ways differ: on one node both have one way."""
    kept = []
    for reason in reasons:
        if reason.is_met and reason.way and (reason.node, reason.way) not in [(other.node, other.way) for other in kept]:
            kept.append(reason)
    return kept


def path_lines(reason):
    lines = ["  the way on node %s:" % reason.node]
    for step, (chain, place, rule) in enumerate(reason.way, 1):
        lines.append(INDENT + "  %d. %s rule %d: %s" % (step, chain, place, rule))
    return lines


# ---- what isn't there, and what is odd

def refused_lines(refusals):
    """What was refused, in words; nothing if nothing was."""
    if not refusals:
        return []
    lines = ["%s%s (%s): %s" % (INDENT, display_name(line.written), line.origin, fault_words(refusal, line.written))
             for line, refusal in refusals]
    return ["Refused, so not there in what follows:"] + lines


def left_out_lines(left_out):
    """What was left out that may have a say; nothing if nothing was."""
    texts = left_out.texts(True)
    if not texts:
        return []
    return ["Left out, so not there in what follows, though it may have a say:"] + [INDENT + text for text in texts]


def told_lines(head, texts):
    """Texts below a head; nothing if there are none."""
    return [head] + [INDENT + text for text in texts] if texts else []


def input_blocks(inquiry):
    """What is to be said of the resources before any answer, a block for each sort."""
    conversion = inquiry.conversion
    fields = ["%s (%s): %s" % (display_name(it.resource), it.origin, it.why) for it in inquiry.misread]
    return [
        left_out_lines(conversion.left_out),
        refused_lines(inquiry.refusals()),
        told_lines("Left out, and without a say between pods:", inquiry.host_policy_texts()),
        told_lines("Not read as it is written:", fields),
        told_lines("Odd, and taken as it stands:", conversion.mistakes),
        told_lines("In two files:", conversion.repeated_texts()),
    ]
