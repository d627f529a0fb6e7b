"""A table of verdicts: who may reach whom."""
from felix_tools import verdicts

MARKS = {verdicts.ALLOWED: "+", verdicts.DENIED: "-", verdicts.UNKNOWN: "?"}
ITSELF = "."


def matrix_lines(traffic, sender_names, receiver_names, answers):
    """The table of one traffic; `answers` has the answers by (name of the sender, name of the receiver)."""
    wide = max(len(name) for name in sender_names)
    if receiver_names == sender_names:
        heads = [str(number) for number in range(1, len(receiver_names) + 1)]
        labels = ["%3s %s" % (head, name.ljust(wide)) for head, name in zip(heads, sender_names)]
        lines = []
    else:
        heads = [chr(ord("A") + number) if number < 26 else str(number + 1) for number in range(len(receiver_names))]
        labels = ["    %s" % name.ljust(wide) for name in sender_names]
        lines = ["%3s %s" % pair for pair in zip(heads, receiver_names)] + [""]
    lines.append(" " * (wide + 4) + "".join("%3s" % head for head in heads))
    for label, sender in zip(labels, sender_names):
        cells = [cell(answers.get((sender, receiver))) for receiver in receiver_names]
        lines.append(label + "".join("%3s" % mark for mark in cells))
    return [head(traffic, answers), ""] + lines


def head(traffic, answers):
    unknown = any(answer.verdict == verdicts.UNKNOWN for answer in answers.values())
    return "%s, from the row to the column (+ allowed, - denied, %s. not asked)" % (traffic.words, "? not known, " if unknown else "")


def cell(answer):
    return MARKS[answer.verdict] if answer else ITSELF
