"""tools/ask: a question about a packet, answered in words."""
import sys

from felix_tools import json_out, policies, unproved
from felix_tools.asking import run_of
from felix_tools.inquiry import Inquiry
from felix_tools.matrix import matrix_lines
from felix_tools.nearby import why_nothing
from felix_tools.options import (
    add_program, add_questions, asks_packet, check_questions, listed, plain_wishes, tool_parser, wishes,
)
from felix_tools.questions import QuestionError, is_outside
from felix_tools.reading import read_changes
from felix_tools.replicas import label_of
from felix_tools.start import REFUSED, answered, remark
from felix_tools.verdicts import ALLOWED, UNKNOWN, verdict_of, whole, word_of
from felix_tools.words import answer_lines, input_blocks

DESCRIPTION = """\
Asks the proved program whether a packet may go from one end to another, and says by which rule.

  tools/ask cluster.json --from shop/web --to shop/db --tcp 5432
  tools/ask cluster.json --from 192.0.2.7 --to shop/web --tcp 443 --path
  tools/ask cluster.json --matrix --from 'shop/*' --to 'shop/*' --tcp 5432 --udp 53
  tools/ask cluster.json --policies shop/web

Files are those of tools/lines, or what it wrote. shop/web is a pod or all pods of a Deployment, StatefulSet, DaemonSet
or Job; pods whose answers are equal are one row. Where two pods run on two nodes, the sender's node is asked
whether the packet leaves, and the receiver's whether it enters. The packet opens a connection.

Status: 0 allowed, 1 denied (of several questions: some is), 2 the question or a file can't be read,
3 some verdict isn't known, as a resource that may apply was refused or isn't read, or the packet's way isn't
modelled, 4 a program didn't run to its end, 5 the answer can't be written."""


def main(words):
    return answered("ask", answer, parser().parse_args(words))


def parser():
    made = tool_parser("ask", DESCRIPTION)
    made.add_argument("files", nargs="+", metavar="FILE", help="JSON of kubectl and calicoctl, or lines; `-` is standard input")
    add_questions(made)
    shown = made.add_argument_group("answers")
    shown.add_argument("--path", action="store_true", help="the way through the chains, too")
    shown.add_argument("--matrix", action="store_true", help="a table of all pairs; without --from and --to of all pods")
    shown.add_argument("--json", action="store_true", help="the answers as JSON (docs/answers.schema.json)")
    shown.add_argument("--policies", action="append", metavar="END",
                       help="asks no packet, but which policies select these pods (may be given again), and which policies "
                            "of the input select no pod")
    shown.add_argument("--raw", choices=("sender", "receiver"),
                       help="what the program wrote for this side's node, with its tables: for tools/picture")
    add_program(made)
    return made


def answer(options):
    check_together(options)
    if options.policies:
        return policies.answer(options)
    check_questions(options)
    inquiry = Inquiry(read_changes(options.files), options, with_each_side=not options.matrix and not options.raw)
    if options.matrix and not options.json:
        asked_for = wishes(options, all_pods=True)
        answers = asked(inquiry, asked_for, inquiry.ask(asked_for, verdict_of))
        return show(options, inquiry, matrices(answers, inquiry.cluster), status(answers))
    plain, lists = plain_wishes(options, options.matrix), listed(options)
    expected = [None] * len(plain) + [it.expected for it in lists]
    asked_for = plain + [it.wish for it in lists]
    each = inquiry.ask_each(asked_for, whole)
    answers = asked(inquiry, asked_for, [answer for several in each for answer in several])
    if options.raw:
        return show_raw(options, inquiry, answers)
    rows = [(answer, wanted) for several, wanted in zip(each, expected) for answer in several]
    ended = status_of_rows(rows)
    if options.json:
        return show_json(options, inquiry, rows, ended)
    return show(options, inquiry, [row_lines(answer, wanted, options.path) for answer, wanted in rows], ended)


def check_together(options):
    """That no word is given that would say nothing beside another one."""
    if options.policies and (options.path or options.matrix or options.raw or asks_packet(options)):
        raise QuestionError("--policies asks no packet: words for questions, --matrix, --path and --raw have no place beside it")
    if options.matrix and options.path and not options.json:
        raise QuestionError("--matrix shows verdicts alone: --path is for single answers, or for --json")
    if bool(options.senders or options.from_address) != bool(options.receivers or options.to_address) and not options.matrix:
        raise QuestionError("a question has two ends: %s is missing" % ("--to" if options.senders or options.from_address else "--from"))
    if options.raw and (options.matrix or options.json):
        raise QuestionError("--raw is what the program wrote, for one question: --matrix and --json have nothing to show of it")


def asked(inquiry, asked_for, answers):
    """The answers, of which there has to be one at least."""
    if not answers:
        raise QuestionError(inquiry.cluster.why_empty() or "nothing is asked: --from and --to name the ends, and %s" %
                            why_nothing(asked_for, inquiry.cluster))
    return answers


def show(options, inquiry, blocks, ended):
    head = [[unproved.SAID]] if options.unproved else []
    print("\n\n".join("\n".join(block) for block in head + input_blocks(inquiry) + blocks if block))
    return ended


def show_json(options, inquiry, rows, ended):
    answers = [json_out.row_value(*row) for row in rows]
    print(json_out.written("ask", json_out.input_value(inquiry, options), answers=answers, status=ended))
    return ended


def show_raw(options, inquiry, answers):
    if len(answers) > 1:
        raise QuestionError("--raw is for one question, and these are %d: name one pod at each end" % len(answers))
    if options.unproved:
        remark("ask", unproved.SAID)
    sys.stdout.write(raw_output(inquiry.asking, answers[0], options.raw))
    return status(answers)


def row_lines(answer, wanted, with_path):
    """An answer, and where a verdict is expected whether it is that one."""
    lines = answer_lines(answer, with_path)
    if wanted is None:
        return lines
    is_wanted = answer.verdict == word_of(wanted)
    return lines + ["  as expected" if is_wanted else "  NOT AS EXPECTED: %s" % word_of(wanted)]


def matrices(answers, cluster):
    """A table for each traffic, with the ends in the order in which they were asked about."""
    by_traffic = {}
    for answer in answers:
        by_traffic.setdefault(answer.question.traffic.words, []).append(answer)
    return [matrix_of(group, cluster) for group in by_traffic.values()]


def matrix_of(answers, cluster):
    table = {}
    for answer in answers:
        table[label_of(answer.question.senders, cluster), label_of(answer.question.receivers, cluster)] = answer
    senders, receivers = [list(dict.fromkeys(names)) for names in zip(*table)]
    if set(senders) == set(receivers):
        receivers = senders
    return matrix_lines(answers[0].question.traffic, senders, receivers, table)


def raw_output(asking, answer, wanted_side):
    end = answer.question.sender if wanted_side == "sender" else answer.question.receiver
    if is_outside(end):
        raise QuestionError("the %s is no pod, so it has no node" % wanted_side)
    if run_of(end) not in asking.outputs:
        raise QuestionError("no program was asked: %s" % answer.cause if answer.cause else "no program was asked")
    return asking.outputs[run_of(end)]


def status_of_rows(rows):
    """The status: of an answer with an expected verdict, whether it is that one."""
    if any(answer.verdict == UNKNOWN for answer, _ in rows):
        return REFUSED
    return 0 if all(answer.verdict == word_of(wanted is not False) for answer, wanted in rows) else 1


def status(answers):
    verdicts = {answer.verdict for answer in answers}
    if UNKNOWN in verdicts:
        return REFUSED
    return 0 if verdicts <= {ALLOWED} else 1
