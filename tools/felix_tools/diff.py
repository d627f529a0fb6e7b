"""tools/diff: which verdicts a change of resources changes, and by which rule."""
import dataclasses

from felix_tools import json_out, unproved
from felix_tools.cluster import UnknownEnd
from felix_tools.inquiry import Inquiry
from felix_tools.options import add_program, add_questions, check_questions, paths_of, tool_parser, wishes
from felix_tools.questions import Question, QuestionError, short_title
from felix_tools.reading import InputError, read_changes
from felix_tools.replicas import Replicas, ends_of, merged, pairs_of, tell_number
from felix_tools.start import REFUSED, answered
from felix_tools.verdicts import UNKNOWN, whole
from felix_tools.words import INDENT, doubt_lines, input_blocks, reason_lines

DESCRIPTION = """\
Asks the proved program the same questions of two sets of resources, and tells which verdicts change and by which rule.

  tools/diff --before cluster.json --after cluster.json new-policy.json --from 'shop/*' --to 'shop/*' --tcp 5432
  tools/diff --before old.json --after new.json --list questions.txt

Without --from and --to all pairs of pods are asked about. In `--after` a resource that stands in several files is the
one of the last file, so a change is the cluster's file and behind it what is applied to it. To delete something give a
line {"delete": RESOURCE}.

What kubectl would refuse is no change, and is told in its place: what is deleted and isn't there, and a policy
of a namespace that isn't there.

Status: 0 no verdict changes, 1 some does, 2 a question, a file or the change can't be read, 3 some verdict isn't
known, as a resource that may apply was refused or isn't read, 4 a program didn't run to its end, 5 the answer
can't be written."""


def main(words):
    return answered("diff", compare, parser().parse_args(words))


def parser():
    made = tool_parser("diff", DESCRIPTION)
    made.add_argument("--before", nargs="+", required=True, metavar="FILE", help="the resources as they are")
    made.add_argument("--after", nargs="+", required=True, metavar="FILE", help="the resources as they would be")
    made.add_argument("--json", action="store_true", help="the changes as JSON (docs/answers.schema.json)")
    made.add_argument("--reasons", action="store_true", help="tell also where the verdict stays and another rule decides")
    add_questions(made)
    add_program(made)
    return made


class Version:
    """One of the two sets of resources, with the answers to the questions that can be asked of it."""

    def __init__(self, name, files, options, paths):
        self.name = name
        self.inquiry = Inquiry(read_changes(files), options, paths)
        self.answers = {}
        self.missing = []

    def questions(self, wishes, replicas):
        """The questions that can be asked of these resources."""
        self.missing = []
        questions = []
        for wish in wishes:
            try:
                questions += self.inquiry.questions([wish], replicas)
            except (UnknownEnd, QuestionError) as fault:
                self.missing.append(str(fault))
        return questions

    def ask(self, questions):
        self.answers = {key_of(answer.question): answer for answer in self.inquiry.answers(questions)}

    def notes(self):
        lines = [line for block in input_blocks(self.inquiry) for line in block]
        lines += [text + "." for text in dict.fromkeys(self.missing)]
        return ["In what is %s:" % self.name] + [INDENT + line for line in lines] if lines else []

    def input_value(self):
        told = json_out.input_value(self.inquiry, self.inquiry.options)["input"]
        missing = [{"head": "Not there:", "texts": list(dict.fromkeys(self.missing))}] if self.missing else []
        return told + missing

    def forget_repeated(self):
        """In what is after a later file is what is applied to an earlier one."""
        self.inquiry.conversion.repeated.clear()


@dataclasses.dataclass
class Change:
    """A question with both answers to it; none where an end isn't there."""
    question: Question
    old: object
    new: object

    def of(self, asked, names):
        return Change(asked, *(it.of(asked, names) if it else None for it in (self.old, self.new)))

    @property
    def verdicts(self):
        return [it.verdict if it else "not there" for it in (self.old, self.new)]

    @property
    def causes(self):
        return [it.causes if it else None for it in (self.old, self.new)]

    @property
    def is_changed(self):
        return self.verdicts[0] != self.verdicts[1]

    @property
    def may_change(self):
        """Whether neither verdict is known, and as far as all is read they differ."""
        return self.verdicts == [UNKNOWN, UNKNOWN] and self.old.without != self.new.without

    @property
    def has_other_reason(self):
        return self.causes[0] != self.causes[1]

    @property
    def words(self):
        old, new = self.verdicts
        if self.is_changed:
            return "%s before, %s after" % (old, new)
        if self.may_change:
            return "unknown; as far as all is read %s before, %s after" % (self.old.without, self.new.without)
        return "%s by another rule" % old


def compare(options):
    check_questions(options)
    paths = paths_of(options)
    before = Version("before", options.before, options, paths)
    after = Version("after", options.after, options, paths)
    after.forget_repeated()
    check_change(before.inquiry, after.inquiry)
    changes = asked_of_both(before, after, wishes(options, all_pods=True))
    if not changes:
        raise QuestionError("; ".join(before.missing + after.missing) or "nothing is asked: --from and --to name two ends")
    ended = status(changes)
    if options.json:
        tell_json(options, before, after, changes, ended)
    else:
        tell(options, before, after, changes)
    return ended


def asked_of_both(before, after, asked):
    """The changes of all answers; pods of one workload for which they are equal are one."""
    versions = before, after
    replicas = None if before.inquiry.options.each_pod else Replicas(*(version.inquiry.cluster for version in versions))
    ask_both(versions, asked, replicas)
    if replicas and any(version.inquiry.has_refused_pods() for version in versions):
        ask_both(versions, asked, None)
    keys = dict.fromkeys(list(before.answers) + list(after.answers))
    both = [(before.answers.get(key), after.answers.get(key)) for key in keys]
    changes = [Change((new or old).question, old, new) for old, new in both]
    return merged(changes, Both(before, after), whole_change) if replicas else changes


def ask_both(versions, asked, replicas):
    """Asks both, so that all runs of the program are known before the first."""
    questions = [version.questions(asked, replicas) for version in versions]
    tell_number(max(questions, key=len))
    for version, of_it in zip(versions, questions):
        version.inquiry.prepare(of_it)
    versions[0].inquiry.asking.paths.ahead([run for version in versions for run in version.inquiry.asking.all_given()])
    for version, of_it in zip(versions, questions):
        version.ask(of_it)


class Both:
    """The workloads of both sets of resources: as they are after, and of those that aren't there then as they were."""

    def __init__(self, before, after):
        self.clusters = [after.inquiry.cluster, before.inquiry.cluster]

    def cluster_of(self, workload):
        return next((cluster for cluster in self.clusters if cluster.pods_of(workload)), self.clusters[0])

    def pods_of(self, workload):
        return self.cluster_of(workload).pods_of(workload)

    def name_of_workload(self, workload):
        return self.cluster_of(workload).name_of_workload(workload)


def key_of(asked):
    """What is asked, whatever the answer: for comparing two answers."""
    return ends_of(asked.senders), ends_of(asked.receivers), asked.traffic.words, asked.service


def whole_change(change):
    return [whole(it) if it else None for it in (change.old, change.new)]


def status(changes):
    if any(UNKNOWN in change.verdicts for change in changes):
        return REFUSED
    return 1 if any(change.is_changed for change in changes) else 0


def check_change(before, after):
    """That the change is one that can be made."""
    mistakes = [text for text in after.conversion.mistakes if text not in before.conversion.mistakes]
    if mistakes:
        raise InputError("\n".join(["this can't be applied:"] + [INDENT + text for text in mistakes]))
    if before.cluster.endpoints and not after.cluster.endpoints:
        raise InputError("what is after has no pods: give the cluster's own files too, and what is applied to them behind")


def shown(options, changes):
    return [it for it in changes if it.is_changed or it.may_change or options.reasons and it.has_other_reason]


def tell(options, before, after, changes):
    """Prints what changes, and how many verdicts do."""
    blocks = [[unproved.SAID]] if options.unproved else []
    blocks += [version.notes() for version in (before, after)]
    blocks += [change_lines(change) for change in shown(options, changes)]
    changed = number_of(change for change in changes if change.is_changed)
    blocks.append(["%d of %d verdicts change.%s" % (changed, number_of(changes), unknown_words(changes))])
    print("\n\n".join("\n".join(block) for block in blocks if block))


def tell_json(options, before, after, changes, ended):
    head = {"unproved": options.unproved, "input": {version.name: version.input_value() for version in (before, after)}}
    rows = [change_value(change) for change in shown(options, changes)]
    changed = number_of(change for change in changes if change.is_changed)
    print(json_out.written("diff", head, changes=rows, verdicts=number_of(changes), changed=changed, status=ended))


def change_value(change):
    value = json_out.question_value(change.question)
    return dict(value, before=json_out.verdict_value(change.old), after=json_out.verdict_value(change.new))


def number_of(changes):
    """How many pairs of ends some changes are about."""
    return sum(pairs_of(change.question) for change in changes)


def unknown_words(changes):
    counts = [(name, number_of(it for it in changes if it.verdicts[place] == UNKNOWN))
              for place, name in enumerate(("before", "after"))]
    told = " and ".join("%d %s" % (count, name) for name, count in counts if count)
    return " Not known: %s." % told if told else ""


def change_lines(change):
    lines = ["%s: %s" % (short_title(change.question), change.words)]
    for name, answer, other in (("before", change.old, change.new), ("after", change.new, change.old)):
        if answer:
            lines += ["  " + name] + [INDENT + line[2:] for line in doubt_lines(answer)]
            lines += [INDENT + line[2:] for reason in reasons_that_differ(answer, other) for line in reason_lines(reason)]
    return lines


def reasons_that_differ(answer, other):
    """The sides whose reason isn't that of the other answer; all of them where one of the answers is in doubt."""
    if answer.doubts or other and other.doubts:
        return answer.reasons
    known = other.causes if other else []
    return [reason for reason, cause in zip(answer.reasons, answer.causes) if cause not in known]
