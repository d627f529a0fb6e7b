"""An inquiry: resources, the questions that are asked of them, and the answers as values (verdicts.py)."""
import itertools

from felix_tools import program
from felix_tools.asking import Asking
from felix_tools.cluster import Cluster, standing_lines
from felix_tools.conversion import convert, kind_of, services_lines
from felix_tools.doubts import NAMESPACED, Doubts, host_policies, host_policy_text, without_host_policies
from felix_tools.host import HostResources, peer_lines
from felix_tools.nearby import near_notes, settled
from felix_tools.options import paths_of
from felix_tools.questions import is_node, is_outside
from felix_tools.reading import part
from felix_tools.replicas import ENDPOINT, Replicas, merged, tell_number
from felix_tools.resolving import check_number, resolve
from felix_tools.verdicts import UNKNOWN, answer_of


class Inquiry:
    """The resources of some changes, and the answers to questions about them."""

    def __init__(self, changes, options, paths=None, with_each_side=False):
        self.has_forward_policy = any(part(change.resource, "spec", "applyOnForward") is True for change in changes)
        self.conversion = convert(changes)
        self.options = options
        self.cluster = self.cluster_of(self.conversion.lines)
        self.host_policies = host_policies(self.conversion.lines)
        self.asking = Asking(paths or paths_of(options), self.lines(), options.uplink,
                             with_tables=getattr(options, "path", False) or bool(getattr(options, "raw", None)),
                             with_each_side=with_each_side, host=self.host_resources(), peers=self.peers,
                             forwarding=program.SERVICES if self.slices is not None else program.REPLAY)

    def cluster_of(self, lines):
        return Cluster(lines, self.conversion.pods_left_out, [change.resource for change in self.conversion.beside.values()])

    def host_resources(self):
        return HostResources(self.cluster, list(self.conversion.beside.values()), self.options.uplink)

    def lines(self):
        """The lines that all programs are given; and as `peers` those that only rules of pods find: host endpoints, and
        slices where some rule names a Service."""
        lines = without_host_policies(self.conversion.lines)
        self.slices, without_slices = services_lines(lines, self.conversion.beside.values())
        self.peers = peer_lines(self.conversion.beside.values()) + (self.slices or [])
        self.misread = self.conversion.unknown_fields + without_slices
        return lines

    def replicas(self):
        """Which pods are asked about together; None where each is by itself."""
        is_each = self.options.each_pod or getattr(self.options, "path", False) or getattr(self.options, "raw", None)
        return None if is_each else Replicas(self.cluster)

    def questions(self, wishes, replicas=None):
        """The questions of the wishes, those of pods that are alike in `replicas` as one."""
        questions = []
        for wish in wishes:
            questions += resolve(wish, self.cluster, replicas, self.options.most)
            check_number(len(questions), self.options.most)
        return questions

    def ask(self, wishes, value_of):
        """The answers to all wishes; pods of one workload stand in one, where `value_of` it is equal for them."""
        answers = [answer for several in self.ask_each(wishes) for answer in several]
        return merged(answers, self.cluster, value_of) if self.replicas() else answers

    def ask_each(self, wishes, value_of=None):
        """The answers to each wish; with `value_of` those of each wish are merged by themselves."""
        replicas = self.replicas()
        asked = self.questions_of_each(wishes, replicas)
        answers = self.answers_of_each(asked)
        if replicas and self.has_refused_pods():
            answers = self.answers_of_each(self.questions_of_each(wishes, None))
        return [merged(several, self.cluster, value_of) if replicas and value_of else several for several in answers]

    def questions_of_each(self, wishes, replicas):
        asked = [self.questions([wish], replicas) for wish in wishes]
        check_number(sum(map(len, asked)), self.options.most)
        tell_number([question for questions in asked for question in questions])
        return asked

    def answers_of_each(self, asked):
        answers = iter(self.answers([question for questions in asked for question in questions]))
        return [list(itertools.islice(answers, len(questions))) for questions in asked]

    def has_refused_pods(self):
        """Whether the program refused an endpoint: pods that are alike may then have unlike answers."""
        return any(kind_of(line.resource)[1] == ENDPOINT for line, _ in self.refusals())

    def prepare(self, questions):
        """Notes what the program will be asked for these questions, without asking yet."""
        self.asking.take([question for question in questions if settled(question, self.cluster) is None])

    def answers(self, questions):
        """An answer for each question, in their order."""
        known = {place: settled(question, self.cluster) for place, question in enumerate(questions)}
        asked = [question for place, question in enumerate(questions) if known[place] is None]
        results = iter(self.asking.ask(asked))
        standing = {is_host: self.standing(self.asking.refusals(is_host)) for is_host in (False, True)}
        doubts = self.doubts()
        doubts.prepare([end for question in asked for end in (question.sender, question.receiver)])
        return [known[place] or self.answer(next(results), standing, doubts) for place in range(len(questions))]

    def standing(self, refusals):
        """What stands without the lines that were refused."""
        return self.cluster_of(standing_lines(self.asking.lines, refusals)) if refusals else self.cluster

    def doubts(self):
        return Doubts(self.asking, self.conversion.unread, self.misread, self.host_policies)

    def answer(self, result, standing, doubts):
        made = answer_of(result, standing)
        made.notes += near_notes(result.question, self.cluster) + self.forwarded_notes(result.question)
        made.doubts = doubts.of(result)
        made.without = made.verdict
        if made.doubts and not self.options.although_refused:
            made.verdict = UNKNOWN
            made.cause = "these may apply to it, and aren't read, or not wholly"
        return made

    def forwarded_notes(self, question):
        """That host endpoints' policies meet what their node forwards, too, where the input has such a policy."""
        nodes = [end.node for end in (question.sender, question.receiver) if not is_outside(end) and not is_node(end)]
        if len(set(nodes)) == len(nodes) - 1 or not self.has_forward_policy:
            return []
        guarded = [node for node in nodes if self.asking.host.endpoint_of(node)]
        return ["the node %s has a host endpoint: its policies with applyOnForward meet what the node forwards, too, and "
                "weren't asked" % node for node in guarded]

    # ---- what is to be said of the resources, whatever was asked

    def refusals(self):
        """What was refused: by the program for pods, and what may apply to a node's processes by that for these."""
        refused = self.asking.refusals()
        known = {id(line.written) for line, _ in refused}
        return refused + [(line, refusal) for line, refusal in self.asking.refusals(True)
                          if id(line.written) not in known and kind_of(line.resource) not in NAMESPACED]

    def host_policy_texts(self):
        return [host_policy_text(line) for line in self.host_policies]
