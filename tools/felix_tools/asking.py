"""Asks the programs: which packets a question is, on which nodes, and what the answers are for each side of it."""
import collections
import concurrent.futures
import json

from felix_tools import program
from felix_tools.answers import Answers, HostAnswers
from felix_tools.conversion import input_of
from felix_tools.host import host_input_of
from felix_tools.progress import Progress
from felix_tools.questions import host_packet, is_node, node_of, packet

# One end's side of an answer. `reason` holds the program's words, or is None where the packet's way ended before;
# `is_met` says whether the packet comes to this side at all.
Side = collections.namedtuple("Side", "direction end node reason is_allowed is_met path answers")
Result = collections.namedtuple("Result", "question is_allowed sides")
# A run of a program: what passes a node between its pods and others, or what comes to its own processes or from them.
Run = collections.namedtuple("Run", "node is_host")


class Asking:
    """The programs, the lines that they are given, and the questions whose packets are put to them, node by node."""

    def __init__(self, paths, lines, uplink, with_tables=False, with_each_side=False, host=None, peers=(),
                 forwarding=program.REPLAY):
        self.paths = paths
        self.lines = lines
        self.forwarded_lines = list(peers) + lines
        self.uplink = uplink
        self.with_tables = with_tables
        self.with_each_side = with_each_side
        self.host = host
        self.forwarding = forwarding
        self.packets = collections.OrderedDict()
        self.answers = {}
        self.outputs = {}
        self.answered = {}

    def ask(self, questions):
        """The answers to the questions."""
        self.take(questions)
        self.run_all()
        return [self.result(question) for question in questions]

    def take(self, questions):
        """Notes the packets that are asked about, without asking yet."""
        for question in questions:
            for run, asked in self.packets_of(question):
                self.packets.setdefault(run, collections.OrderedDict()).setdefault(text_of(asked), asked)

    def serve(self, ends):
        """Has these pods' nodes asked, whatever is asked of them."""
        for end in ends:
            self.packets.setdefault(run_of(end), collections.OrderedDict())
        self.run_all()

    def packets_of(self, question):
        """(run, packet) of each packet that the question is."""
        if is_on_one_node(question):
            run = run_of(question.sender)
            packets = [(run, self.passing(question))]
            return packets + [(run, self.entering(question))] if self.with_each_side else packets
        packets = [] if node_of(question.sender) is None else [(run_of(question.sender), self.leaving(question))]
        return packets if node_of(question.receiver) is None else packets + [(run_of(question.receiver), self.entering(question))]

    def passing(self, question):
        return packet(question, question.sender.interface, question.receiver.interface)

    def leaving(self, question):
        if is_node(question.sender):
            return host_packet(question, "out", self.uplink)
        return packet(question, question.sender.interface, self.uplink)

    def entering(self, question):
        if is_node(question.receiver):
            return host_packet(question, "in", self.uplink)
        return packet(question, self.uplink, question.receiver.interface)

    def run_all(self):
        """Runs the program for each node: once alone, since the first run may build it, and then several side by side."""
        runs = list(self.packets)
        self.paths.ahead(self.all_given())
        firsts = [next(run for run in runs if run.is_host == is_host) for is_host in {run.is_host for run in runs}]
        pool = concurrent.futures.ThreadPoolExecutor(max_workers=4)
        with Progress(len(runs), "nodes asked") as progress, pool:
            outputs = {run: self.run(run, progress) for run in firsts}
            others = [run for run in runs if run not in outputs]
            outputs.update(zip(others, pool.map(lambda run: self.run(run, progress), others)))
        for run in runs:
            self.outputs[run] = outputs[run]
            self.answers[run] = (HostAnswers if run.is_host else Answers)(outputs[run])
            self.keep_packets(run)

    def keep_packets(self, run):
        asked, answered = self.packets[run], self.answers[run].packets
        if len(asked) != len(answered):
            faults = ["%s %s" % (refusal.name, refusal.rest) for refusal in self.answers[run].refusals if refusal.line > self.count(run)]
            raise program.ProgramError("the program refused a packet of node %s: %s" % (run.node, ", ".join(faults)))
        self.answered[run] = dict(zip(asked, answered))

    def run(self, run, progress):
        output = self.paths.run(*self.given(run))
        progress.step()
        return output

    def all_given(self):
        return [self.given(run) for run in self.packets]

    def given(self, run):
        """(program, node, input) of a run."""
        asked = self.packets[run].values()
        if run.is_host:
            given = host_input_of(self.host_lines(run), asked, lambda asked: self.host.failsafe_line(run.node, asked))
            return program.HOST, run.node, given
        return self.forwarding, run.node, input_of(self.lines_of(run), asked, self.with_tables)

    def host_lines(self, run):
        return self.host.lines_of(run.node) + self.lines

    def lines_of(self, run):
        """The lines that a run is given, in their order."""
        return self.host_lines(run) if run.is_host else self.forwarded_lines

    def count(self, run):
        return len(self.lines_of(run))

    def found(self, end, asked):
        return self.answered[run_of(end)][text_of(asked)]

    def result(self, question):
        if is_on_one_node(question):
            return self.result_on_one_node(question)
        sides = []
        if node_of(question.sender) is not None:
            sides.append(self.side("egress", question.sender, self.found(question.sender, self.leaving(question)), True))
        if node_of(question.receiver) is not None:
            is_met = all(side.is_allowed for side in sides)
            sides.append(self.side("ingress", question.receiver, self.found(question.receiver, self.entering(question)), is_met))
        return Result(question, all(side.is_allowed for side in sides), sides)

    def result_on_one_node(self, question):
        """A packet that passes both: where its way ends at the sender's side, what the receiver's would say is asked apart."""
        passing = self.found(question.sender, self.passing(question))
        is_allowed = passing.verdict == "allow"
        is_met = is_allowed or "ingress" in passing.reasons
        first = self.side("egress", question.sender, passing, True)._replace(is_allowed=is_met)
        if is_met:
            return Result(question, is_allowed, [first, self.side("ingress", question.receiver, passing, True)])
        sides = [first]
        if self.with_each_side:
            sides.append(self.side("ingress", question.receiver, self.found(question.receiver, self.entering(question)), False))
        return Result(question, is_allowed, sides)

    def side(self, direction, end, answer, is_met):
        reason = answer.reasons.get("host" if is_node(end) else direction)
        return Side(direction, end, end.node, reason[1:] if reason else None, answer.verdict == "allow", is_met,
                    answer.path, self.answers[run_of(end)])

    def served(self, end):
        """What the program served a pod with: its tiers and its profiles."""
        answers = self.answers.get(run_of(end))
        return answers.endpoints.get(end.interface) if answers else None

    def refusals(self, is_host=False):
        """(line, refusal) of each line that one of the two programs refused, and of the first run of it that did."""
        refused = collections.OrderedDict()
        for run, answers in self.answers.items():
            lines = self.lines_of(run)
            for refusal in answers.refusals if run.is_host == is_host else ():
                if refusal.line <= len(lines):
                    refused.setdefault(id(lines[refusal.line - 1].written), (lines[refusal.line - 1], refusal))
        places = {id(line): place for place, line in enumerate(self.lines)}
        return sorted(refused.values(), key=lambda pair: places.get(id(pair[0]), -1))


def run_of(end):
    return Run(end.node, is_node(end))


def is_on_one_node(question):
    """Whether one packet passes both ends, which are pods of one node."""
    ends = question.sender, question.receiver
    return not any(map(is_node, ends)) and node_of(ends[0]) is not None and node_of(ends[0]) == node_of(ends[1])


def text_of(asked):
    return json.dumps(asked, sort_keys=True)
