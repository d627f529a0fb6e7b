"""tools/check: whether what is expected of a cluster holds."""
import collections
import sys

from felix_tools import json_out, unproved
from felix_tools.assertions import read_assertions
from felix_tools.cluster import UnknownEnd
from felix_tools.inquiry import Inquiry
from felix_tools.nearby import why_nothing
from felix_tools.options import add_names, add_program, named_here, tool_parser
from felix_tools.questions import QuestionError
from felix_tools.reading import read_changes
from felix_tools.reports import junit_text, tap_lines
from felix_tools.start import REFUSED, USAGE, Unwritten, answered
from felix_tools.verdicts import UNKNOWN, whole, word_of
from felix_tools.words import INDENT, answer_lines, input_blocks

DESCRIPTION = """\
Asks the proved program whether what is expected of a cluster holds, and tells what doesn't and by which rule.

  tools/check assertions.txt cluster.json calico.json
  tools/check assertions.yaml cluster.json --junit report.xml

A line of the first file is an assertion: FROM -> TO TRAFFIC allow|deny.

  shop/web -> shop/db tcp/5432 deny
  shop/app=api -> shop/db tcp/pg allow    # by the port's name
  192.0.2.7 -> shop/web tcp/8080 allow

It may also be YAML: a list of objects with from, to, traffic, verdict and perhaps a name, or tests of netassert
(src, dst, protocol, targetPort, exitCode). An assertion about several pods holds if it holds for each pair of them.

Status: 0 all hold, 1 some doesn't, 2 some assertion or file can't be read, or names what isn't there, 3 some answer
isn't known, as a resource that may apply to it was refused or isn't read, 4 the program didn't run to its end, 5 the
answer can't be written."""

# An assertion, the answers to it, and why there are none.
Check = collections.namedtuple("Check", "assertion answers fault")


def main(words):
    return answered("check", check, parser().parse_args(words))


def parser():
    made = tool_parser("check", DESCRIPTION)
    made.add_argument("assertions", metavar="ASSERTIONS", help="what is expected: lines or YAML; `-` is standard input")
    made.add_argument("files", nargs="+", metavar="FILE", help="resources, as for tools/ask")
    shown = made.add_argument_group("answers")
    shown.add_argument("--reasons", action="store_true", help="tells the rules also of what holds")
    forms = shown.add_mutually_exclusive_group()
    forms.add_argument("--tap", action="store_true", help="the answer as TAP, the Test Anything Protocol")
    forms.add_argument("--json", action="store_true", help="the answer as JSON (docs/answers.schema.json)")
    shown.add_argument("--junit", metavar="REPORT", help="writes a report in JUnit's XML, too")
    add_names(made.add_argument_group("questions"))
    add_program(made)
    return made


def check(options):
    assertions = [it._replace(wish=named_here(it.wish, options.namespace))
                  for it in read_assertions(options.assertions)]
    inquiry = Inquiry(read_changes(options.files), options, with_each_side=True)
    checks = checks_of(inquiry, assertions)
    rows = [Row(one, options.reasons) for one in checks]
    tell(options, inquiry, rows)
    if options.junit:
        write_report(options.junit, junit_text(rows, options.assertions))
    return status(rows)


def checks_of(inquiry, assertions):
    """The assertions with their answers. One that names what isn't there leaves the others."""
    faults = [fault_of(inquiry, assertion) for assertion in assertions]
    answers = iter(inquiry.ask_each([it.wish for it, fault in zip(assertions, faults) if not fault], whole))
    return [Check(it, [] if fault else next(answers), fault) for it, fault in zip(assertions, faults)]


def fault_of(inquiry, assertion):
    """Why an assertion can't be asked about, or nothing."""
    try:
        asked = inquiry.questions([assertion.wish], inquiry.replicas())
    except (UnknownEnd, QuestionError) as fault:
        return str(fault)
    return "" if asked else "%s: nothing is asked by it: %s" % (assertion.place, why_nothing([assertion.wish], inquiry.cluster))


class Row:
    """A check as it is told."""

    def __init__(self, check, with_reasons=False):
        assertion = check.assertion
        self.check = check
        self.place = assertion.place
        self.expected = word_of(assertion.expected)
        self.wrong = [answer for answer in check.answers if answer.verdict != self.expected]
        self.holds = not self.wrong and not check.fault
        self.is_error = bool(check.fault) or any(answer.verdict == UNKNOWN for answer in self.wrong)
        self.is_failure = not self.holds and not self.is_error
        self.title = assertion.name or "%s -> %s, %s: %s" % (
            assertion.wish.sender, assertion.wish.receiver, assertion.wish.traffic.words, self.expected)
        self.message = check.fault or self.verdicts()
        shown = check.answers if with_reasons else self.wrong
        self.why = [check.fault] if check.fault else [line for answer in shown for line in answer_lines(answer)]

    def verdicts(self):
        found = sorted({answer.verdict for answer in self.wrong})
        return "expected %s, and it's %s" % (self.expected, " and ".join(found)) if found else ""

    def lines(self):
        if self.holds:
            return ["holds: " + self.title] + [INDENT + line for line in self.why]
        head = "%s: %s (%s)" % ("NOT KNOWN" if self.is_error else "WRONG", self.title, self.place)
        return [head] + [INDENT + line for line in self.why]


def tell(options, inquiry, rows):
    if options.tap:
        print("\n".join(tap_lines(rows)))
    elif options.json:
        checks = [json_out.check_value(row) for row in rows]
        print(json_out.written("check", json_out.input_value(inquiry, options), checks=checks, status=status(rows)))
    else:
        head = [[unproved.SAID]] if options.unproved else []
        blocks = head + input_blocks(inquiry) + [[line for row in rows for line in row.lines()], [summary(rows)]]
        print("\n\n".join("\n".join(block) for block in blocks if block))


def summary(rows):
    held = sum(row.holds for row in rows)
    return "%d of %d %s." % (held, len(rows), "assertion holds" if len(rows) == 1 else "assertions hold")


def write_report(path, text):
    """Writes the report, behind the answer: neither is lost where the other one can't be written."""
    sys.stdout.flush()
    try:
        with open(path, "w", encoding="utf-8") as file:
            file.write(text)
    except OSError as fault:
        raise Unwritten("the report can't be written: %s: %s" % (path, fault.strerror))


def status(rows):
    if any(row.check.fault for row in rows):
        return USAGE
    if any(row.is_error for row in rows):
        return REFUSED
    return 0 if all(row.holds for row in rows) else 1
