"""tools/picture: chains and a packet's way through them, as a graph for Graphviz."""
import html
import sys

from felix_tools.answers import Answers
from felix_tools.options import tool_parser
from felix_tools.reading import STANDARD_INPUT, InputError, read_text
from felix_tools.rule_words import LEGEND, rule_words, target
from felix_tools.start import answered

DESCRIPTION = """\
Draws what felix-replay writes: the last tables, and the way of the last packet that met them, if there is one.

  tools/ask cluster.json --from shop/web --to shop/db --tcp 5432 --raw receiver | tools/picture | dot -Tsvg > way.svg
  ./felix-replay --node n1 < lines.jsonl | tools/picture --all | dot -Tsvg > chains.svg

The lines have to ask for the tables ({"tables":true}). `dot` is Graphviz's. With a packet, its chains alone are drawn.

Status: 0 done, 2 some file or word can't be read, or there are no tables, 5 the graph can't be written."""

KINDS = [  # what a chain's name begins with, what the chain is, its colour
    ("cali-FORWARD", "every forwarded packet", "#cfe2f3"),
    ("cali-from-wl-dispatch", "which workload sends?", "#d9ead3"),
    ("cali-to-wl-dispatch", "which workload receives?", "#d9ead3"),
    ("cali-fw-", "from workload", "#fff2cc"),
    ("cali-tw-", "to workload", "#fff2cc"),
    ("cali-pi-", "policy, ingress", "#fce5cd"),
    ("cali-po-", "policy, egress", "#fce5cd"),
    ("cali-pri-", "profile, ingress", "#ead1dc"),
    ("cali-pro-", "profile, egress", "#ead1dc"),
    ("", "", "#eeeeee"),
]
WAY, GOOD, BAD, PALE = "#1155cc", "#38761d", "#cc0000", "#888888"
TABLE = '<TABLE BORDER="%d" CELLBORDER="1" COLOR="%s" CELLSPACING="0" CELLPADDING="%d">%s</TABLE>'
GRAPH = [
    "digraph chains {",
    '  graph [rankdir=LR, nodesep=0.25, ranksep=1.0, fontname="Helvetica", labelloc=t, fontsize=15, pad=0.3, outputorder=edgesfirst];',
    '  node [shape=plain, fontname="Helvetica", fontsize=11];',
    '  edge [fontname="Helvetica", fontsize=11, color="#999999", arrowsize=0.7];',
]


def main(words):
    return answered("picture", draw, parser().parse_args(words))


def draw(options):
    answers = Answers(read_text(options.file))
    if not answers.chains:
        raise InputError("there are no tables in this; a line {\"tables\":true} asks for them")
    sys.stdout.write("\n".join(Drawing(answers, options).lines()) + "\n")
    return 0


def parser():
    made = tool_parser("picture", DESCRIPTION)
    made.add_argument("file", nargs="?", metavar="FILE", default=STANDARD_INPUT, help="what felix-replay wrote; none is standard input")
    made.add_argument("--all", action="store_true", help="every chain, on the way or not")
    made.add_argument("--near", action="store_true", help="also those that the way's chains lead to, without their rules")
    made.add_argument("--raw", action="store_true", help="the rules as the tables have them")
    return made


class Drawing:
    """What is drawn of an output: the chains in full, those as stubs, and the steps of the packet."""

    def __init__(self, answers, options):
        self.answers = answers
        self.raw = options.raw
        # Tables that came later than the packet, and differ, aren't those that it met.
        met = [packet for packet in answers.packets if packet.state == answers.tables_state]
        self.packet = met[-1] if met else None
        self.hops = self.packet.path if self.packet else []
        chains = set(answers.chains)
        is_way = self.packet is not None and bool(self.hops) and not options.all
        self.full = {chain for chain, _ in self.hops} & chains if is_way else chains
        led_to = {target(rule) for chain in self.full for rule in answers.chains[chain]} & chains
        self.stubs = led_to - self.full if options.near else set()
        self.steps = {}
        for number, hop in enumerate(self.hops, 1):
            self.steps.setdefault(hop, []).append(number)
        self.names = chain_names(answers)

    def lines(self):
        lines = GRAPH + [self.title()]
        lines += [self.chain(name) for name in sorted(self.full)] + [self.stub(name) for name in sorted(self.stubs)]
        lines += self.calls() + self.returns() + self.ends()
        return lines + ["}"]

    def title(self):
        answers = self.answers
        if self.packet:
            heads = ["<B>verdict: %s</B>" % coloured(self.packet.verdict, verdict_colour(self.packet.verdict))]
            heads += [html.escape(" ".join([direction] + words)) for direction, words in self.packet.reasons.items()]
            left = len(answers.chains) - len(self.full) - len(self.stubs)
            heads += [small("%d chains that the packet did not meet are left out" % left)] if left else []
        else:
            counts = len(answers.chains), sum(map(len, answers.chains.values())), len(answers.sets)
            heads = ["%d chains, %d rules, %d sets" % counts]
        heads += [] if self.raw else [small(text) for text in LEGEND]
        rows = "".join("<TR><TD>%s</TD></TR>" % head for head in heads + [" "])
        return '  label=<<TABLE BORDER="0" CELLSPACING="2">%s</TABLE>>;' % rows

    # ---- chains

    def chain(self, name):
        _, what, colour = kind_of(name)
        below = html.escape(" ".join(text for text in (what, self.names.get(name)) if text))
        head = "<B>%s</B>" % html.escape(name) + ('<BR/><FONT POINT-SIZE="10">%s</FONT>' % below if below else "")
        rows = ['<TR><TD COLSPAN="3" BGCOLOR="%s" PORT="top">%s</TD></TR>' % (colour, head)]
        rows += [self.rule(name, place, rule) for place, rule in enumerate(self.answers.chains[name], 1)]
        if len(rows) == 1:
            rows.append('<TR><TD COLSPAN="3" PORT="r1">%s</TD></TR>' % coloured("no rules: back", PALE))
        return "  %s [label=<%s>];" % (quoted(name), TABLE % (1, "#666666", 3, "".join(rows)))

    def rule(self, chain, place, rule):
        steps = self.steps.get((chain, place))
        text = html.escape(rule if self.raw else rule_words(rule, self.answers.sets))
        for ending, colour in (("ACCEPT", GOOD), ("DROP", BAD)):
            if text.endswith(ending):
                text = text[:-len(ending)] + coloured("<B>%s</B>" % ending, colour)
        ground = ' BGCOLOR="#ffe599"' if steps else ""
        number = '<FONT COLOR="%s" POINT-SIZE="9">%d</FONT>' % (PALE, place)
        step = coloured("<B>%s</B>" % ",".join(map(str, steps)), WAY) if steps else " "
        cells = '<TD%s ALIGN="RIGHT" PORT="a%d">%s</TD>' % (ground, place, number)
        cells += '<TD%s ALIGN="LEFT" BALIGN="LEFT">%s</TD><TD%s PORT="r%d">%s</TD>' % (ground, text, ground, place, step)
        return "<TR>%s</TR>" % cells

    def stub(self, name):
        count = len(self.answers.chains[name])
        text = '%s<BR/><FONT POINT-SIZE="9">%d rule%s</FONT>' % (html.escape(name), count, "" if count == 1 else "s")
        row = '<TR><TD BGCOLOR="#f7f7f7">%s</TD></TR>' % coloured(text, PALE)
        return "  %s [label=<%s>];" % (quoted(name), TABLE % (0, "#bbbbbb", 4, row))

    # ---- edges

    def calls(self):
        return [self.call(chain, place, target(rule))
                for chain in sorted(self.full) for place, rule in enumerate(self.answers.chains[chain], 1)
                if target(rule) in self.full or target(rule) in self.stubs]

    def call(self, chain, place, led_to):
        if (chain, place) in self.steps:
            style = ' [color="%s", penwidth=2.2]' % WAY
        else:
            style = ' [color="#cccccc"]' if self.hops else ""
        port = "" if led_to in self.stubs else ":top:w"
        return "  %s:r%d:e -> %s%s%s;" % (quoted(chain), place, quoted(led_to), port, style)

    def returns(self):
        """Where the packet comes back from a chain that was called."""
        lines = []
        for number, ((chain, place), (following, next_place)) in enumerate(zip(self.hops, self.hops[1:]), 2):
            if following not in (target(self.answers.rule(chain, place)), chain):
                ends = "%s:a%d:w -> %s:r%d:e" % (quoted(chain), place, quoted(following), next_place)
                label = coloured(" back, then %d " % number, WAY)
                lines.append('  %s [color="%s", penwidth=1.6, style=dashed, constraint=false, label=<%s>];' % (ends, WAY, label))
        return lines

    def ends(self):
        if not self.packet:
            return []
        verdict, colour = self.packet.verdict, verdict_colour(self.packet.verdict)
        lines = [box("verdict", colour, verdict.upper()), box("start", WAY, "packet")]
        if not self.hops:
            return lines + ['  start -> verdict [color="%s", penwidth=2.2, label="no rule of ours meets it"];' % colour]
        (first, first_place), (last, last_place) = self.hops[0], self.hops[-1]
        lines.append('  start -> %s:a%d:w [color="%s", penwidth=2.2];' % (quoted(first), first_place, WAY))
        lines.append('  %s:r%d:e -> verdict [color="%s", penwidth=2.2];' % (quoted(last), last_place, colour))
        return lines


def chain_names(answers):
    """What each chain is of: a policy, a profile, an endpoint."""
    names = {}
    for fronts, owners in ((("pi", "po"), answers.policies), (("pri", "pro"), answers.profiles)):
        for key, owner in owners.items():
            names.update(("cali-%s-%s" % (front, key), owner) for front in fronts)
    for interface, served in answers.endpoints.items():
        names.update(("cali-%s-%s" % (front, interface), served.owner) for front in ("fw", "tw"))
    return names


def kind_of(chain):
    return next(kind for kind in KINDS if chain.startswith(kind[0]))


def verdict_colour(verdict):
    return GOOD if verdict == "allow" else BAD


def coloured(text, colour):
    return '<FONT COLOR="%s">%s</FONT>' % (colour, text)


def small(text):
    return '<FONT POINT-SIZE="10" COLOR="#666666">%s</FONT>' % html.escape(text)


def box(name, colour, label):
    return '  %s [shape=box, style="filled,rounded", fillcolor="%s", fontcolor=white, label="%s"];' % (name, colour, label)


def quoted(name):
    return '"%s"' % name.replace('"', '\\"')
