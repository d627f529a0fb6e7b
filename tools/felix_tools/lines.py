"""tools/lines: resources as lines for felix-replay and felix-restore."""
import sys

from felix_tools.cluster import Cluster
from felix_tools.conversion import convert, display_name, input_of, start_of
from felix_tools.options import tool_parser
from felix_tools.reading import STANDARD_INPUT, read_changes
from felix_tools.start import answered, remark

DESCRIPTION = """\
Writes what kubectl and calicoctl print as lines for felix-replay, with `inSync` and a flush at the end.

  kubectl get pods,namespaces,serviceaccounts,networkpolicies -A -o json > cluster.json
  calicoctl get globalnetworkpolicies -o json > global.json
  tools/lines cluster.json global.json > lines.jsonl

A file holds JSON or, where PyYAML is installed, YAML: lists, single resources, several of them, or lines that were made
before. Pods become workload endpoints, as Calico makes them, and orders whole numbers that compare alike. Told on
standard error is what is left out, kind by kind, what stands in two files, and what kubectl would refuse.
Whether a resource is accepted the program says, and not this tool.

Status: 0 done, 2 some file or word can't be read, 5 the lines can't be written."""


def main(words):
    parser = tool_parser("lines", DESCRIPTION)
    parser.add_argument("files", nargs="*", metavar="FILE", default=[STANDARD_INPUT], help="JSON; `-` or none is standard input")
    parser.add_argument("--without-flush", action="store_true",
                        help="without the flush at the end: felix-restore takes none")
    return answered("lines", write_lines, parser.parse_args(words))


def write_lines(options):
    conversion = convert(read_changes(options.files or [STANDARD_INPUT]))
    for text in remarks(conversion):
        remark("lines", text)
    sys.stdout.write(start_of(conversion.lines) if options.without_flush else input_of(conversion.lines))
    return 0


def remarks(conversion):
    """What is to be said of the resources."""
    texts = ["left out %s" % text for text in conversion.left_out.texts(True) + conversion.left_out.texts(False)]
    texts += ["%s (%s): %s" % (display_name(it.resource), it.origin, it.why) for it in conversion.unknown_fields]
    texts += conversion.mistakes + conversion.repeated_texts()
    return texts if conversion.lines else texts + [Cluster([], conversion.pods_left_out).why_empty()]
