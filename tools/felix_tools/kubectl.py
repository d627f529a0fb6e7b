"""kubectl-felix: the tools on what a cluster has now, as a plugin of kubectl."""
import argparse
import shlex
import tempfile

from felix_tools import ask, check, diff, fetching, lines
from felix_tools.options import PlainHelp
from felix_tools.reading import InputError
from felix_tools.start import REFUSED, USAGE, answered, remark
from felix_tools.version import about, tool_name

NAME = "kubectl-felix"
DESCRIPTION = """\
Fetches what the cluster has by kubectl (and by calicoctl, where the API server doesn't serve Calico's API), and
asks the proved program about it.

  kubectl felix ask --from shop/web --to shop/db --tcp 5432
  kubectl felix ask --matrix --from 'shop/*' --to 'shop/*' --tcp 5432
  kubectl felix ask -n shop --policies web
  kubectl felix diff -f new-policy.yaml --from 'shop/*' --to shop/db --tcp 5432
  kubectl felix check assertions.txt
  kubectl felix lines > lines.jsonl

It reads and changes nothing. What it isn't allowed to read is told on standard error. Other words are those of
tools/ask, tools/diff and tools/check: `kubectl felix ask --help`.

Status: that of the tool; 3 also where something couldn't be read that may have a say."""

TOOLS = {"ask": ask, "check": check, "diff": diff, "lines": lines}


def main(words):
    if not words or words[0] in ("-h", "--help"):
        parser().print_help()
        return 0 if words else USAGE
    options, rest = parser().parse_known_args(words)
    options.words = rest
    if "-h" in rest or "--help" in rest:
        return TOOLS[options.tool].main(["--help"])
    return answered(NAME, fetch_and_run, options)


def parser():
    name = tool_name(NAME)
    usage = "%s {%s} [OPTION ..] [WORD OF THE TOOL ..]" % (name, ",".join(sorted(TOOLS)))
    made = argparse.ArgumentParser(prog=name, usage=usage, description=DESCRIPTION, formatter_class=PlainHelp,
                                   allow_abbrev=False, add_help=False)
    made.add_argument("--version", action="version", version=about(NAME))
    made.add_argument("tool", choices=sorted(TOOLS), metavar="TOOL", help="ask, check, diff or lines")
    made.add_argument("--context", help="the context of kubectl's configuration")
    made.add_argument("--kubeconfig", metavar="FILE", help="kubectl's configuration")
    made.add_argument("-n", "--namespace", action="append", default=[], metavar="NAMESPACE", dest="namespaces",
                      help="reads this namespace alone (may be given again); the first is that of names that have none")
    made.add_argument("-A", "--all-namespaces", action="store_true", help="reads all namespaces, as without -n")
    made.add_argument("-f", "--filename", action="append", default=[], metavar="FILE", dest="applied",
                      help="of diff: what would be applied")
    made.add_argument("--save", metavar="DIR", help="keeps what was fetched, a file for each kind")
    return made


def fetch_and_run(options):
    if options.all_namespaces and options.namespaces:
        raise InputError("-A and -n exclude each other")
    cluster = fetching.Cluster(options.context, options.kubeconfig, options.namespaces)
    found = cluster.fetch()
    if not options.save:
        with tempfile.TemporaryDirectory(prefix="kubectl-felix-") as folder:
            return run(options, found, fetching.keep(found, folder))
    paths = fetching.keep(found, options.save)
    remark(NAME, "kept in %s; the same without the cluster: %s" % (options.save, same_words(options, paths)))
    return run(options, found, paths)


def run(options, found, paths):
    """The status of the tool on these files, or that of an answer without something that may have a say."""
    unread = tell_unread(options, found)
    if not paths:
        raise InputError("nothing could be read")
    status = TOOLS[options.tool].main(words_of(options, paths))
    return REFUSED if unread and status in (0, 1) else status


def tell_unread(options, found):
    """Tells what couldn't be read; whether some of it may have a say."""
    faults = [one for one in found if one.fault is not None]
    for one in faults:
        say = ", though it may have a say" if one.kind.has_say else ""
        remark(NAME, "%s couldn't be read, so it isn't in what follows%s: %s" % (one.kind.name, say, one.fault))
    if faults and not options.namespaces and any("orbidden" in one.fault for one in faults):
        remark(NAME, "-n NAMESPACE reads one namespace alone")
    if options.namespaces:
        names = ", ".join(options.namespaces)
        remark(NAME, "of the namespaces %s alone: what stands in others isn't in what follows" % names)
    return any(one.kind.has_say for one in faults)


def words_of(options, paths):
    """The words of the tool."""
    words = list(options.words)
    if options.namespaces and options.tool != "lines":
        words += ["--namespace", options.namespaces[0]]
    if options.tool == "diff":
        if not options.applied:
            raise InputError("diff needs -f FILE: what would be applied")
        return ["--before"] + paths + ["--after"] + paths + options.applied + words
    if options.applied:
        raise InputError("-f is of diff alone")
    if options.tool == "check" and check.parser().parse_known_args(words + paths)[0].assertions in paths:
        raise InputError("check needs a file of assertions: kubectl felix check FILE")
    return words + paths if options.tool == "check" else paths + words


def same_words(options, paths):
    return " ".join(map(shlex.quote, [tool_name(options.tool)] + words_of(options, paths)))
