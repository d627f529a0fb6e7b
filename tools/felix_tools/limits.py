"""tools/limits: runs of the program at its limits, one step beyond them, and where there is most to do."""
import collections
import re
import tempfile
import time

from felix_tools import calico_lines as made
from felix_tools import program
from felix_tools.alone import run_alone
from felix_tools.options import tool_parser
from felix_tools.reading import InputError
from felix_tools.start import answered, remark

DESCRIPTION = """\
Runs the proved program at each limit and one step beyond it, and where a few resources make much work: once with a tenth
of them and once with all. Says for each run how long it took and how much memory, and whether it wrote what it should.

  tools/limits                 all cases
  tools/limits policies nets   those whose names begin so
  tools/limits --list          the names alone

Status: 0 each run wrote what it should, in time, 1 some didn't, 2 a word can't be read, 4 the program didn't run,
5 the output can't be written."""

LINE_LIMIT = 4194304
NAME_LIMIT = 253
TEXT_LIMIT = 65536
NESTING = 64
# A tenth and all of what makes work.
# Each policy that comes to an endpoint makes its list of them anew, so more of these take minutes (docs/HOSTILE.md).
POLICIES = (1000, 10000)
PROFILES = (1000, 10000)
NETS = (100, 1000)
MEMBERS = (20000, 200000)
ENDPOINTS = (1000, 10000)

# A run: its name, its input, the node's name, its status, and a pattern for all that it writes.
Case = collections.namedtuple("Case", "name input node status output")
Ran = collections.namedtuple("Ran", "status output seconds megabytes")


def case(name, given, status, output, node="n1"):
    return Case(name, given, node, status, output)


def accepted(name, given, output="", node="n1"):
    return case(name, given, 0, output, node)


def refused(name, given, answer):
    return case(name, given, 1, r"refused \d+ %s\n" % answer)


# ---- lines and JSON

def line_cases():
    yield accepted("line of 4,194,304 bytes", b" " * LINE_LIMIT + b"\n")
    yield refused("line of 4,194,305 bytes", b" " * (LINE_LIMIT + 1) + b"\n", "20 LineTooLong")
    flush = made.FLUSH.strip()
    yield accepted("flush in 4,194,304 bytes", flush + b" " * (LINE_LIMIT - len(flush)) + b"\n", "flushed 0\n")
    yield refused("flush in 4,194,305 bytes", flush + b" " * (LINE_LIMIT + 1 - len(flush)) + b"\n", "20 LineTooLong")


def json_cases():
    yield refused("brackets 127 deep", b"[" * 127 + b"]" * 127 + b"\n", "22 BadLine")
    yield refused("brackets 128 deep", b"[" * 128 + b"]" * 128 + b"\n", "21 BadJson")


# ---- selectors

def nested(depth):
    """A selector so many groups deep, each of which is an Or over an And."""
    text = "has(a)"
    for _ in range(depth):
        text = "has(a) && (%s) || has(b)" % text
    return text


def long_selector(size):
    """A selector of exactly so many bytes, of as many operands as fit."""
    operand = "role == 'x' || "
    count = (size - len("has(a)")) // len(operand)
    text = operand * count + "has(a)"
    return text + " " * (size - len(text))


def selected(selector):
    return made.served(made.policy("p", selector), made.endpoint("w1", "cali1", {"a": "1"}))


SELECTED = r"policy gnp/p gnp/p in 0 out 0\nendpoint cali1 a/w1 in default\(gnp/p\) out - profiles -\nflushed 2\n"


def selector_cases():
    yield accepted("selector 64 groups deep", selected(nested(NESTING)), SELECTED)
    yield refused("selector 65 groups deep", made.policy("p", nested(NESTING + 1)), r"4 BadSelector spec\.selector \d+")
    yield accepted("selector of 64 nots", selected("!" * NESTING + "has(a)"), SELECTED)
    yield refused("selector of 65 nots", made.policy("p", "!" * (NESTING + 1) + "has(a)"), r"4 BadSelector spec\.selector 64")
    yield accepted("selector text of 65,536 bytes", selected(long_selector(TEXT_LIMIT)), SELECTED)
    yield refused("selector text of 65,537 bytes", made.policy("p", long_selector(TEXT_LIMIT + 1)), r"4 BadSelector spec\.selector 65536")


# ---- names

def named_puts(name):
    """Lines that put a resource, each with this name at another place where a name may stand."""
    rule = {"action": "Allow", "source": {"serviceAccounts": {"names": [name]}}}
    yield made.put("Tier", {"name": name})
    yield made.policy(name)
    yield made.policy("p", tier=name)
    yield made.policy("p", ingress=[rule])
    yield made.put("NetworkPolicy", {"name": name, "namespace": "a"})
    yield made.put("NetworkPolicy", {"name": "p", "namespace": "a"}, {"tier": name})
    yield made.put("NetworkSet", {"name": name, "namespace": "a"})
    yield made.put("GlobalNetworkSet", {"name": name})
    yield made.put("Profile", {"name": name})
    yield made.endpoint(name, "cali1")
    yield made.endpoint("w2", "cali2", node=name)
    yield made.endpoint("w2", "cali2", profiles=[name])
    yield made.endpoint("w2", "cali2", orchestrator=name)
    yield made.endpoint("w2", "cali2", serviceAccountName=name)
    yield made.put("NetworkPolicy", {"name": name, "namespace": "a"}, version="networking.k8s.io/v1")
    yield made.put("Namespace", {"name": name}, version="v1")
    yield made.put("ServiceAccount", {"name": name, "namespace": "a"}, version="v1")


def name_cases():
    longest = "n" * NAME_LIMIT
    lines = list(named_puts(longest))
    yield accepted("names of 253 bytes", b"".join(lines), node=longest)
    too_long = list(named_puts(longest + "n"))
    answers = "".join(r"refused %d 3 BadField \S+\n" % number for number in range(1, len(too_long) + 1))
    yield case("names of 254 bytes", b"".join(too_long), 1, answers)


# ---- much work

def policy_cases():
    for count in POLICIES:
        given = made.served(*(made.policy("p%d" % n, "has(a)") for n in range(count)), made.endpoint("w1", "cali1", {"a": "1"}))
        yield accepted("policies on one endpoint, {:,}".format(count), given, many_and(count, r"policy \S+ \S+ in 0 out 0\n", "flushed"))


def profile_cases():
    for count in PROFILES:
        given = made.served(made.endpoint("w1", "cali1", profiles=["p%d" % n for n in range(count)]))
        yield accepted("profiles of one endpoint, {:,}".format(count), given, many_and(count, r"profile \S+ \S+ missing\n", "flushed"))


def net_cases():
    for count in NETS:
        nets = ["10.%d.%d.0/24" % divmod(n, 256) for n in range(count)]
        rule = {"action": "Allow", "source": {"nets": nets}, "destination": {"nets": nets}}
        given = made.served(made.policy("p", "has(a)", ingress=[rule]), made.endpoint("w1", "cali1", {"a": "1"}))
        yield accepted("nets at both ends of a rule, {:,}".format(count), given + b'{"tables":true}\n',
                       r"policy \S+ gnp/p in 1 out 0\nendpoint .*\nflushed 2\n\*filter\n(?:.*\n)*COMMIT\n")


def member_cases():
    for count in MEMBERS:
        nets = ["10.%d.%d.%d" % (n >> 16, n >> 8 & 255, n & 255) for n in range(count)]
        rule = {"action": "Allow", "source": {"selector": "has(s)"}}
        given = made.served(made.put("GlobalNetworkSet", {"name": "s", "labels": {"s": "1"}}, {"nets": nets}),
                            made.policy("p", "has(a)", ingress=[rule]), made.endpoint("w1", "cali1", {"a": "1"}))
        yield accepted("members of a set, {:,}".format(count), given,
                       r"set-add \S+ hash:net(?: [0-9./]+){%d}\npolicy \S+ gnp/p in 1 out 0\nendpoint .*\nflushed 3\n" % count)


def batch_cases():
    for count in ENDPOINTS:
        start = made.batch(made.endpoint("w%d" % n, "cali%d" % n) for n in range(count))
        moved = made.batch(made.endpoint("w%d" % n, "cali%d" % ((n + 1) % count)) for n in range(count))
        yield accepted("interfaces that change hands in a batch, {:,}".format(count), start + made.IN_SYNC + moved)


def many_and(count, line, end):
    return r"(?:%s){%d}endpoint .*\n%s %d\n" % (line, count, end, count + 1)


def cases():
    kinds = (line_cases, json_cases, selector_cases, name_cases, policy_cases, profile_cases, net_cases, member_cases, batch_cases)
    for some in kinds:
        yield from some()


# ---- runs

def main(words):
    return answered("limits", run_all, parser().parse_args(words))


def parser():
    parser = tool_parser("limits", DESCRIPTION)
    parser.add_argument("names", nargs="*", metavar="NAME", help="what the names of the cases begin with")
    parser.add_argument("--seconds", type=int, metavar="N", default=60, help="the time that a run may take (%(default)s)")
    parser.add_argument("--list", action="store_true", help="the names of the cases alone")
    parser.add_argument("--program", metavar="PATH", help="the proved program (else $FELIX_REPLAY, else this repository's own)")
    return parser


def run_all(options):
    chosen = [it for it in cases() if not options.names or it.name.startswith(tuple(options.names))]
    if not chosen:
        raise InputError("no case begins with %s" % " or ".join(options.names))
    if options.list:
        print(*(it.name for it in chosen), sep="\n")
        return 0
    path = program.find_built(options.program)
    print("| run | input | seconds | MB | status |\n|---|---|---|---|---|")
    wrong = [fault for it in chosen for fault in [tell(it, run(path, it), options.seconds)] if fault]
    for fault in wrong:
        remark("limits", fault)
    return 1 if wrong else 0


def run(path, it):
    """Runs a case by itself."""
    with tempfile.TemporaryFile() as given, tempfile.TemporaryFile() as taken:
        given.write(it.input)
        given.seek(0)
        begun = time.monotonic()
        ended = run_alone(path, ["--node", it.node], given, taken)
        seconds = time.monotonic() - begun
        taken.seek(0)
        return Ran(ended.status, taken.read().decode("utf-8", "replace"), seconds, ended.megabytes)


def tell(it, ran, most):
    """Prints the row of a run, and answers in words what is wrong with it, if anything is."""
    print("| %s | %s | %.1f | %.0f | %d |" % (it.name, size_words(len(it.input)), ran.seconds, ran.megabytes, ran.status), flush=True)
    if ran.status != it.status:
        return "%s: status %d in the place of %d" % (it.name, ran.status, it.status)
    if not re.fullmatch(it.output, ran.output):
        return "%s: it wrote %s" % (it.name, shown(ran.output))
    if ran.seconds > most:
        return "%s: %.0f seconds" % (it.name, ran.seconds)
    return None


def size_words(size):
    return "%.1f MB" % (size / 1e6) if size >= 1e5 else "{:,} bytes".format(size)


def shown(text):
    return repr(text) if len(text) <= 300 else "%r .. %r" % (text[:200], text[-100:])
