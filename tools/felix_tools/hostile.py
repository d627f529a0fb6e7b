"""tools/hostile: long runs of lines that are refused, between lines that aren't."""
import random
import re

from felix_tools import program
from felix_tools.options import tool_parser
from felix_tools.program import ProgramError
from felix_tools.reading import InputError
from felix_tools.start import answered

DESCRIPTION = """\
Puts lines that are refused between those of the given files, and asks the program for both: with them it must write what
it writes without them, and beside that one refusal for each, with its number and its fault.

  tools/hostile --seed 7 --count 20000 crates/examples/data/*.jsonl

The lines are drawn from the seed: lines that are cut off, bytes that no text of UTF-8 has, brackets, unknown kinds and
members, names and selectors of wrong forms, lines that are too long.

Status: 0 all is written as it should be, 1 it isn't, 2 some file or word can't be read, 4 the program didn't run to its
end, 5 the output can't be written."""

LINE_LIMIT = 4194304
RESOURCE = b'{"put":{"apiVersion":"projectcalico.org/v3","kind":"%s","metadata":{"name":"%s"},"spec":%s}}'
REFUSED = re.compile(rb"^refused ([0-9]+) ([0-9]+) [^\n]*\n", re.MULTILINE)


def main(words):
    return answered("hostile", try_all, parser().parse_args(words))


def parser():
    made = tool_parser("hostile", DESCRIPTION)
    made.add_argument("files", nargs="+", metavar="FILE", help="lines for the program, each file for a run of its own")
    made.add_argument("--node", metavar="NAME", default="n1", help="the node's name (%(default)s)")
    made.add_argument("--seed", type=int, metavar="N", default=1, help="what the lines are drawn from (%(default)s)")
    made.add_argument("--count", type=int, metavar="N", default=1000, help="how many lines are drawn (%(default)s)")
    made.add_argument("--program", metavar="PATH", help="the proved program (else $FELIX_REPLAY, else this repository's own)")
    return made


def try_all(options):
    path = program.find(options.program)
    tried = [try_file(path, options, name) for name in options.files]
    return 0 if all(tried) else 1


def try_file(path, options, name):
    lines = lines_in(name)
    mixed, faults = mix(lines, random.Random(options.seed), options.count)
    fault = difference(answer(path, options.node, lines), answer(path, options.node, mixed), faults)
    print("%s: %d lines, %d of them refused by design: %s" % (name, len(mixed), len(faults), fault or "as it should be"))
    return fault is None


def lines_in(name):
    try:
        with open(name, "rb") as file:
            return [line for line in file.read().split(b"\n") if line]
    except OSError as fault:
        raise InputError("%s: %s" % (name, fault.strerror))


def answer(path, node, lines):
    done = program.run_bytes(path, node, b"".join(line + b"\n" for line in lines))
    if done.returncode not in (0, 1):
        raise ProgramError("%s ended with %d" % (path, done.returncode))
    return done.stdout


# ---- lines that are refused, each with the number of its fault

def cut_off(draw):
    """No beginning of an object is JSON."""
    whole = RESOURCE % (b"Profile", b"open", b"{}")
    return whole[:draw.randrange(1, len(whole))], 21


def broken_byte(draw):
    whole = RESOURCE % (b"Profile", b"open", b'{"labelsToApply":{"a":"b"}}')
    place = draw.randrange(len(whole) + 1)
    return whole[:place] + bytes([draw.randrange(0xF8, 0x100)]) + whole[place:], 21


def any_bytes(draw):
    """A line that begins with a byte with which no JSON begins."""
    rest = bytes(draw.randrange(256) for _ in range(draw.randrange(200)))
    return b"\x01" + rest.replace(b"\n", b"?"), 21


def brackets(draw):
    depth = draw.randrange(1, 400)
    return b"[" * depth + b"]" * depth, 22 if depth <= 127 else 21


def no_line(draw):
    return draw.choice([
        b"null", b"7", b'"put"', b"{}", b'{"puts":{}}', b'{"put":7}', b'{"inSync":false}', b'{"flush":{},"tables":true}',
        b'{"batch":[{"put":{}},{"inSync":true}]}',
    ]), 22


def unknown_kind(draw):
    return RESOURCE % (draw.choice([b"Pod", b"HostEndpoint", b"List", b"profile"]), b"x", b"{}"), 1


def bad_name(draw):
    return RESOURCE % (b"Profile", draw.choice([b"a/b", b"a b", b"n" * 254, b"n" * 100000]), b"{}"), 3


def bad_selector(draw):
    selector = draw.choice([b"a ==", b"(" * 65 + b"a", b"!" * 65 + b"all()", b"a b", b" " * 65537, b"foo("])
    return RESOURCE % (b"GlobalNetworkPolicy", b"x", b'{"selector":"%s"}' % selector), 4


def too_long(draw):
    return b"[" * (LINE_LIMIT + 1 + draw.randrange(3)), 20


MAKERS = (cut_off, broken_byte, any_bytes, brackets, no_line, unknown_kind, bad_name, bad_selector)
# One line in so many is too long: each has four megabytes.
TOO_LONG_EVERY = 2000


def drawn(draw):
    return too_long(draw) if draw.randrange(TOO_LONG_EVERY) == 0 else draw.choice(MAKERS)(draw)


def mix(lines, draw, count):
    """The lines with so many between them, and the places of these, from 1, with their faults."""
    before = sorted(draw.randrange(len(lines) + 1) for _ in range(count))
    mixed, faults = [], {}
    for place, line in enumerate(lines + [None]):
        while before and before[0] == place:
            before.pop(0)
            hostile, fault = drawn(draw)
            mixed.append(hostile)
            faults[len(mixed)] = fault
        if line is not None:
            mixed.append(line)
    return mixed, faults


# ---- what is written

def difference(alone, mixed, faults):
    """What is wrong with what was written of the mixed lines, in words, or None."""
    told = {int(number): int(fault) for number, fault in REFUSED.findall(mixed)}
    for number, fault in faults.items():
        if told.get(number) != fault:
            return "line %d has fault %s and not %d" % (number, told.get(number, "none"), fault)
    if without_numbers(mixed, faults) != without_numbers(alone, {}):
        return "the other lines are answered otherwise than without them"
    return None


def without_numbers(written, faults):
    """What was written but for the refusals of these lines, and without the numbers of other lines that are refused."""
    kept = []
    for line in written.splitlines(keepends=True):
        found = REFUSED.fullmatch(line)
        if not found:
            kept.append(line)
        elif int(found[1]) not in faults:
            kept.append(b"refused " + line.split(b" ", 2)[2])
    return kept

