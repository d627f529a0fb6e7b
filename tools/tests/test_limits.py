"""The runs of tools/limits and the lines of tools/hostile, over stand-ins for the program."""
import contextlib
import io
import json
import os
import random
import shutil
import stat
import tempfile
import unittest

from felix_tools import calico_lines, hostile, limits

# Answers a flush, and nothing else.
FLUSHER = "#!/bin/sh\nif grep -q flush; then echo 'flushed 0'; fi\nexit ${ENDS:-0}\n"


def groups(text):
    """How many brackets are open at once, but for those of `has(..)`."""
    open_now, most = 0, 0
    for place, byte in enumerate(text):
        if byte == "(" and not text[:place].endswith("has"):
            open_now += 1
        elif byte == ")" and text[place - 2] != "(":
            open_now -= 1
        most = max(most, open_now)
    return most


class Cases(unittest.TestCase):
    def test_lines_at_the_limit(self):
        lengths = [(it.status, max(len(line) for line in it.input.split(b"\n"))) for it in limits.line_cases()]
        self.assertEqual(lengths, [(0, 2 ** 22), (1, 2 ** 22 + 1)] * 2)

    def test_each_other_line_that_is_accepted_is_short_enough(self):
        for it in limits.cases():
            if it.status == 0:
                self.assertLessEqual(max(len(line) for line in it.input.split(b"\n")), 2 ** 22, it.name)

    def test_selectors(self):
        self.assertEqual([groups(limits.nested(depth)) for depth in (0, 1, 64, 65)], [0, 1, 64, 65])
        self.assertEqual([len(limits.long_selector(size)) for size in (65536, 65537)], [65536, 65537])

    def test_a_name_stands_once_in_each_line(self):
        for line in limits.named_puts("N" * 253):
            self.assertEqual(line.count(b"N" * 253), 1, line)

    def test_resources_are_json(self):
        line = calico_lines.endpoint("w1", "cali1", {"a": "1"}, profiles=["open"])
        resource = json.loads(line)["put"]
        self.assertEqual((resource["kind"], resource["metadata"]["labels"]), ("WorkloadEndpoint", {"a": "1"}))
        self.assertEqual(resource["spec"], {"node": "n1", "interfaceName": "cali1", "ipNetworks": ["10.0.0.1"], "profiles": ["open"]})

    def test_members_and_nets_differ(self):
        for it in list(limits.member_cases()) + list(limits.net_cases()):
            for line in it.input.split(b"\n")[:2]:
                nets = json.loads(line)["put"]["spec"].get("nets", [])
                self.assertEqual(len(nets), len(set(nets)), it.name)


class Runs(unittest.TestCase):
    def setUp(self):
        self.room = tempfile.mkdtemp()
        self.addCleanup(shutil.rmtree, self.room)
        self.program = os.path.join(self.room, "program")
        with open(self.program, "w", encoding="utf-8") as file:
            file.write(FLUSHER)
        os.chmod(self.program, stat.S_IRWXU)

    def told(self, it, most=60):
        said = io.StringIO()
        with contextlib.redirect_stdout(said):
            fault = limits.tell(it, limits.run(self.program, it), most)
        return fault, said.getvalue()

    def test_a_run_as_it_should_be(self):
        fault, said = self.told(limits.accepted("flush", b'{"flush":{}}\n', "flushed 0\n"))
        self.assertIsNone(fault)
        self.assertRegex(said, r"^\| flush \| 13 bytes \| \d+\.\d \| \d+ \| 0 \|\n$")

    def test_what_is_wrong(self):
        flush = b'{"flush":{}}\n'
        self.assertEqual(self.told(limits.case("flush", flush, 1, "flushed 0\n"))[0], "flush: status 0 in the place of 1")
        self.assertEqual(self.told(limits.accepted("flush", flush, "flushed 1\n"))[0], "flush: it wrote 'flushed 0\\n'")
        self.assertRegex(self.told(limits.accepted("flush", flush, "flushed 0\n"), most=0)[0], r"^flush: \d+ seconds$")


class Hostile(unittest.TestCase):
    def test_lines_have_their_faults(self):
        draw = random.Random(7)
        for make in hostile.MAKERS:
            for _ in range(200):
                line, fault = make(draw)
                self.assertNotIn(b"\n", line)
                self.assertEqual(self.is_read(line), fault != 21, line)
        line, fault = hostile.too_long(draw)
        self.assertEqual((len(line) > 2 ** 22, fault), (True, 20))

    def is_read(self, line):
        """Whether the line is JSON that is at most 127 deep."""
        try:
            json.loads(line.decode("utf-8"))
        except ValueError:
            return False
        return not line.startswith(b"[" * 128)

    def test_lines_stand_between_the_others_in_their_order(self):
        lines = [b"%d" % number for number in range(50)]
        mixed, faults = hostile.mix(lines, random.Random(3), 100)
        self.assertEqual(len(mixed), 150)
        self.assertEqual([line for place, line in enumerate(mixed, 1) if place not in faults], lines)
        self.assertEqual(hostile.mix(lines, random.Random(3), 100), (mixed, faults))

    def test_what_is_written_of_them(self):
        alone = b"flushed 2\nrefused 3 30 Taken cali-tw-cali1 endpoint a/w1\nflushed 0\n"
        mixed = b"refused 1 21 BadJson\nflushed 2\nrefused 4 22 BadLine\nrefused 5 30 Taken cali-tw-cali1 endpoint a/w1\nflushed 0\n"
        self.assertIsNone(hostile.difference(alone, mixed, {1: 21, 4: 22}))
        self.assertEqual(hostile.difference(alone, mixed, {1: 21, 4: 21}), "line 4 has fault 22 and not 21")
        self.assertEqual(hostile.difference(alone, mixed, {1: 21, 2: 20, 4: 22}), "line 2 has fault none and not 20")
        other = "the other lines are answered otherwise than without them"
        self.assertEqual(hostile.difference(alone, mixed.replace(b"flushed 0", b"flushed 1"), {1: 21, 4: 22}), other)
        self.assertEqual(hostile.difference(alone, mixed, {1: 21}), other)


if __name__ == "__main__":
    unittest.main()
