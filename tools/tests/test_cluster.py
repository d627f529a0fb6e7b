"""The lines of tools/cluster."""
import contextlib
import hashlib
import io
import json
import unittest

from felix_tools import cluster_lines
from felix_tools.cluster_lines import Size
from felix_tools.reading import InputError

# Times are compared across days, so these lines stay what they are.
DIGESTS = [
    (Size(1, 1, 1, 1), "9463e80a9d3245921e50890799c16e36fb5dd2debf197a6272b954b046b3fc23"),
    (Size(300, 300, 7, 250), "0e04b211d8186c80ee94aa00185cd439dccd261f7eef5f6efd612adfc21c02d7"),
    (Size(2000, 30, 400, 150), "b90b53573e7671171915dc8570148a7eae9bd79a6adb6f74b5d1fd4bbe5c221a"),
]


def read(size):
    """The resources of a cluster in their order, and what follows the first flush."""
    lines = [json.loads(line) for line in cluster_lines.lines(size)]
    mark = lines.index({"inSync": True})
    return [line["put"] for line in lines[:mark]], lines[mark + 2:]


def of_kind(resources, kind):
    return [resource for resource in resources if resource["kind"] == kind]


class Lines(unittest.TestCase):
    def test_the_same_words_give_the_same_lines(self):
        for size, digest in DIGESTS:
            self.assertEqual(hashlib.sha256(b"".join(cluster_lines.lines(size))).hexdigest(), digest, size)

    def test_so_many_of_each_kind(self):
        resources, _ = read(Size(30, 4, 6, 0))
        self.assertEqual([resource["kind"] for resource in resources], ["Profile"] * 200 + ["WorkloadEndpoint"] * 30 + ["NetworkPolicy"] * 6)
        self.assertEqual(len({(it["kind"], it["metadata"].get("namespace"), it["metadata"]["name"]) for it in resources}), 236)
        local = [it["spec"]["interfaceName"] for it in of_kind(resources, "WorkloadEndpoint") if it["spec"]["node"] == "n1"]
        self.assertEqual(local, ["cali0", "cali1", "cali2", "cali3"])

    def test_each_endpoint_has_an_address_of_its_own(self):
        for number, address in [(0, "10.0.0.0"), (255, "10.0.0.255"), (256, "10.0.1.0"), (65536, "10.1.0.0"), (2 ** 24 - 1, "10.255.255.255")]:
            self.assertEqual(cluster_lines.address(10, number, number), address)

    def test_changes_move_an_address_and_are_flushed(self):
        resources, changes = read(Size(30, 4, 6, 250))
        flushes = [place for place, line in enumerate(changes) if line == {"flush": {}}]
        self.assertEqual(flushes, [100, 201, 252])
        first = {it["metadata"]["name"]: it for it in of_kind(resources, "WorkloadEndpoint")}
        for line in changes:
            if "put" in line:
                moved, before = line["put"]["spec"], first[line["put"]["metadata"]["name"]]["spec"]
                self.assertNotEqual(moved["ipNetworks"], before["ipNetworks"])
                self.assertEqual(dict(moved, ipNetworks=0), dict(before, ipNetworks=0))


class Words(unittest.TestCase):
    def refused(self, *words):
        """What is said of these words."""
        said = io.StringIO()
        with contextlib.redirect_stderr(said), self.assertRaises(SystemExit) as ended:
            cluster_lines.parser().parse_args(words)
        self.assertEqual(ended.exception.code, 2)
        return said.getvalue()

    def test_words_that_are_no_numbers(self):
        for word in ("x", "-1", "1.5", "", "²"):
            self.assertIn("%s isn't a number" % word, self.refused("3", "--", word, "1"))
        self.assertIn("POLICIES", self.refused("3", "1"))
        self.assertIn("unrecognized", self.refused("3", "1", "1", "1", "1"))

    def test_numbers_that_no_cluster_has(self):
        for size in (Size(0, 0, 1, 0), Size(3, 4, 1, 0), Size(3, 1, 0, 0), Size(2 ** 24 + 1, 1, 1, 0)):
            with self.assertRaises(InputError):
                cluster_lines.check(size)
        for size in (Size(1, 0, 1, 0), Size(3, 3, 1, 9), Size(2 ** 24, 1, 1, 0)):
            cluster_lines.check(size)


if __name__ == "__main__":
    unittest.main()
