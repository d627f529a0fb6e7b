"""What the documents show, link to and name."""
import json
import os
import re
import subprocess
import sys
import unittest

from felix_tools import documents
from felix_tools.crates import read_crates
from felix_tools.program import PROGRAMS
from felix_tools.version import ANSWERS_FORMAT, LINES_FORMAT, VERSION
from pages import TOP, cells_of, leads, links_of, names_in, pages, section_of, text_of

MOST_WORDS = 1000
# Pages say what is. What was stands in the changes alone.
PAST = r"\b(?:today|older tree|by mistake|formerly|previously|recently|at the moment|originally|on another machine)\b"
CALLS = ("felix_replay", "felix_restore", "felix_host", "felix_services")


def stored(case, file="stdout"):
    return text_of("tools", "tests", "cases", case, file)


def man_page(name):
    """A man page as it is read, without its fonts."""
    return re.sub(r"\\f[BIPR]", "", text_of("docs", "man", name + ".1")).replace("\\-", "-")


class Readme(unittest.TestCase):
    def test_its_answer_is_the_stored_one(self):
        shown = "".join("    %s\n" % line for line in stored("ask-denied").split("\n")[:-1])
        self.assertIn(shown, text_of("README.md"))

    def test_its_questions_are_of_files_that_are_there(self):
        asked = re.findall(r"^    (?:\$ )?(tools/ask docs/.*)$", text_of("README.md"), re.MULTILINE)
        self.assertEqual([line.replace(" --unproved", "") for line in asked], asked[:1] * 2)
        command = stored("ask-denied", "command").replace("shop/c", "docs/shop/c")
        self.assertEqual(asked[0].split(), ("tools/" + command).split())
        files = re.findall(r"\S+\.json", asked[0])
        self.assertEqual([os.path.exists(os.path.join(TOP, file)) for file in files], [True, True])

    def test_its_picture_is_of_the_stored_answer(self):
        chains = re.findall(r'^  "(cali-[^"]*)" \[label', stored("picture-way"), re.MULTILINE)
        drawn = re.findall(r"<title>(cali[^<:]*)</title>", text_of("docs", "way.svg"))
        self.assertEqual([chain.replace("&#45;", "-") for chain in drawn], chains)

    def test_it_is_short(self):
        self.assertLessEqual(len(text_of("README.md").split()), MOST_WORDS)


class Documents(unittest.TestCase):
    def test_links_lead_to_files_and_headings(self):
        linked = [(page, link) for page in pages() for link in links_of(page)]
        self.assertEqual([(page, link) for page, link in linked if not leads(page, link)], [])

    def test_pages_say_what_is(self):
        told = [(page, re.findall(PAST, text_of(page))) for page in pages() if page != "CHANGELOG.md"]
        self.assertEqual([(page, words) for page, words in told if words], [])

    def test_what_is_made_from_others_is_as_it_would_be_made(self):
        made = documents.made().items()
        self.assertEqual([path for path, text in made if documents.stored(path) != text], [])

    def test_definitions_that_are_cited_are_there(self):
        check = [sys.executable, os.path.join(TOP, ".ci", "definitions")]
        done = subprocess.run(check, stdout=subprocess.PIPE, universal_newlines=True)
        self.assertEqual((done.stdout, done.returncode), ("", 0))

    def test_what_all_programs_share_is_a_clause_of_each(self):
        section = section_of("docs/PROVED.md", "What all programs share")
        told = "".join(re.findall(r"\(([^()]*)\)", section) + cells_of(section, 2))
        named = set(re.findall(r"`([a-z_]+)`", told))
        self.assertGreater(len(named), 15)
        for call in CALLS:
            top = text_of("crates", call, "src", "top.rt")
            clauses = re.findall(r"^    (?:ensures|requires) (\w+) ", top, re.MULTILINE)
            self.assertEqual(sorted(named - set(clauses)), [], call)

    def test_crates_with_edits_in_the_gate_are_told(self):
        section = section_of("docs/PROVED.md", "Edits that must be refused")
        told = re.findall(r"`(\w+)`", re.search(r"^- \*\*The gate\*\*.*$", section, re.MULTILINE)[0])
        there = [name for name in read_crates().uses if os.path.isdir(os.path.join(TOP, "crates", name, "must-fail"))]
        self.assertEqual(sorted(told), sorted(there))

    def test_the_index_of_examples_has_each_and_its_words(self):
        page, _, programs = text_of("docs", "EXAMPLES.md").partition("\n## Answered by the programs\n")
        cases = re.findall(r"^\| .* \| `([\w-]+)` \| `(.*)` \|$", page, re.MULTILINE)
        self.assertGreater(len(cases), 30)
        self.assertEqual([case for case, words in cases if stored(case, "command") != words + "\n"], [])
        listed = [name for cell in cells_of(programs, -1) for name in names_in(cell)]
        files = os.listdir(os.path.join(TOP, "crates", "examples", "data"))
        self.assertEqual(sorted(listed), sorted(name[:-6] for name in files if name.endswith(".jsonl")))

    def test_each_crate_of_tests_is_in_the_map(self):
        crates = read_crates().uses
        table = text_of("CONTRIBUTING.md").partition("### Where tests stand")[2].partition("\n## ")[0]
        listed = [name for cell in cells_of(table) for name in names_in(cell)]
        self.assertEqual([name for name in crates if name.endswith("_tests") and name not in listed], [])
        self.assertEqual([name for name in listed if name not in crates], [])

    def test_releases_and_formats_stand_in_the_changes(self):
        formats = "| %s | %d | %d |" % (VERSION, LINES_FORMAT, ANSWERS_FORMAT)
        changes = text_of("CHANGELOG.md").split("\n")
        self.assertEqual([line for line in (formats, "## " + VERSION) if line not in changes], [])
        schema = json.loads(text_of("docs", "answers.schema.json"))
        answers = [value["properties"] for value in schema["definitions"].values() if "properties" in value]
        forms = [properties["form"] for properties in answers if "form" in properties]
        self.assertEqual(forms, [{"const": ANSWERS_FORMAT}] * len(schema["oneOf"]))


class Architecture(unittest.TestCase):
    def setUp(self):
        self.crates = read_crates()
        self.in_programs = self.crates.of_programs()
        self.table = section_of("docs/ARCHITECTURE.md", "The crates")

    def listed(self, text):
        names = [name for cell in cells_of(text) for name in names_in(cell)]
        return [name for name in names if name in self.crates.uses]

    def test_each_crate_is_in_the_table_once(self):
        wanted = [name for name in self.crates.uses if not re.fullmatch(r"fx_\w+_tests", name)]
        self.assertEqual(sorted(self.listed(self.table)), sorted(wanted))

    def test_what_is_no_part_of_a_program_is_told_so(self):
        parts, _, others = self.table.partition("| **no part of a program** | |")
        self.assertEqual([name for name in self.listed(others) if name in self.in_programs], [])
        self.assertEqual([name for name in self.listed(parts) if name not in self.in_programs], [])

    def test_the_crates_of_each_program_are_its_own(self):
        section = section_of("docs/ARCHITECTURE.md", "The programs")
        rows = dict(zip(cells_of(section), cells_of(section, 1)))
        for program in PROGRAMS:
            own = [name for name, programs in self.in_programs.items() if programs == [program.name]]
            told = names_in(rows["`%s`" % program.name])
            self.assertEqual((told[0], sorted(told)), (program.crate, sorted(own)))

    def test_each_step_of_a_chain_is_a_use(self):
        chains = re.findall(r"^    (\w+(?: ─ \w+)+)$", text_of("docs", "ARCHITECTURE.md"), re.MULTILINE)
        steps = [pair for chain in chains for pair in zip(chain.split(" ─ "), chain.split(" ─ ")[1:])]
        self.assertGreater(len(steps), 10)
        self.assertEqual([(low, high) for low, high in steps if low not in self.crates.uses[high]], [])

    def test_each_crate_has_its_times_in_the_table_of_the_gate(self):
        listed = [names_in(cell) for cell in cells_of(section_of("docs/GATE.md", "The table"))]
        self.assertEqual(sorted(name for names in listed for name in names), sorted(self.crates.uses))


class ManPages(unittest.TestCase):
    def test_that_of_the_replay_names_each_word_status_and_fault(self):
        page = man_page("felix-replay")
        lines, _, rest = text_of("docs", "INPUT.md").partition("## Resources\n")
        members = re.findall(r"^\| `(\w+)` \|", lines, re.MULTILINE)
        # From 40 on they are of felix-restore.
        faults = re.findall(r"^\| ([12]?\d|3\d) \| `(\w+)` \|", rest, re.MULTILINE)
        answers, _, statuses = text_of("docs", "OUTPUT.md").partition("## Exit statuses")
        cells = re.findall(r"^\| (`.*?`) \|", answers.partition("A reason is")[0], re.MULTILINE)
        words = re.findall(r"`([a-z*][a-z-]+) ?[^`]*`", "".join(cells))
        ends = ["\n.TP\n%s\n" % status for status in re.findall(r"^\| (\d) \|", statuses, re.MULTILINE)]
        told = members + ["%s %s" % fault for fault in faults] + words + ends
        self.assertEqual([word for word in told if word not in page], [])
        self.assertGreater(min(map(len, (members, faults, words))), 5)

    def test_the_others_name_their_members_operations_and_faults(self):
        faults = re.findall(r"^\| (4\d) \| `(\w+)` \|", text_of("docs", "INPUT.md"), re.MULTILINE)
        operations = re.findall(r"^\| `([a-z]+) ", section_of("docs/OUTPUT.md", "Operations"), re.MULTILINE)
        wanted = {"felix-restore": ["%s %s" % fault for fault in faults] + operations}
        for name, title in (("felix-host", "Host endpoints"), ("felix-services", "Services")):
            rows = re.findall(r"^\| (`\w+`(?:, `\w+`)*) \|", section_of("docs/INPUT.md", title), re.MULTILINE)
            wanted[name] = [word for row in rows for word in names_in(row)]
        for name, words in wanted.items():
            self.assertGreater(len(words), 4, name)
            self.assertEqual([word for word in words if word not in man_page(name)], [], name)


if __name__ == "__main__":
    unittest.main()
