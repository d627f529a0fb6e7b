"""What .ci/memory finds: places that make want of memory, and none that hand it on."""
import importlib.machinery
import importlib.util
import os
import unittest

TOP = os.path.dirname(os.path.dirname(os.path.dirname(os.path.abspath(__file__))))
LOADER = importlib.machinery.SourceFileLoader("memory", os.path.join(TOP, ".ci", "memory"))
memory = importlib.util.module_from_spec(importlib.util.spec_from_loader("memory", LOADER))
LOADER.exec_module(memory)

# Wrong bodies that meet every contract: a file, what stands in it once, what would tell it as want of memory, and where.
WRONG = [
    ("fx_engine/src/engine.rt", "Err(CheckFault::Taken { name, holder }) => Err(UpdateFault::Taken { name, holder })",
     "Err(CheckFault::Taken { name, holder }) => Err(UpdateFault::Memory)", "Engine::update"),
    ("fx_agent/src/pulling.rt", "Err(OutFault::Write) => Err(PullFault::Write)",
     "Err(OutFault::Write) => Err(PullFault::Memory)", "Agent::pull"),
    ("fx_restart_lines/src/reading.rt", "Ok(Err(RestoreRefusal::Rows(fault)))", "Err(Memory)", "tables_said"),
    ("fx_lines/src/commands.rt", "            Err(Refusal::BadJson)", "            Err(Refusal::Read(ReadFault::Memory))",
     "read_line"),
    ("fx_run/src/run_fault.rt", "LineFault::InputTooLong => RunFault::InputTooLong", "LineFault::InputTooLong => RunFault::Memory",
     "RunFault::from"),
]

MADE = [
    "fn f() -> Result<(), Memory> { Err(Memory) }",
    "fn f() { match x { Err(Fault::Full) => Err(Memory), Ok(_) => Ok(()) } }",
    "fn f() { match x { Err(Fault::Full | Fault::Memory) => Err(Memory), Ok(_) => Ok(()) } }",
    "fn f() { if is_full { return Err(Fault::Memory); } }",
    "fn f() { match x { Err(Fault::Memory) => g(), Err(_) => { h(); Err(Other::Memory) } } }",
]

HANDED_ON = [
    "fn f() -> Result<(), Memory> { Ok(g()?) }",
    "fn f() { match x { Err(Fault::Memory) => Err(Other::Memory), Ok(_) => Ok(()) } }",
    "fn f() { match x { Err(Fault::Memory) => { failed = true; Err(Other::Memory) } Ok(_) => Ok(()) } }",
    "impl From<Memory> for Fault { fn from(_: Memory) -> Self { Fault::Memory } }",
    "fn f() { matches!(self, Fault::Memory) }",
    "fn f() { if let Err(Fault::Memory) = x { g() } }",
    "fn f() -> bool ensures { result ≡ Fault.Memory } { true } // Err(Memory)",
    "enum Fault { Memory, Full }",
]


class WantOfMemory(unittest.TestCase):
    def test_each_place_is_known(self):
        self.assertEqual(memory.main([]), 0)

    def test_what_is_made_is_found(self):
        for text in MADE:
            self.assertEqual(len(list(memory.places_in(text))), 1, text)

    def test_what_is_handed_on_is_not(self):
        for text in HANDED_ON:
            self.assertEqual(list(memory.places_in(text)), [], text)

    def test_wrong_bodies_are_found(self):
        for path, old, new, function in WRONG:
            with open(os.path.join(TOP, "crates", path), encoding="utf-8") as file:
                text = file.read()
            self.assertEqual(text.count(old), 1, old)
            before = [name for name, _ in memory.places_in(text)]
            after = [name for name, _ in memory.places_in(text.replace(old, new))]
            self.assertEqual(sorted(after), sorted(before + [function]), new)

    def test_a_place_that_is_not_known_is_told(self):
        self.assertEqual(list(memory.faults({"a.rt f": [3]}, {"a.rt f": 1})), [])
        self.assertEqual(len(list(memory.faults({"a.rt f": [3, 4]}, {"a.rt f": 1}))), 1)
        self.assertEqual(len(list(memory.faults({}, {"a.rt f": 1}))), 1)
        self.assertRaises(ValueError, memory.known_places, "a.rt f: without a number")
