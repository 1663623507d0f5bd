#!/usr/bin/env python3
"""The tools that read the repository and the gate's log, tried on small texts with a fault in each."""
import contextlib
import io
import os
import sys
import tempfile
import unittest

sys.dont_write_bytecode = True
ROOT = os.path.dirname(os.path.dirname(os.path.abspath(__file__)))
sys.path.insert(0, os.path.join(ROOT, "tools"))
import edits
import exports
import gate
import stack

LOG = """== lists
fn lists::every: proved
logic=proved functions=7 sum=097e native=nat,char,string logic-built=trusted
rt: lists proved
== lists: its tests
logic=proved tests=1 functions=9 sum=097e native=nat,char,string logic-built=trusted
rt: lists: its tests proved
rt: bits is kept: an earlier run on this machine proved the same files over the same libraries
rt: lists: trying its must-fail edits (3)
rt: must-fail lists/first_left_out.edit: refused, as it must be: ./src/lib.rt:3:1: error: `returns`: `search`: no proof of `x ≡ y`
rt: must-fail lists/last_left_out.edit: refused, as it must be (only by a limit of the prover, which gave no verdict, so this says less): a
rt: must-fail lists/none_left_out.edit: refused, as it must be (only because a proof file names what the edit took away, so this says little): a
rt: morning ran, and wrote what its file stdout has
rt: morning ran (built by Rattle's own compiler), and wrote what its file stdout has
rt: ok; handles allowed: none; must-fail edits: 3 refused, 1 of them only by a limit; every proof and must-fail edit was done in this run
5 passed, 0 failed
"""
# The same with an edit that is bad, and one that is still proved.
BAD = LOG.replace("lists/first_left_out.edit: refused, as it must be: ./src", "lists/first_left_out.edit: BAD EDIT: an 'old:' text is not in src") \
    .replace("must-fail edits: 3 refused, 1 of them only by a limit;", "must-fail edits: 2 refused, 1 of them only by a limit, 1 bad;")
MISSED = LOG.replace("lists/first_left_out.edit: refused, as it must be: ./src", "lists/first_left_out.edit: NOT REFUSED: the crate is still proved") \
    .replace("rt: ok; ", "rt: FAILED: lists/first_left_out.edit ").replace("5 passed, 0 failed", "4 passed, 1 failed")
ARCHIVE = """// Readings.
#[unsafe(no_mangle)]
pub extern "C" fn vj_first<'a>(m: &[u8], list: &'a mut [u16]) -> u8
    ensures { result ≡ first m.now list.old }
{
    below::vj_first(m, list)
}

#[unsafe(no_mangle)]
pub extern "C" fn vj_second(
    m: &[u8], // requires no length
    p: (u8, u8),
) -> u8
    ensures { result ≡ 2 }
{
    below::vj_second(m, p)
}
"""
BELOW = """#[unsafe(no_mangle)]
pub extern "C" fn vj_first<'a>(m: &[u8], list: &'a mut [u16]) -> u8
    ensures { result ≡ first m.now list.old }
{
    { 1 }
}

pub fn vj_second(
    m: &[u8],
    p: (u8, u8), // of a page
) -> u8
    ensures { result ≡ 2 }
{
    if m.len() == 0 { 2 } else { 1 + 1 }
}
"""
HEADER = "uint8_t vj_first(const uint8_t *m);\nuint8_t vj_second(const uint8_t *m);\nstatic inline void vj_run(void)\n"
RUST = 'extern "C" {\n    fn vj_first(m: *const u8) -> u8;\n    fn vj_second(m: *const u8) -> u8;\n}\n'
READING = """# Reading
| `page` old_name | not in the tables |

## What is ruled out

| wrong program | edit |
|---|---|
| a page | `page` and `flash` wrong_page; `page` wrong_check, of its bytes |

## After
| `page` other_name | |
"""


def files(texts):
    """A folder with these files, which is removed once it is no longer used."""
    folder = tempfile.TemporaryDirectory()
    for name, text in texts.items():
        path = os.path.join(folder.name, name)
        os.makedirs(os.path.dirname(path), exist_ok=True)
        with open(path, "w", encoding="utf8") as file:
            file.write(text)
    return folder


class Gate(unittest.TestCase):
    def run_on(self, text):
        """What the tool prints of a log, and its exit status."""
        out = io.StringIO()
        with files({"log": text, "times": "0m1.000s 0m2.000s\n5m0.500s 1m1.000s\n"}) as folder, contextlib.redirect_stdout(out):
            with contextlib.redirect_stderr(out):
                status = gate.main([os.path.join(folder, "log"), "--times", os.path.join(folder, "times")])
        return out.getvalue().split("\n")[:-1], status

    def test_core_minutes_are_those_of_the_children(self):
        self.assertEqual(gate.core_seconds("0m1.000s 0m2.000s\n5m0.500s 1m1.000s\n"), 361.5)

    def test_what_is_told(self):
        lines, status = self.run_on(LOG)
        self.assertEqual(lines, ["lists/last_left_out: refused by a limit", "lists/none_left_out: refused by a name",
                                 "gate: 2 crates, 1 proved in this run, with 7 functions, and 1 in an earlier one of the same files; "
                                 "3 of 3 edits refused, 0 bad; 6.0 core minutes"])
        self.assertEqual(status, 0)

    def test_a_bad_edit(self):
        lines, status = self.run_on(BAD)
        self.assertEqual((lines[0], lines[-1], status), ("lists/first_left_out: BAD EDIT", "gate: NOT PASSED", 1))

    def test_a_bad_edit_by_the_last_lines_alone(self):
        lines, status = self.run_on(LOG.replace("only by a limit;", "only by a limit, 12 bad;"))
        self.assertIn("3 of 3 edits refused, 12 bad", lines[-2])
        self.assertEqual(status, 1)

    def test_an_edit_that_is_proved(self):
        lines, status = self.run_on(MISSED)
        self.assertEqual((lines[0], lines[-1], status), ("lists/first_left_out: NOT REFUSED", "gate: NOT PASSED", 1))

    def test_a_run_that_did_not_end_well(self):
        for text in ["nothing\n", LOG.replace("rt: ok;", "rt: "), LOG.replace("0 failed", "1 failed"), LOG + "rt: killed\n"]:
            self.assertEqual(self.run_on(text)[1], 1)


class Stack(unittest.TestCase):
    HEADER = "enum {\n    VJ_STACK_LOG = 1,\n    VJ_STACK_PAGE = 2,\n    VJ_STACK_MOST = 3\n};\n"
    TABLE = "bytes of stack\nvj_log          36000   68608\nvj_page           190    1024\n"

    def test_lines_are_what_was_measured_and_some_more(self):
        self.assertEqual(stack.figures(self.TABLE), {"LOG": 36864, "PAGE": 1024, "MOST": 36864})
        self.assertEqual([stack.rounded(taken) for taken in (768, 769, 1792)], [1024, 2048, 2048])

    def test_the_header_is_written_anew(self):
        written = stack.rewritten(self.HEADER, stack.figures(self.TABLE))
        self.assertEqual(written, self.HEADER.replace("= 1,", "= 36864,").replace("= 2,", "= 1024,").replace("= 3\n", "= 36864\n"))

    def test_a_call_without_a_line(self):
        self.assertIsNone(stack.rewritten(self.HEADER, stack.figures(self.TABLE + "vj_step  5  6\n")))
        self.assertIsNone(stack.rewritten(self.HEADER, stack.figures("")))


class Exports(unittest.TestCase):
    def faults(self, archive=ARCHIVE, below=BELOW, header=HEADER, rust=RUST, lent=None):
        texts = {"crates.txt": "below:\narchive staticlib: below\n", "crates/archive/src/lib.rt": archive, "crates/below/src/lib.rt": below,
                 "include/valve_journal.h": header, "include/valve_journal.rs": rust}
        with files(texts) as folder:
            return exports.check(folder, {"vj_first": ["list"]} if lent is None else lent)[1]

    def one(self, words, **given):
        faults = self.faults(**given)
        self.assertEqual(len(faults), 1, faults)
        self.assertIn(words, faults[0])

    def both(self, words, old, new):
        """The same change of both crates."""
        self.assertIn(old, ARCHIVE)
        self.assertIn(old, BELOW)
        self.one(words, archive=ARCHIVE.replace(old, new), below=BELOW.replace(old, new))

    def test_as_it_should_be(self):
        self.assertEqual(self.faults(), [])

    def test_the_repository(self):
        self.assertEqual(exports.check(ROOT, exports.LENT)[1], [])

    def test_requires(self):
        self.both("vj_second has a `requires`", "    ensures { result ≡ 2 }",
                  "    requires { length m.now ≡ 0 }\n    ensures { result ≡ 2 }")

    def test_a_named_requires(self):
        self.both("vj_second has a `requires`", "    ensures { result ≡ 2 }",
                  "    requires empty { length m.now ≡ 0 }\n    ensures two { result ≡ 2 }")

    def test_no_promise(self):
        self.both("vj_second has no `ensures`", "    ensures { result ≡ 2 }\n", "")

    def test_a_reading_that_may_write(self):
        self.both("vj_second takes `m` by `&mut`", "    m: &[u8],", "    m: &mut [u8],")

    def test_lent_for_nothing(self):
        self.both("vj_first no longer takes `list`", "&'a mut", "&'a")

    def test_a_list_entry_that_is_no_export(self):
        self.one("vj_third is no export", lent={"vj_first": ["list"], "vj_third": ["m"]})

    def test_not_in_a_header(self):
        self.one("valve_journal.h does not declare vj_second", header=HEADER.replace("vj_second", "static_second"))

    def test_declared_and_not_exported(self):
        self.one("valve_journal.rs declares vj_third", rust=RUST.replace("}", "    fn vj_third(m: *const u8) -> u8;\n}"))

    def test_an_unmarked_function(self):
        self.one("without #[unsafe(no_mangle)]", archive=ARCHIVE + 'pub extern "C" fn vj_third() -> u8 {\n    3\n}\n')

    def test_another_promise_than_below(self):
        self.one("vj_second has not the parameters and the promise of below::vj_second", below=BELOW.replace("result ≡ 2", "result ≡ 1"))

    def test_other_parameters_than_below(self):
        self.one("vj_second has not the parameters and the promise of below::vj_second", below=BELOW.replace("(u8, u8)", "(u8, u16)"))

    def test_another_function_called(self):
        self.one("vj_second does something else", archive=ARCHIVE.replace("below::vj_second(m, p)", "below::vj_first(m, p)"))

    def test_something_done_besides(self):
        self.one("vj_second does something else", archive=ARCHIVE.replace("below::vj_second(m, p)", "below::vj_second(m, p) + 0"))

    def test_other_parameters_handed_on(self):
        self.one("vj_second hands on something else", archive=ARCHIVE.replace("below::vj_second(m, p)", "below::vj_second(p, m)"))


class Edits(unittest.TestCase):
    def test_names_are_read(self):
        self.assertEqual([(c, l) for _, c, l in edits.named_in(READING)],
                         [("page", "wrong_page"), ("flash", "wrong_page"), ("page", "wrong_check")])

    def test_faults(self):
        edit = "file: src/lib.rt\nold: %s\nnew: b\n"
        texts = {"docs/READING.md": READING, "crates/page/src/lib.rt": "a aa", "crates/flash/src/lib.rt": "a",
                 "crates/page/must-fail/wrong_page.edit": edit % "aa", "crates/flash/must-fail/wrong_page.edit": edit % "c",
                 "crates/page/must-fail/not_named.edit": edit % "a aa"}
        before = os.getcwd()
        with files(texts) as folder:
            os.chdir(folder)
            try:
                count, faults = edits.check_names("docs/READING.md")
            finally:
                os.chdir(before)
        self.assertEqual(count, 3)
        self.assertEqual(faults, ["docs/READING.md:8: there is no crates/page/must-fail/wrong_check.edit",
                                  "crates/page/must-fail/not_named.edit: docs/READING.md does not name it",
                                  "crates/flash/must-fail/wrong_page.edit: its old text stands 0 times in crates/flash/src/lib.rt"])

    def test_first_errors(self):
        place = "./proofs/f/Answers.antt:3:1: error: "
        said = {"fact": ": " + place + "`returns`: `search`: no proof of `x ≡ y`", "shut": " (only by a limit of the prover, which gave no verdict): a",
                "need": " (only because a proof file names what the edit took away): " + place + "no field", "kept": ": ",
                "said": ": note: ./proofs/Laws.antt:1:1: `a` is not in scope", "spec": ": ./specs/Table.antt:3:5: error: `f`: expected type `ℕ`",
                "told": ": note: src/lib.rt:3:1: it is not proved that what the function ensures holds when it returns (`returns`)",
                "made": ": ./specs/Table.antt:8:5: error: `agree`: this `on` lands at index `93 ∷ []`"}
        lines = [f"rt: must-fail page/{label}.edit: refused, as it must be{text}" for label, text in said.items()]
        lines += ["rt: must-fail page/gone.edit: BAD EDIT: an 'old:' text is not in src/lib.rt", "rt: page proved",
                  "rt: must-fail page/same.edit: NOT REFUSED: the crate is still proved with this edit"]
        count, faults = edits.check_errors(lines)
        self.assertEqual(count, 10)
        self.assertEqual([f.split(": ")[:2] for f in faults],
                         [["page/gone", "BAD EDIT"], ["page/kept", "no error at all"], ["page/need", "only a name that the edit took away"],
                          ["page/said", "a name that is not there"], ["page/same", "NOT REFUSED"], ["page/shut", "only a limit of the prover"],
                          ["page/spec", "a definition that is none"]])


if __name__ == "__main__":
    unittest.main()
