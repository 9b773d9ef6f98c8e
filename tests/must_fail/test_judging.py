"""Tests of the judging itself, on edits that are told otherwise than they say: each has to be reported."""

import tempfile
import unittest
from pathlib import Path

from reports import report

from .judging import judge

EDIT = """The sum is not added. Fails: `returns` of `Sum::add`, the new sum.
file: src/lib.rt
old:         Sum(self.0 + v)
new:         Sum(self.0 + 0)
"""
SOURCE = """pub struct Sum(pub u64);

impl Sum {
    // The sum with v added.
    pub fn add(self, v: u64) -> Sum
        ensures { result ≡ added self.0 v }
    {
        Sum(self.0 + v)
    }
}

#[unsafe(no_mangle)]
pub fn least(v: u64) -> bool
    ensures { result ≡ nat_le 1 v }
{
    v >= 1
}
"""
TOLD = "rt: must-fail sums/not_added.edit: "
REFUSED = f"{TOLD}refused, as it must be: "
PROOF = "./proofs/Sum/add/Answers.antt:19:31: error: `returns`: `omega`: the goal does not follow from"
OPEN = "note: src/lib.rt:{}:9: it is not proved that what the function ensures holds (`returns`); the facts"
COUNT = "0 passed, 1 failed"


class TestJudging(unittest.TestCase):
    """A crate with one edit, and what is reported of it."""

    def reported(self, said: str, edit: str = EDIT) -> list[str]:
        with tempfile.TemporaryDirectory() as folder:
            root = Path(folder)
            for path, text in (("src/lib.rt", SOURCE), ("must-fail/not_added.edit", edit)):
                file = root / "crates" / "sums" / path
                file.parent.mkdir(parents=True)
                file.write_text(text)
            return report(judge(root, f"rt: sums: begins with what a check kept\n{said}\nrt: ok; handles allowed: none\n"))

    def assert_fault(self, said: str, fault: str, edit: str = EDIT) -> None:
        self.assertEqual(self.reported(said, edit), [f"sums/not_added.edit: {fault}", COUNT])

    def test_a_proof_that_fails(self) -> None:
        self.assertEqual(self.reported(REFUSED + PROOF), ["1 passed, 0 failed"])

    def test_a_goal_that_is_left_open(self) -> None:
        self.assertEqual(self.reported(REFUSED + OPEN.format(8)), ["1 passed, 0 failed"])

    def test_a_goal_that_is_told_at_an_attribute(self) -> None:
        edit = EDIT.replace("`Sum::add`", "`least`")
        self.assertEqual(self.reported(REFUSED + OPEN.format(12), edit), ["1 passed, 0 failed"])

    def test_a_lemma_that_fails(self) -> None:
        edit = EDIT.replace("`returns` of `Sum::add`", "`sum_more` of `Laws`")
        self.assertEqual(self.reported(f"{REFUSED}./proofs/Laws.antt:3:1: error: `sum_more`: no", edit), ["1 passed, 0 failed"])
        edit = EDIT.replace("`returns` of `Sum::add`", "`sum_more`")
        self.assertEqual(self.reported(f"{REFUSED}./proofs/More.antt:3:1: error: `sum_more`: no", edit), ["1 passed, 0 failed"])

    def test_a_function_of_a_module(self) -> None:
        said = REFUSED + PROOF.replace("Sum/add", "totals/Sum/add")
        self.assertEqual(self.reported(said), ["1 passed, 0 failed"])

    def test_another_fact(self) -> None:
        said = REFUSED + PROOF.replace("`returns`", "`returns-then-v`")
        self.assert_fault(said, "it names returns, and the first error is returns-then-v")

    def test_another_function(self) -> None:
        fault = "it names returns of Sum::add, and the first error is of least"
        self.assert_fault(REFUSED + PROOF.replace("Sum/add", "least"), fault)
        self.assert_fault(REFUSED + OPEN.format(15), fault)

    def test_no_fact(self) -> None:
        self.assert_fault(REFUSED + PROOF, "it names no fact", EDIT.replace("Fails: ", ""))

    def test_nothing_told(self) -> None:
        fault = "it is not told that it is refused for a fact"
        for said in (
            "",
            "rt: must-fail sums/another.edit: refused, as it must be: " + PROOF,
            "rt: must-fail others/not_added.edit: refused, as it must be: " + PROOF,
            TOLD + "BAD EDIT: an 'old:' text is in src/lib.rt 0 times, and not once",
            TOLD + "NOT TRIED: its check was killed",
            TOLD + "NOT REFUSED: the crate is still proved with this edit",
            TOLD + "refused, as it must be",
            TOLD + f"refused, as it must be (only because a proof file names what the edit took away): {PROOF}",
            TOLD + f"refused, as it must be (only by a limit of the prover, which gave no verdict): {PROOF}",
        ):
            self.assert_fault(said, fault)

    def test_an_error_of_no_fact(self) -> None:
        for error in ("./proofs/Sum/add/Answers.antt:1:1: error: no such module", OPEN.format(8)[:80]):
            self.assert_fault(REFUSED + error, f"it names returns, and the first error is {error}")

    def test_what_is_told_last_counts(self) -> None:
        first = REFUSED + PROOF.replace("`returns`", "`bounds-s-i`")
        self.assertEqual(self.reported(f"{first}\n{REFUSED}{PROOF}"), ["1 passed, 0 failed"])


if __name__ == "__main__":
    unittest.main()
