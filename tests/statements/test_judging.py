"""Tests of the judging itself, on crates that are wrong on purpose: each fault has to be reported."""

import tempfile
import unittest
from pathlib import Path

from reports import report

from .judging import judge

RIGHT = """
// pub fn in_a_comment(n: u64) -> u64
pub struct Pair { pub n: u64 }

pub fn twice(n: u64) -> u64
    ensures { result ≡ (n + n) }
{
    n + n
}

pub fn fill<'a>(file: &'a [u8], out: &mut [u8], rows: &'a mut [u64]) -> u64
    ensures { (result ≡ length out.old) × (out.new ≡ drop result out.old) }
    ensures rows { rows.new ≡ rows.old }
{
    0
}

fn inside(n: u64) -> u64
    requires { n ≤ 5 }
{
    n
}

pub(crate) fn within(n: u64) -> u64
{
    n
}
"""
# A module of the crate, whose function has its signature in several lines and is for C.
EXPORTED = """
#[unsafe(no_mangle)]
pub extern "C" fn exported(
    file: &[u8],
    out: &mut [u8],
) -> u8
    ensures number { result ≡ number_of file.now }
    ensures out { out.new ≡ file.now }
{
    0
}
"""
CALLER = """
use right::Pair;
use right::modules;
use right::twice;

fn main() {
    twice(1);
    right::fill(file, out, rows);
    modules::exported(file, out);
}

fn uses(p: Pair) -> u64 {
    p.first()
}
"""
CALL = "fn main() { wrong::call(1, out); }"
METHOD = """
impl Pair {
    pub fn first(self) -> u64
        ensures { result ≡ self.n }
    {
        self.n
    }
}
"""
WRONG = """
pub fn right(n: u64) -> u64
    ensures { result ≡ n }
{
    n
}

pub fn requiring(n: u64) -> u64
    requires { n ≤ 5 }
    ensures { result ≡ n }
{
    n
}

pub fn silent(n: u64)
{
}

pub fn lent(n: u64, out: &mut [u8]) -> u64
    ensures { result ≡ n }
{
    n
}

pub fn bounded(n: u64) -> u64
    ensures { result ≤ n }
{
    n
}

pub fn lawless(n: u64) -> u64
    ensures { n ∷ [] ≡ result ∷ [] }
{
    n
}

pub fn unused(n: u64) -> u64
    ensures { result ≡ n }
{
    n
}
"""
CALLER_OF_WRONG = """
fn main() {
    wrong::right(1);
    wrong::requiring(1);
    wrong::silent(1);
    wrong::lent(1, out);
    wrong::bounded(1);
    wrong::lawless(1);
}
"""
LAWS_OF_WRONG = """
## Statements that are no equation

| function | law | file |
|---|---|---|
| `wrong::lawless` | `one_lawless` | `crates/wrong/proofs/Laws.antt` |
"""
NO_TABLES = ""
TABLES = """
## One answer

### Statements that are no equation

| function | law | file |
|---|---|---|
| `wrong::call` | `one_call` | `crates/wrong/proofs/Laws.antt` |

### Entry points

| function | why |
|---|---|
| `wrong::call` | it is called from C |
"""
NO_EQUATION = "no equation gives its result, and docs/PROOFS.md has no law for it"
NO_CALL = "no other crate calls it, and it is no entry point of docs/PROOFS.md"


def function(contract: str, head: str = "pub fn call(n: u64, out: &[u8]) -> u64") -> str:
    """A function with this contract."""
    return f"{head}\n    {contract}\n{{\n    n\n}}\n"


def ensuring(statement: str) -> str:
    """A function that ensures this of its result."""
    return function(f"ensures {{ {statement} }}")


class TestJudging(unittest.TestCase):
    """Crates that are written into a folder, and what is reported of their functions."""

    def setUp(self) -> None:
        folder = tempfile.TemporaryDirectory()
        self.addCleanup(folder.cleanup)
        self.root = Path(folder.name)

    def write(self, path: str, text: str) -> None:
        file = self.root / path
        file.parent.mkdir(parents=True, exist_ok=True)
        file.write_text(text)

    def judged(self, source: str, tables: str = NO_TABLES, caller: str = CALL) -> dict[str, list[str]]:
        """What is reported of a crate `wrong`, beside which a crate calls its function."""
        self.write("crates/wrong/src/lib.rt", source)
        self.write("crates/caller/src/main.rt", caller)
        self.write("docs/PROOFS.md", tables)
        return judge(self.root)

    def assert_fault(self, source: str, *faults: str) -> None:
        self.assertEqual(self.judged(source), {"wrong::call": list(faults)})

    def test_right_functions_pass(self) -> None:
        self.write("crates/right/src/lib.rt", RIGHT + METHOD)
        self.write("crates/right/src/modules.rt", EXPORTED)
        judged = self.judged(ensuring("result ≡ n"), caller=CALLER + "fn more() { wrong::call(1, out); }")
        right = ["right::twice", "right::fill", "right::Pair::first", "right::modules::exported"]
        self.assertEqual(judged, {path: [] for path in [*right, "wrong::call"]})
        self.assertEqual(report(judged), ["5 passed, 0 failed"])

    def test_a_requires(self) -> None:
        contract = "requires { n ≤ 5 }\n    ensures { result ≡ n }"
        self.assert_fault(function(contract), "it has a requires")

    def test_no_ensures(self) -> None:
        self.assert_fault(function(""), "it has no ensures", NO_EQUATION)
        self.assert_fault(function("", "pub fn call(n: u64)"), "it has no ensures")

    def test_a_lent_slice_without_statement(self) -> None:
        head = "pub fn call(n: u64, out: &mut [u8]) -> u64"
        fault = "no equation gives what out holds afterwards"
        self.assert_fault(function("ensures { result ≡ n }", head), fault)
        for statement in (
            "length out.new ≡ n",
            "other.new ≡ bytes",
            "out.old ≡ bytes",
            "out.new ≡ out.new",
            "out.new ≡ [] ⊎ out.new ≡ out.old",
        ):
            self.assert_fault(function(f"ensures {{ (result ≡ n) × ({statement}) }}", head), fault)

    def test_a_result_without_equation(self) -> None:
        for statement in (
            "IsMade n result", "result ≤ n", "f result ≡ n", "result ≡ f result", "result ≡ f (result.0)",
            "result ≡ f result.0", "result ≡ out.new", "result.0 ≡ n", "n ≤ 5 → result ≡ n", "result ≡ n → n ≤ 5",
            "(result ≡ n) ⊎ (result ≡ 0)", "result ≡ n ⊎ result ≡ 0", "(k : ℕ) × (result ≡ k)",
        ):
            self.assert_fault(ensuring(statement), NO_EQUATION)

    def test_a_result_with_more_than_its_equation(self) -> None:
        for statement in (
            "result ≡ n", "(result ≡ n)", "(result ≡ n) × (result ≤ 5)", "((result ≤ 5) × (result ≡ cond (n == 5) n 0))",
        ):
            self.assert_fault(ensuring(statement))

    def test_a_law_in_the_table(self) -> None:
        laws = "module _ (n : ℕ) where\n  pub one_call : (r s : ℕ) → IsMade n r → IsMade n s → r ≡ s\n"
        self.write("crates/wrong/proofs/Laws.antt", laws)
        self.assertEqual(self.judged(ensuring("IsMade n result"), TABLES), {"wrong::call": []})

    def test_a_law_of_what_is_read_into(self) -> None:
        reading = function("ensures { result ≡ n }", "pub fn call<R: Read>(from: &mut R, n: u64, out: &mut [u8]) -> u64")
        self.assert_fault(reading, NO_EQUATION)
        self.write("crates/wrong/proofs/Laws.antt", "pub one_call : ℕ\n")
        self.assertEqual(self.judged(reading, TABLES), {"wrong::call": []})

    def test_a_law_that_does_not_exist(self) -> None:
        fault = "the law one_call does not stand in crates/wrong/proofs/Laws.antt"
        self.assertEqual(self.judged(ensuring("IsMade n result"), TABLES), {"wrong::call": [fault]})
        self.write("crates/wrong/proofs/Laws.antt", "-- one_call : as said\npub one_call_more : ℕ\n")
        self.assertEqual(self.judged(ensuring("IsMade n result"), TABLES), {"wrong::call": [fault]})

    def test_a_law_that_is_not_needed(self) -> None:
        fault = "docs/PROOFS.md has a law for it, but it needs none"
        self.assertEqual(self.judged(ensuring("result ≡ n"), TABLES), {"wrong::call": [fault]})

    def test_a_row_that_names_no_public_function(self) -> None:
        fault = "docs/PROOFS.md names it, but it is no public function"
        private = function("", "fn call(n: u64) -> u64")
        self.assertEqual(self.judged(private, TABLES), {"wrong::call": [fault]})

    def test_called_by_nobody(self) -> None:
        for line in ("", "other::call(1)", "call(1)", "x.call(1)", "wrong::call_on(1)", "// wrong::call(1)"):
            judged = self.judged(ensuring("result ≡ n"), caller=f"fn main() {{\n    {line}\n}}\n")
            self.assertEqual(judged, {"wrong::call": [NO_CALL]})

    def test_called_in_its_own_crate_only(self) -> None:
        source = ensuring("result ≡ n") + "fn other() { wrong::call(1); call(1); }"
        self.assertEqual(self.judged(source, caller=""), {"wrong::call": [NO_CALL]})

    def test_a_method_of_another_type_called(self) -> None:
        caller = "fn one(p: Other) -> u64 { p.first() }\nfn two(p: Pair) -> u64 { p.n }"
        self.assertEqual(self.judged(METHOD, caller=caller), {"wrong::Pair::first": [NO_CALL]})

    def test_an_entry_point_passes(self) -> None:
        tables = TABLES.replace("| `wrong::call` | `one_call` | `crates/wrong/proofs/Laws.antt` |\n", "")
        self.assertEqual(self.judged(ensuring("result ≡ n"), tables, caller=""), {"wrong::call": []})

    def test_each_fault_is_reported_of_its_function(self) -> None:
        judged = self.judged(WRONG, LAWS_OF_WRONG, caller=CALLER_OF_WRONG)
        self.assertEqual(report(judged), [
            "wrong::requiring: it has a requires",
            "wrong::silent: it has no ensures",
            "wrong::lent: no equation gives what out holds afterwards",
            f"wrong::bounded: {NO_EQUATION}",
            "wrong::lawless: the law one_lawless does not stand in crates/wrong/proofs/Laws.antt",
            f"wrong::unused: {NO_CALL}",
            "1 passed, 6 failed",
        ])
