"""Tests of the judging itself, on a small repository with one thing wrong: each fault has to be reported."""

import tempfile
import unittest
from pathlib import Path

from reports import report

from .judging import judge
from .sample import FILES, PAGE

TREE = "crates/diskette/specs/Fields.antt"
TABLE = "docs/RULES.md"
ROW_OF_2 = "| 2 | not `0128` | `same` | `returns-then-ne` | `3=X` | `fixed_bytes_not_compared` |\n"
ROW_OF_5 = "| 5 | no length | `is_length` | `returns-then-not-is_length` | `cents 7` | `last_field_is_short` |\n"
ROW_OF_23 = "| 23 | too late | `in_span` | `returns-in-TooLate` | `4=31032004` | `last_field_is_short` |\n"
ROW_OF_14 = "| 14 | not the counted figure | `figure` | `returns-then-not-test` | `390=1` | `last_field_is_short` |\n"
ROW_OF_NO_DIGIT = "| 3 | a byte is no digit | `digit` | `returns-in_err-v` | `133=X` | `last_field_is_short` |\n"
ROW_OF_6 = "| 6 | too many | `most` | `returns-then-l-ge-MOST` | claim `limits_hold` | `last_field_is_short` |\n"
A1_WITH_2 = f"{TREE}: A1 with 2, if_so (same bs f) tt not_fixed"


class RulesTest(unittest.TestCase):
    """The small repository, written into a folder."""

    def reported(self, path: str = TABLE, old: str = "", new: str = "") -> list[str]:
        """What is reported where in one file this is written for that."""
        if old:
            self.assertIn(old, FILES[path])
        with tempfile.TemporaryDirectory() as folder:
            for name, text in FILES.items():
                file = Path(folder, name)
                file.parent.mkdir(parents=True, exist_ok=True)
                file.write_text(text.replace(old, new, 1) if name == path and old else text)
            return report(judge(Path(folder)))

    def assert_faults(self, path: str, old: str, new: str, *faults: str) -> None:
        self.assertEqual(self.reported(path, old, new)[:-1], list(faults))

    def assert_row_fault(self, old: str, new: str, fault: str, row: str = ROW_OF_2) -> None:
        """Of a row in which this is written for that, one fault is reported at its line."""
        self.assertIn(old, row)
        self.assert_faults(TABLE, row, row.replace(old, new), f"{TABLE}:{self.line_of(row)}: {fault}")

    @staticmethod
    def line_of(row: str) -> int:
        """The line of the page in which a row stands."""
        return PAGE[:PAGE.index(row)].count("\n") + 1


class TestRight(RulesTest):
    def test_all_is_right(self) -> None:
        headings, demands, sections, rows, numbers = 1, 18, 7, 20, 9
        judged = headings + demands + sections + rows + numbers
        self.assertEqual(self.reported(), [f"{judged} passed, 0 failed"])


class TestDemands(RulesTest):
    """The tree against the page."""

    def test_a_row_that_is_missing(self) -> None:
        self.assert_faults(
            TABLE, ROW_OF_2, "", f"{A1_WITH_2}: {TABLE} has no row for it",
            "docs/REFUSALS.md: 2: RULES.md#a1 has no row with 2",
        )

    def test_a_row_that_stands_twice(self) -> None:
        self.assert_faults(
            TABLE, ROW_OF_2, ROW_OF_2 * 2, f"{A1_WITH_2}: {TABLE} has a row too many with its number",
            f"{TABLE}:14: the tree does not refuse A1 with 2, or not so often",
        )

    def test_rows_out_of_order(self) -> None:
        fault = f"{TREE}: c1_or_e1 with 6, (ltb l most): its row in {TABLE} stands too early"
        self.assert_faults(TABLE, ROW_OF_5 + ROW_OF_6, ROW_OF_6 + ROW_OF_5, fault)

    def test_a_number_that_the_field_cannot_be_refused_with(self) -> None:
        row = ROW_OF_2 + "| 3 | a byte | `digit` | `returns-then-ne` | `3=X` | `last_field_is_short` |\n"
        self.assert_faults(
            TABLE, ROW_OF_2, row, f"{TABLE}:14: the tree does not refuse A1 with 3, or not so often",
            "docs/REFUSALS.md: 3: no link to RULES.md#a1",
        )

    def test_a_rule_that_is_new_in_the_tree(self) -> None:
        rules = "rule 14 (eqb v counted) ∷ rule 6 (ltb v most) ∷ []"
        fault = f"{TREE}: E2 with 6, (ltb v most): {TABLE} has no row for it"
        self.assert_faults(TREE, "rule 14 (eqb v counted) ∷ []", rules, fault)

    def test_a_number_that_a_case_is_given_otherwise(self) -> None:
        reported = self.reported(TREE, "too_late = 23", "too_late = 22")
        self.assertIn(f"{TREE}: A2 with 22, (in_span n): {TABLE} has no row for it", reported)

    def test_a_number_that_the_reader_gives_otherwise(self) -> None:
        reported = self.reported("crates/verdict/specs/Verdicts.antt", "not_fixed = 2", "not_fixed = 7")
        self.assertIn(f"{A1_WITH_2.replace('2', '7')}: {TABLE} has no row for it", reported)


class TestHeadings(RulesTest):
    def test_a_field_without_heading(self) -> None:
        fault = f"{TABLE}: headings: there is no heading E3"
        self.assert_faults(TREE, "  E2 : Name", "  E2 E3 : Name", fault)

    def test_a_heading_of_no_field(self) -> None:
        reported = self.reported(TABLE, "### mark", "### marks")
        self.assertIn(f"{TABLE}: headings: there is no heading mark", reported)
        self.assertIn(f"{TABLE}: headings: marks is neither a field nor such a number", reported)

    def test_a_number_without_heading(self) -> None:
        reported = self.reported("docs/REFUSALS.md", "## 16: no room", "## 17: no room")
        self.assertIn(f"{TABLE}: headings: there is no heading 17", reported)

    def test_headings_out_of_order(self) -> None:
        first, rest = PAGE.index("### A1"), PAGE.index("### A2")
        end = PAGE.index("## C")
        fault = f"{TABLE}: headings: they are not in the order of the tree, each once"
        self.assert_faults(TABLE, PAGE[first:end], PAGE[rest:end] + PAGE[first:rest], fault)


class TestHeads(RulesTest):
    """What stands above the rows of a field."""

    def test_a_line_that_is_not_the_tree_s(self) -> None:
        fault = f"{TABLE}: A1: it quotes 'must A1 \"0128\"', which is not the field's line in the tree"
        self.assert_faults(TABLE, '`must A1 (ascii "0128")`', '`must A1 "0128"`', fault)

    def test_another_width(self) -> None:
        fault = f"{TABLE}: A1: it tells 5 bytes, the tree 4"
        self.assert_faults(TABLE, "4 bytes at 0", "5 bytes at 0", fault)
        fault = f"{TABLE}: closing: it tells 2 bytes, the tree None"
        self.assert_faults(TABLE, ", at 6", ", 2 bytes at 6", fault)

    def test_another_place(self) -> None:
        self.assert_faults(TABLE, "8 bytes at 4", "8 bytes at 5", f"{TABLE}: A2: it stands at 4, not at 5")

    def test_a_function_that_is_not_there(self) -> None:
        callers = "`fields::fixed_at`, called in `checker::file_at`"
        wrong = callers.replace("file_at", "files_at")
        self.assert_faults(TABLE, callers, wrong, f"{TABLE}: A1: there is no function checker::files_at")

    def test_a_function_that_does_not_call(self) -> None:
        callers = "`checker::day_at`, called in `checker::file_at`"
        fault = f"{TABLE}: A2: checker::check does not call checker::day_at"
        self.assert_faults(TABLE, callers, callers.replace("file_at", "check"), fault)
        fault = f"{TABLE}: closing: fields::number_at does not call fields::fixed_at"
        self.assert_faults(TABLE, "through `fields::blanks_at`", "through `fields::number_at`", fault)

    def test_another_test_than_the_one_passed(self) -> None:
        fault = f"{TABLE}: E2: checker::figure_at passes the test '{{}}' to checker::tested_at, not '{{}}'"
        for other in ("v != counted", "v == most", "not_zero"):
            faults = [fault.format("v == counted", other)]
            self.assert_faults(TABLE, "with `v == counted`", f"with `{other}`", *faults)
        self.assert_faults(TABLE, " with `v == counted`", "", fault.format("v == counted", ""))

    def test_a_test_that_is_passed_otherwise(self) -> None:
        fault = f"{TABLE}: E2: checker::figure_at passes the test '{{}}' to checker::tested_at, not 'v == counted'"
        for other, test in (("not_zero", "not_zero"), ("|v| v != counted", "v != counted"), ("|v| ok(t, v)", "ok"),
                            ("|v| !ok(t, v)", "!ok(t, v)")):
            self.assert_faults("crates/checker/src/lib.rt", "|v| v == counted", other, fault.format(test))

    def test_a_test_that_a_local_names(self) -> None:
        code, call = "crates/checker/src/lib.rt", "tested_at(s, p, 7, refusals::NOT_COUNTED, "
        old, passed = f"{call}|v| v == counted)", f"{call}fits)"
        self.assert_faults(code, old, f"let fits = |v| v == counted;\n    {passed}")
        fault = f"{TABLE}: E2: checker::figure_at passes the test 'ok' to checker::tested_at, not 'v == counted'"
        self.assert_faults(code, old, f"let fits = |v| ok(v);\n    {passed}", fault)

    def test_a_test_where_none_is_passed(self) -> None:
        fault = f"{TABLE}: A2: checker::file_at passes the test '' to checker::day_at, not 'is_day'"
        self.assert_faults(TABLE, "Tested by `checker::day_at`", "Tested by `checker::day_at` with `is_day`", fault)

    def test_a_way_out_that_the_proof_names_otherwise(self) -> None:
        fault = "fields::fixed_at is proved at returns-then-s, which is none of its ways out"
        faults = [f"{TABLE}: {name}: {fault}" for name in ("A1", "closing")]
        answers = "crates/fields/proofs/fixed_at/Answers.antt"
        self.assert_faults(answers, "pub returns-then-ne", "pub returns-then-s", *faults)
        self.assert_faults(answers, "pub returns-then-ne", "pub returns-then-ne-clause-answer")

    def test_no_function(self) -> None:
        reported = self.reported(TABLE, "Tested by `checker::day_at`", "Looked at by `checker::day_at`")
        self.assertIn(f"{TABLE}: A2: it does not say by which function it is tested", reported)

    def test_a_row_that_has_not_its_form(self) -> None:
        reported = self.reported(TABLE, "| 2 | not `0128` | ", "| 2 | ")
        self.assertIn(f"{TABLE}: A1: line 13 has not the form of a row", reported)


class TestRows(RulesTest):
    """The names in a row."""

    def test_a_rule_that_is_not_defined(self) -> None:
        self.assert_row_fault("`same`", "`equal`", "equal is defined nowhere in specs/")

    def test_a_rule_that_does_not_stand_there(self) -> None:
        self.assert_row_fault("`same`", "`digit`", "digit does not stand in if_so (same bs f) tt not_fixed")
        self.assert_row_fault("`most`", "`is_length`", "is_length does not stand in (ltb l most)", ROW_OF_6)
        self.assert_row_fault("`most`", "`first_field`", "first_field does not stand in (ltb l most)", ROW_OF_6)

    def test_a_fact_that_the_proof_has_not(self) -> None:
        for fact in ("returns-then-eq", "returns-then-ne-2", "returns-in_default"):
            fault = f"{fact} is no fact in the proof of fields::fixed_at"
            self.assert_row_fault("returns-then-ne", fact, fault)

    def test_a_fact_of_another_way_out(self) -> None:
        fault = "fields::fixed_at does not give 2 where {} is proved"
        for fact in ("returns-in_err-f", "returns"):
            self.assert_row_fault("returns-then-ne", fact, fault.format(fact))
        fault = "checker::day_at does not give 23 where {} is proved"
        for fact in ("returns-in-NoYear", "returns-in-InOrder"):
            self.assert_row_fault("returns-in-TooLate", fact, fault.format(fact), ROW_OF_23)
        fault = "checker::length_at does not give 6 where returns-in_default is proved"
        self.assert_row_fault("returns-then-l-ge-MOST", "returns-in_default", fault, ROW_OF_6)

    def test_a_fact_where_a_function_is_called_that_does_not_refuse_so(self) -> None:
        fault = "fields::number_at does not give 3 where returns-in_err-f is proved"
        self.assert_row_fault("returns-in_err-v", "returns-in_err-f", fault, ROW_OF_NO_DIGIT)

    def test_a_refusal_that_is_not_handed_on(self) -> None:
        reported = self.reported("crates/checker/src/lib.rt", "fields::why(a)", "NO_REFUSAL")
        for line, number in ((self.line_of(ROW_OF_5) - 2, 1), (self.line_of(ROW_OF_5) - 1, 3)):
            fault = f"checker::length_at does not give {number} where returns-in_default is proved"
            self.assertIn(f"{TABLE}:{line}: {fault}", reported)

    def test_a_content_that_is_made_of_another_answer(self) -> None:
        reported = self.reported("crates/checker/src/lib.rt", "Err(fields::why(a))", "Ok(only(a))")
        fault = "checker::length_at does not give 1 where returns-in_default is proved"
        self.assertIn(f"{TABLE}:{self.line_of(ROW_OF_5) - 2}: {fault}", reported)

    def test_a_rule_that_another_function_refuses_for(self) -> None:
        code = "return Err(fields::refuse(refusals::NO_MORE, p));"
        reported = self.reported("crates/checker/src/lib.rt", code, "return too_many(p);")
        fault = "checker::length_at does not give 6 where returns-then-l-ge-MOST is proved"
        self.assertIn(f"{TABLE}:{self.line_of(ROW_OF_6)}: {fault}", reported)

    def test_a_number_that_is_passed_otherwise(self) -> None:
        fault = "checker::tested_at does not give 14 where returns-then-not-test is proved"
        faults = [f"{TABLE}:{self.line_of(ROW_OF_14)}: {fault}"]
        passed = "7, refusals::NOT_COUNTED"
        for other in ("7, refusals::NO_DATE", "refusals::NOT_COUNTED, 7"):
            self.assert_faults("crates/checker/src/lib.rt", passed, other, *faults)

    def test_a_number_that_one_caller_does_not_pass(self) -> None:
        through = "called through `checker::figure_at` in\n`checker::file_at`"
        reported = self.reported(TABLE, through, "called in `checker::figure_at` and\n`checker::file_at`")
        fault = "checker::tested_at does not give 14 where returns-then-not-test is proved"
        self.assertIn(f"{TABLE}:{self.line_of(ROW_OF_14)}: {fault}", reported)

    def test_a_case_that_is_not_there(self) -> None:
        self.assert_row_fault("`3=X`", "`3=Y`", "3=Y is no case of tests/cases.txt")

    def test_a_case_with_another_number(self) -> None:
        self.assert_row_fault("`3=X`", "`cut 3`", "cut 3 is answered with 1 0")
        self.assert_row_fault("`cents 7`", "`dtmake, lines`", "dtmake, lines is answered with 16 0", ROW_OF_5)

    def test_a_case_at_another_place(self) -> None:
        self.assert_row_fault("`3=X`", "`135=X`", "135=X is answered with 2 134")

    def test_a_claim_that_does_not_state_it(self) -> None:
        fault = "no claim {} in specs/ has 6 at 0 of a payment"
        self.assert_row_fault("limits_hold", "limits-held", fault.format("limits-held"), ROW_OF_6)
        self.assert_row_fault("limits_hold", "no_room_given", fault.format("no_room_given"), ROW_OF_6)

    def test_an_edit_that_is_not_there(self) -> None:
        self.assert_row_fault("`fixed_bytes_not_compared`", "`fixed_bytes`", "there is no edit fixed_bytes")


class TestNumbers(RulesTest):
    """The rows of a number that no field gives."""

    ROW = "| 16 | no room | `if_room` | `returns-then-out-lt6` | claim `no_room_given` | `fixed_bytes_not_compared` |\n"

    def test_another_number(self) -> None:
        self.assert_faults(
            TABLE, self.ROW, self.ROW.replace("16", "14"), f"{TABLE}:89: it has 14 in the section of 16",
            "docs/REFUSALS.md: 14: no link to RULES.md#16",
        )

    def test_a_rule_that_gives_another_number(self) -> None:
        self.assert_row_fault("`if_room`", "`if_whole`", "no definition if_whole in specs/ gives 16", self.ROW)
        self.assert_row_fault("`if_room`", "`ifSpace`", "no definition ifSpace in specs/ gives 16", self.ROW)

    def test_a_fact_of_another_way_out(self) -> None:
        fault = "checker::check does not give 16 where returns is proved"
        self.assert_row_fault("returns-then-out-lt6", "returns", fault, self.ROW)

    def test_a_claim_of_another_crate(self) -> None:
        fault = "there is no claim limits_hold in crates/checker/specs"
        self.assert_row_fault("`no_room_given`", "`limits_hold`", fault, self.ROW)

    def test_a_case_with_another_number(self) -> None:
        row = "| 16 | no room | `if_room` | `returns-then-out-lt6` | `dtmake, lines` | `last_field_is_short` |\n"
        self.assert_row_fault("`dtmake, lines`", "`cut 3`", "cut 3 is answered with 1 0", row)


class TestLinks(RulesTest):
    """The links from docs/REFUSALS.md."""

    PAGE = "docs/REFUSALS.md"

    def test_a_link_that_is_missing(self) -> None:
        fault = f"{self.PAGE}: 3: no link to RULES.md#mark"
        self.assert_faults(self.PAGE, "[a mark](RULES.md#mark), ", "", fault)

    def test_a_link_to_another_field(self) -> None:
        fault = f"{self.PAGE}: 10: RULES.md#e2 has no row with 10"
        self.assert_faults(self.PAGE, "[A2](RULES.md#a2).", "[A2](RULES.md#a2), [E2](RULES.md#e2).", fault)

    def test_a_link_to_all_fields_where_not_all_have_the_number(self) -> None:
        reported = self.reported(self.PAGE, "[E2](RULES.md#e2).\n\n## 16", "[E2](RULES.md).\n\n## 16")
        self.assertIn(f"{self.PAGE}: 14: RULES.md#a1 has no row with 14", reported)

    def test_a_number_without_section(self) -> None:
        self.assert_faults(self.PAGE, "## 14: not counted", "## E", f"{self.PAGE}: 14: it has no section")


if __name__ == "__main__":
    unittest.main()
