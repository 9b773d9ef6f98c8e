"""Tests of the judging itself, on documents that are wrong on purpose: each fault has to be reported."""

import tempfile
import unittest
from pathlib import Path

from reports import report

from .judging import judge

README = """# A title

See [the other page](docs/OTHER.md#a-heading-of-its-own) and [this one](#a-title).
The files are `docs/OTHER.md` and `docs/NAME.md:3`.

## Reading list

| | file | lines |
|---|---|---|
| 1 | `docs/OTHER.md` | 3 |
"""
OTHER = """## A heading, of its own

Text.
"""


class Documents(unittest.TestCase):
    def faults(self, readme: str = README, other: str = OTHER) -> list[str]:
        """The faults of a folder with these two documents."""
        with tempfile.TemporaryDirectory() as folder:
            root = Path(folder)
            (root / "docs").mkdir()
            (root / "README.md").write_text(readme)
            (root / "docs/OTHER.md").write_text(other)
            return report(judge(root))

    def assert_fault(self, fault: str, readme: str = README, other: str = OTHER) -> None:
        self.assertEqual(self.faults(readme, other), [fault, "6 passed, 1 failed"])

    def test_documents_in_their_form_have_no_fault(self) -> None:
        self.assertEqual(self.faults(), ["7 passed, 0 failed"])

    def test_a_line_of_121_columns(self) -> None:
        self.assertEqual(self.faults(other=OTHER.replace("Text.", "x" * 120)), ["7 passed, 0 failed"])
        self.assert_fault("docs/OTHER.md: width: line 3 has 121 columns", other=OTHER.replace("Text.", "x" * 121))

    def test_a_row_of_151_columns(self) -> None:
        row = "| " + "x" * 146 + " |"
        self.assertEqual(self.faults(other=OTHER.replace("Text.", row)), ["7 passed, 0 failed"])
        self.assert_fault("docs/OTHER.md: width: line 3 has 151 columns", other=OTHER.replace("Text.", f"|{row}"))

    def test_a_line_of_the_readme_of_101_columns(self) -> None:
        self.assertEqual(self.faults(README + "x" * 100), ["7 passed, 0 failed"])
        self.assert_fault("README.md: width: line 11 has 101 columns", README + "x" * 101)

    def test_a_link_to_no_file(self) -> None:
        self.assert_fault("docs/OTHER.md: links: leads nowhere: GONE.md", other=OTHER.replace("Text.", "[x](GONE.md)"))

    def test_a_link_to_no_heading(self) -> None:
        readme = README.replace("#a-heading-of-its-own", "#a-heading")
        self.assert_fault("README.md: links: leads nowhere: docs/OTHER.md#a-heading", readme)

    def test_a_path_that_is_not_there(self) -> None:
        self.assert_fault("docs/OTHER.md: paths: is not there: crates/gone", other=OTHER.replace("Text.", "`crates/gone`"))

    def test_a_path_with_a_word_for_any_name(self) -> None:
        self.assert_fault("README.md: paths: is not there: docs/NAME/x.md", README.replace("docs/NAME.md:3", "docs/NAME/x.md"))

    def test_a_wrong_number_of_lines(self) -> None:
        self.assert_fault("README.md: reading list: docs/OTHER.md has 3 lines, not 4", README.replace("| 3 |", "| 4 |"))

    def test_a_file_of_the_list_that_is_not_there(self) -> None:
        readme = README.replace("| 1 | `docs/OTHER.md`", "| 1 | `GONE.md`")
        self.assert_fault("README.md: reading list: GONE.md is not there", readme)

    def test_a_row_out_of_turn(self) -> None:
        self.assert_fault("README.md: reading list: row 2 stands at 1", README.replace("| 1 |", "| 2 |"))

    def test_no_list(self) -> None:
        readme = README.replace("## Reading list", "## Another list")
        self.assert_fault("README.md: reading list: there is no list below the heading 'Reading list'", readme)


if __name__ == "__main__":
    unittest.main()
