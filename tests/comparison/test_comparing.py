"""Tests of the comparison itself: sides that are wrong on purpose have to be noticed, and kept."""

import sys
import tempfile
import unittest
from dataclasses import dataclass, replace
from itertools import product
from pathlib import Path
from random import Random

from . import comparing, expected
from .case_m import CASE_M
from .cases import Case, changed, is_met, request_of, unchanged
from .comparing import Asked, FamilyComparison, Settings
from .inputs import Form, Input, put_among, valid_input, valid_medium
from .lending import check_medium_request, load_medium_request, requests_for, short_at
from .requests import (
    CHECK, CHECK_MEDIUM, COMPOSE, FIND, HAND, HIGHEST, LIST, LOAD, LOAD_MEDIUM, VIEW, Request,
)
from .sides import Side
from .tally import FORBIDDEN, REACHABLE, Tally, count_of_tests, forbidden_numbers, missing_numbers, summary
from .test_media import BOTH, NEEDED, NUMBERS, OTHER, ROWS_OF_BOTH
from .viewing import find_request, hand_request, view_request

FILE_OF_M = valid_input("valid", Form.FILE, CASE_M)
ANSWER_OF_M = b"0\t0\t1\t7654321\t30050020\t12345\n"
REFUSED = b"1\t0\t0\t0\t0\t0\n"
MEDIUM = valid_medium("valid", BOTH)
ANSWER_OF_MEDIUM = b"0\t0\t2\t3\n"


def printing(printed: bytes, status: int = 0) -> Side:
    """A side whose programs print this, whatever they are fed, and end with a status."""
    code = f"import sys; sys.stdin.buffer.read(); sys.stdout.buffer.write({printed!r}); sys.exit({status})"
    words = [sys.executable, "-c", code]
    return Side({program: words for program in ("dtprobe", "dtlist", "dtmake")})


@dataclass(frozen=True)
class Prepared(Side):
    """A side that has printed this before it is fed: no program is started, which takes its time."""

    answer: bytes = b""

    def printed(self, program: str, pieces: list[bytes]) -> bytes:
        return self.answer


def checks(*answers: bytes | None) -> list[Asked]:
    """Inputs with one check each, and what the model says to it."""
    given = Input("empty", Form.FILE, b"", CASE_M)
    requests = (Request(CHECK, b"", expected=answer) for answer in answers)
    return [Asked(number, given, [request]) for number, request in enumerate(requests)]


class TestComparing(unittest.TestCase):
    """A family's comparison against sides that print what the test says."""

    def setUp(self) -> None:
        self.folder = tempfile.TemporaryDirectory()
        self.addCleanup(self.folder.cleanup)

    def family(self, ours: Side, second: Side) -> FamilyComparison:
        return FamilyComparison(Settings(ours, second, 1, Path(self.folder.name)), 0)

    def failed_checks(self, ours: bytes, second: bytes, *models: bytes | None) -> set[int]:
        family = self.family(printing(ours), printing(second))
        family.compare_batch(checks(*models))
        return family.failed

    def test_equal_answers_pass(self) -> None:
        both = ANSWER_OF_M + REFUSED
        self.assertEqual(self.failed_checks(both, both, ANSWER_OF_M, None), set())

    def test_a_byte_that_differs_is_noticed_and_kept(self) -> None:
        other = ANSWER_OF_M.replace(b"5", b"6", 1)
        self.assertEqual(self.failed_checks(ANSWER_OF_M, other, None), {0})
        kept = Path(self.folder.name) / "1-0-0-check"
        self.assertEqual((kept / "ours").read_bytes(), ANSWER_OF_M)
        self.assertEqual((kept / "second").read_bytes(), other)

    def test_equal_answers_that_are_not_the_models_are_noticed(self) -> None:
        self.assertEqual(self.failed_checks(REFUSED, REFUSED, ANSWER_OF_M), {0})

    def test_missing_answers_are_noticed(self) -> None:
        self.assertEqual(self.failed_checks(b"", b"", None), {0})
        self.assertEqual(self.failed_checks(ANSWER_OF_M[:-1], ANSWER_OF_M[:-1], None), {0})

    def test_bytes_behind_the_last_answer_are_noticed(self) -> None:
        self.assertEqual(self.failed_checks(ANSWER_OF_M + b"x", ANSWER_OF_M, None), {0})

    def test_a_status_is_noticed(self) -> None:
        family = self.family(printing(ANSWER_OF_M, status=3), printing(ANSWER_OF_M))
        family.compare_batch(checks(None))
        self.assertEqual(family.failed, {0})

    def test_many_differences_break_a_family_off(self) -> None:
        family = self.family(printing(b""), printing(b""))
        with self.assertRaises(comparing.TooManyDifferences):
            family.compare_batch(checks(*[None] * 20))
        self.assertEqual(len(family.failed), comparing.MOST_DIFFERENCES)

    def program_failed(self, given: Input, ours: bytes, second: bytes) -> bool:
        family = self.family(printing(ours), printing(second))
        family.compare_program(Asked(0, given, []), "dtlist")
        return bool(family.failed)

    def test_what_a_program_prints_is_compared(self) -> None:
        listing = CASE_M.listing.data
        self.assertFalse(self.program_failed(FILE_OF_M, listing, listing))
        self.assertTrue(self.program_failed(FILE_OF_M, listing, listing[:-1]))
        self.assertTrue(self.program_failed(FILE_OF_M, b"1\t0\n", b"1\t0\n"))

    def test_equal_crashes_of_a_program_do_not_pass(self) -> None:
        damaged = replace(FILE_OF_M, valid=False)
        self.assertFalse(self.program_failed(damaged, b"1\t0\n", b"1\t0\n"))
        self.assertTrue(self.program_failed(damaged, b"killed\n", b"killed\n"))
        self.assertTrue(self.program_failed(damaged, b"", b""))

    def test_a_refusal_that_the_model_knows_is_held(self) -> None:
        wrong = replace(FILE_OF_M, valid=False, refusal=(21, 174))
        self.assertFalse(self.program_failed(wrong, b"21\t174\n", b"21\t174\n"))
        for printed in (CASE_M.listing.data, b"21\t172\n", b"12\t174\n"):
            self.assertTrue(self.program_failed(wrong, printed, printed), printed)

    def test_faults_of_a_day_are_told_apart(self) -> None:
        late = replace(FILE_OF_M, valid=False, refusal=(23, 95))
        self.assertFalse(self.program_failed(late, b"23\t95\n", b"23\t95\n"))
        for printed in (b"10\t95\n", b"22\t95\n", b"23\t50\n"):
            self.assertTrue(self.program_failed(late, printed, printed), printed)

    def asked_once(self, request: Request, ours: bytes, second: bytes) -> FamilyComparison:
        family = self.family(Prepared({}, ours), Prepared({}, second))
        family.compare_batch([Asked(0, FILE_OF_M, [request])])
        return family

    def only_passes(self, request: Request, right: bytes, *wrong: bytes) -> None:
        """What is right passes; what is wrong is noticed by the model, and without it by the other side."""
        self.assertFalse(self.asked_once(request, right, right).failed)
        unknown = replace(request, expected=None)
        for printed in wrong:
            self.assertTrue(self.asked_once(request, printed, printed).failed, printed)
            self.assertTrue(self.asked_once(unknown, printed, right).failed, printed)
            self.assertTrue(self.asked_once(unknown, right, printed).failed, printed)

    def test_a_wrong_view_is_noticed(self) -> None:
        right, not_there = b"0\t0\t128\t512\n", b"19\t0\t0\t0\n"
        beside, cut = b"0\t0\t127\t512\n", b"0\t0\t128\t384\n"
        self.only_passes(find_request(FILE_OF_M, 0), right, beside, cut, not_there)
        of_e, not_empty = b"0\t0\t384\t512\n", b"19\t0\t0\t512\n"
        for n in (1, HIGHEST):
            self.only_passes(find_request(FILE_OF_M, n), not_there, right, of_e, not_empty)

    def test_a_wrong_hand_out_is_noticed(self) -> None:
        right, not_there = b"0\t0\t221\t248\n", b"19\t0\t0\t0\n"
        neighbour, short = b"0\t0\t256\t283\n", b"0\t0\t221\t247\n"
        self.only_passes(hand_request(FILE_OF_M, 128, (14, 0)), right, neighbour, short, not_there)
        for start in (0, 127, 129, 256, 384, 512, HIGHEST):
            moved = b"0\t0\t%d\t%d\n" % (start + 93, start + 120)
            elsewhere = b"19\t%d\t0\t0\n" % (start + 1)
            self.only_passes(hand_request(FILE_OF_M, start, (14, 0)), not_there, right, moved, elsewhere)
        for part in (0, 2, HIGHEST):
            self.only_passes(hand_request(FILE_OF_M, 128, (0, part)), not_there, b"0\t0\t317\t344\n")

    def test_a_wrong_text_is_noticed(self) -> None:
        right, not_there = b"0\t0\t27\n" + b"MEIER KG".ljust(27) + b"\n", b"19\t0\t0\n\n"
        neighbour, short = right.replace(b"MEIER KG   ", b"MUSTER GMBH"), right.replace(b" \n", b"\n")
        wrong = (neighbour, short, short.replace(b"27", b"26"), b"0\t0\t8\nMEIER KG\n", not_there)
        self.only_passes(view_request(FILE_OF_M, 0, (14, 0)), right, *wrong)
        for n in (1, 128, HIGHEST):
            self.only_passes(view_request(FILE_OF_M, n, (14, 0)), not_there, right)
        for part in (0, 2, 16, HIGHEST):
            self.only_passes(view_request(FILE_OF_M, 0, (0, part)), not_there, right)

    def test_a_wrong_check_of_a_medium_is_noticed(self) -> None:
        with_totals = b"0\t0\t2\t3\t7654332\t50050023\t12360\n"
        first_file, exchanged, last_of_each = b"0\t0\t1\t1\n", b"0\t0\t3\t2\n", b"0\t0\t2\t2\n"
        wrong = (first_file, exchanged, last_of_each, b"15\t512\t0\t0\n", with_totals)
        self.only_passes(check_medium_request(MEDIUM), ANSWER_OF_MEDIUM, *wrong)

    def test_a_wrong_load_of_a_medium_is_noticed(self) -> None:
        rows = tuple(needed + 1 for needed in NEEDED)
        request = Request(LOAD_MEDIUM, MEDIUM.data, rows, b"%017d" % 99 * sum(rows))
        right = ANSWER_OF_MEDIUM + b"".join(ROWS_OF_BOTH)
        as_lent = b"".join(b"99 " * count + b"\n" for count in rows)
        wrong_columns = {
            "starts from the file's start": (b"128 640 896", b"128 128 384"), "files": (b"\n0 512", b"\n0 0"),
            "a start from the end": (b"\n0 512", b"\n512 1280"), "counts run on": (b"\n1 2", b"\n1 3"),
            "accounts run on": (b"7654321 11", b"7654321 7654332"), "cents run on": (b"12345 15", b"12345 12360"),
            "the last file's rows only": (b"7654321 5 6 99", b"5 6 99 99"), "behind the rows": (b"15 99", b"15 0"),
            "sums exchanged": (ROWS_OF_BOTH[6] + ROWS_OF_BOTH[7], ROWS_OF_BOTH[7] + ROWS_OF_BOTH[6]),
        }
        for what, (old, new) in wrong_columns.items():
            self.assertEqual(right.count(old), 1, what)
        first_row = b"".join(ROWS_OF_BOTH[:4]) + b"0 99 99 \n1 99 99 \n7654321 99 99 \n30050020 99 99 \n12345 99 99 \n"
        wrong = [right.replace(old, new) for old, new in wrong_columns.values()]
        wrong += [figures + as_lent for figures in (b"15\t512\t0\t0\n", b"16\t0\t0\t0\n", ANSWER_OF_MEDIUM)]
        self.only_passes(replace(request, expected=right), right, *wrong, ANSWER_OF_MEDIUM + first_row)

    def test_a_wrong_refusal_for_room_is_noticed(self) -> None:
        request = load_medium_request(Random(2), MEDIUM, short_at(8))
        right, as_before = request.expected, request.expected.partition(b"\n")[2]
        figures = (b"16\t512\t0\t0\n", b"16\t0\t2\t3\n", ANSWER_OF_MEDIUM, b"15\t512\t0\t0\n")
        first = as_before.partition(b" ")[0]
        written = right.replace(first, b"30050020", 1)
        self.only_passes(request, right, *(line + as_before for line in figures), written)

    def test_a_wrong_refusal_of_a_later_file_is_noticed(self) -> None:
        late = replace(FILE_OF_M, valid=False, refusal=(23, 95))
        requests = requests_for(Random(2), put_among((CASE_M,), late, (OTHER,)))
        self.assertEqual([request.call for request in requests], [CHECK_MEDIUM, LOAD_MEDIUM])
        answers = ((23, 607), (23, 95), (16, 0), (15, 512), (10, 607), (22, 607))
        for request in requests:
            self.only_passes(request, *(expected.refused(request, *answer) for answer in answers))

    def test_15_of_a_medium_is_met_where_both_sides_agree(self) -> None:
        unknown, surplus = replace(check_medium_request(MEDIUM), expected=None), b"15\t512\t0\t0\n"
        family = self.asked_once(unknown, surplus, surplus)
        self.assertFalse(family.failed)
        self.assertEqual(forbidden_numbers(family.tally), [("check medium", 15)])

    def test_a_difference_of_a_medium_is_kept(self) -> None:
        self.asked_once(check_medium_request(MEDIUM), ANSWER_OF_MEDIUM, b"0\t0\t2\t2\n")
        kept = Path(self.folder.name) / "1-0-0-check-medium"
        self.assertEqual((kept / "second").read_bytes(), b"0\t0\t2\t2\n")

    def test_no_program_is_run_on_a_medium(self) -> None:
        family = self.family(Prepared({}), Prepared({}))
        self.assertEqual(family.programs_for(Asked(0, FILE_OF_M, [])), ["dtlist", "dtmake"])
        self.assertEqual(family.programs_for(Asked(0, MEDIUM, [])), [])


class TestAnswers(unittest.TestCase):
    """Where an answer ends, and which numbers have to be met and which must not be."""

    def test_ends_of_answers(self) -> None:
        ends = {
            Request(CHECK, b""): b"1\t0\t0\t0\t0\t0\n",
            Request(LOAD, b""): b"1\t0\t0\t0\t0\t0\n7 \n\n\n8 9 \n",
            Request(LIST, b"", (3,), b"\n\n."): b"1\t0\t0\n\n\n.\n",
            Request(COMPOSE, b""): b"18\t0\t0\n\n",
            Request(FIND, b""): b"0\t0\t128\t512\n",
            Request(HAND, b""): b"19\t0\t0\t0\n",
            Request(VIEW, b""): b"0\t0\t27\n" + b"MEIER KG".ljust(27) + b"\n",
            Request(VIEW, b"", (1,)): b"19\t0\t0\n\n",
            Request(CHECK_MEDIUM, b""): b"1\t0\t0\t0\n",
            Request(LOAD_MEDIUM, b""): b"1\t0\t0\t0\n" + b"7 \n\n8 9 \n" * 3,
        }
        for request, answer in ends.items():
            self.assertEqual(request.answer_end(b"??" + answer + b"1\t0", 2), 2 + len(answer))
            self.assertIsNone(request.answer_end(answer[:-1], 0))

    def test_a_number_that_was_not_met_is_missing(self) -> None:
        tally = Tally()
        for call, numbers in REACHABLE.items():
            tally.met.update((call, number) for number in numbers)
        self.assertEqual(missing_numbers(tally), [])
        del tally.met["compose", 18]
        self.assertEqual(missing_numbers(tally), [("compose", 18)])
        del tally.met["find", 9], tally.met["hand", 15], tally.met["view", 19]
        missing = [("compose", 18), ("find", 9), ("hand", 15), ("view", 19)]
        self.assertEqual(missing_numbers(tally), missing)

    def test_every_fault_of_a_day_has_to_be_met(self) -> None:
        calls = ("check", "load", "list", "compose", "find", "hand", "view")
        self.assertLessEqual(set(product(calls, (10, 22, 23))), set(missing_numbers(Tally())))

    def test_every_number_of_a_medium_has_to_be_met(self) -> None:
        missing = missing_numbers(Tally())
        self.assertEqual({number for call, number in missing if call == "check medium"}, NUMBERS)
        self.assertEqual({number for call, number in missing if call == "load medium"}, NUMBERS | {16})

    def test_15_of_a_medium_fails(self) -> None:
        self.assertEqual(FORBIDDEN, {"check medium": (15,), "load medium": (15,)})
        tally = Tally()
        passed, failed = count_of_tests(tally)
        tally.met.update([("load", 15), ("load medium", 16)])
        self.assertEqual((forbidden_numbers(tally), count_of_tests(tally)), ([], (passed + 2, failed - 2)))
        tally.met["load medium", 15] += 1
        self.assertEqual(forbidden_numbers(tally), [("load medium", 15)])
        self.assertEqual(count_of_tests(tally), (passed + 1, failed - 1))

    def test_every_input_counts(self) -> None:
        passed, failed = count_of_tests(Tally())
        tally = Tally(failed=3)
        tally.inputs.update({"files": 5, "media": 2})
        self.assertEqual(count_of_tests(tally), (passed + 4, failed + 3))

    def test_summary(self) -> None:
        tally = Tally()
        tally.inputs.update({"media": 7, "files": 8})
        tally.met.update([("check medium", 2), ("dtmake", 16)])
        counts, *table = summary(tally, 1)
        self.assertTrue(counts.startswith("seed 1: 8 files, 7 media; "))
        self.assertEqual({len(line) for line in table}, {len(table[0])})
        self.assertLessEqual(len(table[0]), 120)
        self.assertEqual(table[1].index("1"), table[0].index("check medium") + len("check medium") - 1)


class TestCases(unittest.TestCase):
    """Rows of the table about the view: what they ask for, and which answer meets them."""

    def is_met(self, call: str, answer: str, printed: bytes) -> bool:
        return is_met(Case(call, "file", "", answer, ""), Prepared({}, printed))

    def test_places(self) -> None:
        self.assertTrue(self.is_met("find 0", "from 128 to 512", b"0\t0\t128\t512\n"))
        self.assertTrue(self.is_met("hand 128 C14a", "from 221 to 248", b"0\t0\t221\t248\n"))
        self.assertFalse(self.is_met("hand 128 C14a", "from 221 to 248", b"0\t0\t221\t247\n"))

    def test_texts(self) -> None:
        text = b"0\t0\t27\n" + b"KUNDE 4".ljust(27) + b"\n"
        self.assertTrue(self.is_met("view 0 part 1", "text KUNDE 4", text))
        self.assertFalse(self.is_met("view 0 part 1", "text KUNDE 5", text))
        self.assertFalse(self.is_met("view 0 part 1", "text KUNDE 4", b"0\t0\t7\nKUNDE 4\n"))
        blanks = b"0\t0\t27\n" + b" " * 27 + b"\n"
        self.assertTrue(self.is_met("view 0 C16", "text \\s", blanks))
        self.assertFalse(self.is_met("view 0 C16", "text \\s", blanks.replace(b"27", b"0")))

    def test_days(self) -> None:
        base = "days 1999-12-31 2000-01-01"
        file = changed(CASE_M.file.data, "50=311299, 95=01012000")
        lines = changed(CASE_M.listing.data, "35=311299, put 64 01012000")
        self.assertEqual(unchanged(base, as_named=True), file)
        self.assertEqual(unchanged(base, as_named=False), lines)
        self.assertEqual(unchanged(f"lines of {base}", as_named=True), lines)

    def test_keys(self) -> None:
        for base, changes in (("key LK 05 015", "5=LK, 172=05015"), ("key GK 54 999", "172=54999")):
            file = unchanged(base, as_named=True)
            self.assertEqual(file, changed(CASE_M.file.data, changes))
            self.assertEqual(unchanged(f"lines of {base}", as_named=False), file)
        lines = changed(CASE_M.listing.data, "2=LK, 110=05\\t015")
        self.assertEqual(unchanged("key LK 05 015", as_named=False), lines)

    def test_refusals(self) -> None:
        self.assertTrue(self.is_met("list 3", "16 0", b"16\t0\t0\n...\n"))
        self.assertTrue(self.is_met("find 1", "19 0", b"19\t0\t0\t0\n"))
        self.assertTrue(self.is_met("hand 127 C15", "19 0", b"19\t0\t0\t0\n"))
        self.assertTrue(self.is_met("view 0 part 2", "19 0", b"19\t0\t0\n\n"))
        for printed in (b"19\t0\n", b"19\t0\t0\n\n", b"19\t0\t0\t512\n", b"0\t0\t128\t512\n"):
            self.assertFalse(self.is_met("find 1", "19 0", printed), printed)

    def test_what_a_row_asks_for(self) -> None:
        asked = {
            "list 3": b"P 000002 000003 000000 000000 000000\n.....",
            "find 7": b"F 000002 000007 000000 000000 000000\n..",
            "hand 128 C15": b"H 000002 000128 000015 000000 000000\n..",
            "view 0 part 16": b"V 000002 000000 000000 000016 000000\n..",
        }
        for call, wire in asked.items():
            self.assertEqual(request_of(call, b"..").wire(), wire)
