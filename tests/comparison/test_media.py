"""Tests of media: what the model says to worked ones, what is tried, what is asked, and the rows of the table."""

import unittest
from bisect import bisect_right
from collections import Counter, defaultdict
from collections.abc import Callable, Iterator
from dataclasses import replace
from itertools import pairwise, product
from random import Random

from . import expected
from .case_m import CASE_M
from .cases import Case, answer_to, request_of, unchanged
from .damage_medium import (
    damaged_media, damaged_small_media, faults_of_file, faulty_media, figures_run_on, media_with_faulty_files,
)
from .document import Document
from .families import FIRST_FAMILIES, NEEDED_FAMILIES, family
from .inputs import Form, Input, MediumInput, as_medium, put_among, valid_input, valid_medium
from .lending import check_medium_request, exact, longer, none, requests_for, short_at
from .media import (
    cut_media, cut_medium, junk_of, media_at_top, media_with_junk, refusal_for_cents, valid_media, with_junk,
)
from .medium import Medium
from .requests import CHECK, CHECK_MEDIUM, LOAD_MEDIUM, Request
from .shapes import KINDS

OF_M = CASE_M.payments[0]
# Two payments of another kind of file, so that no column, no row and no sum is like another.
OTHER = Document(replace(CASE_M.header, kind=b"LB"), (
    replace(OF_M, bank_code=10000001, account=5, cents=7, key=4),
    replace(OF_M, bank_code=10000002, account=6, cents=8, key=5),
))
TWICE = Medium((CASE_M, CASE_M))
BOTH = Medium((CASE_M, OTHER))
NEEDED = (3,) * 4 + (2,) * 5
# What the load of both files leaves in columns that are a row longer than needed, and held 99 in every row.
ROWS_OF_BOTH = (
    b"30050020 10000001 10000002 99 \n", b"7654321 5 6 99 \n", b"12345 7 8 99 \n", b"128 640 896 99 \n",
    b"0 512 99 \n", b"1 2 99 \n", b"7654321 11 99 \n", b"30050020 20000003 99 \n", b"12345 15 99 \n",
)
# Each field of case M by its place, with the numbers that the requirements give for a strange byte and for a
# content that is wrong by itself.
FAULTS_OF_M = {
    0: {2}, 4: {2}, 5: {2}, 7: {3}, 15: {3, 11}, 23: {4}, 50: {3, 10}, 56: {2}, 60: {3}, 70: {3}, 80: {2},
    95: {3, 10}, 103: {2}, 127: {2},
    128: {3, 5}, 132: {2}, 133: {3}, 141: {3, 11}, 149: {3, 11}, 159: {3, 11}, 172: {3, 12}, 174: {3}, 177: {2},
    178: {2}, 189: {3, 11}, 197: {3, 11}, 207: {3, 11}, 218: {2}, 221: {4, 11}, 248: {2}, 256: {4, 11}, 283: {4},
    310: {2}, 311: {2}, 313: {3, 11}, 315: {3, 13}, 317: {4}, 344: {2},
    384: {3, 5}, 388: {2}, 389: {2}, 394: {3, 14}, 401: {2}, 414: {3, 14}, 431: {3, 14}, 448: {3, 14}, 461: {2},
}
# All numbers that generated media can reach; the model knows each of them.
NUMBERS = {1, 2, 3, 4, 5, 9, 10, 11, 12, 13, 14, 21, 22, 23}
KNOWN = (valid_media, media_at_top, cut_media, media_with_junk, faulty_media, media_with_faulty_files)
UNKNOWN = (damaged_small_media, damaged_media)
OFTEN = 20


def inputs_of(maker: Callable[[Random], Iterator[MediumInput]]) -> list[MediumInput]:
    return list(family(7, FIRST_FAMILIES.index(maker)))


class TestModel(unittest.TestCase):
    """What the model says to media that are worked by hand."""

    def test_case_m_twice(self) -> None:
        self.assertEqual(TWICE.data, CASE_M.file.data * 2)
        self.assertEqual((TWICE.file_starts, TWICE.file_ends, TWICE.starts), ([0, 512], [512, 1024], [128, 640]))
        self.assertEqual(expected.medium_checked(TWICE), b"0\t0\t2\t2\n")
        self.assertEqual(expected.checked_as_file(TWICE), b"15\t512\t0\t0\t0\t0\n")

    def test_a_file_is_a_medium_of_one(self) -> None:
        given = as_medium(valid_input("valid", Form.FILE, CASE_M))
        self.assertEqual(expected.medium_checked(given.base), b"0\t0\t1\t1\n")
        self.assertEqual(expected.checked_as_file(given.base), expected.checked(CASE_M))
        rows = b"30050020 \n7654321 \n12345 \n128 \n0 \n1 \n7654321 \n30050020 \n12345 \n"
        self.assertEqual(expected.medium_loaded(given.base, [(99,)] * 9), b"0\t0\t1\t1\n" + rows)

    def test_fields_count_from_the_start(self) -> None:
        places = [(field.name, field.place) for field in BOTH.written.fields]
        worked = (("A1", 0), ("E9", 461), ("A1", 512), ("A11b", 607), ("C1", 640), ("C1", 896), ("E4", 1162))
        self.assertLessEqual(set(worked), set(places))
        self.assertEqual([len(record) for record in BOTH.written.records()], [128, 256, 128, 128, 256, 256, 128])

    def test_loaded_columns(self) -> None:
        columns = [(99,) * (rows + 1) for rows in NEEDED]
        self.assertEqual(expected.medium_loaded(BOTH, columns), b"0\t0\t2\t3\n" + b"".join(ROWS_OF_BOTH))

    def test_no_row_is_written_where_a_column_is_too_short(self) -> None:
        for column in range(9):
            columns = [(99,) * (rows - (number == column)) for number, rows in enumerate(NEEDED)]
            as_before = b"".join(b"99 " * len(rows) + b"\n" for rows in columns)
            self.assertEqual(expected.medium_loaded(BOTH, columns), b"16\t0\t0\t0\n" + as_before)

    def test_cuts_of_case_m_twice(self) -> None:
        refused = {
            0: 0, 3: 0, 4: 4, 130: 128, 511: 461, 513: 512, 515: 512, 516: 516, 517: 517, 640: 640, 812: 795,
            896: 896, 1023: 973,
        }
        for length, place in refused.items():
            given = cut_medium("cut", TWICE, TWICE.data[:length])
            self.assertEqual((given.valid, given.refusal), (False, (1, place)))
        given = cut_medium("cut", TWICE, TWICE.data[:512])
        self.assertEqual((given.valid, given.base, given.data), (True, Medium((CASE_M,)), CASE_M.file.data))

    def test_junk_behind_case_m(self) -> None:
        refused = {b"\n": (1, 512), b"012": (1, 512), b"0128": (1, 516), b"XXXX": (2, 512), b"0128E": (2, 516)}
        refused |= {b"0128a": (2, 516), b" " * 128: (2, 512)}
        junk_of_m = {junk.data: junk for junk in junk_of(CASE_M)}
        header, payment, trailer = CASE_M.file.records()
        refused |= {payment: (2, 512), trailer: (2, 516), header: (1, 640), header + payment: (1, 896)}
        for data, refusal in refused.items():
            given = with_junk(Medium((CASE_M,)), junk_of_m[data], 1)
            self.assertEqual((given.data, given.refusal), (CASE_M.file.data + data, refusal))

    def test_junk_ahead_of_case_m(self) -> None:
        junk_of_m = {junk.data: junk for junk in junk_of(CASE_M)}
        header, payment, trailer = CASE_M.file.records()
        refused = {
            b"\n": (2, 512), b"0128": (2, 516), trailer: (2, 516), header: (5, 640), header + payment: (2, 900),
            header + trailer: (5, 640), payment + trailer: (2, 512),
        }
        for data, refusal in refused.items():
            given = with_junk(TWICE, junk_of_m[data], 1)
            self.assertEqual((given.data, given.refusal), (CASE_M.file.data + data + CASE_M.file.data, refusal))

    def test_cents(self) -> None:
        below = (replace(OF_M, cents=99_999_999_999),) * 100
        for ends, place in (((100,), 25807), ((99, 1), 25984)):
            ended = (replace(OF_M, cents=cents) for cents in ends)
            self.assertEqual(refusal_for_cents(replace(CASE_M, payments=(*below, *ended))), (9, place))

    def test_a_file_among_others(self) -> None:
        data = CASE_M.file.data[:95] + b"31032004" + CASE_M.file.data[103:]
        late = Input("late", Form.FILE, data, CASE_M, refusal=(23, 95))
        for before, behind, place in (((), (OTHER,), 95), ((CASE_M,), (), 607), ((CASE_M, OTHER), (OTHER,), 1375)):
            given = put_among(before, late, behind)
            self.assertEqual((given.refusal, given.valid), ((23, place), False))
            self.assertEqual(given.data[place:place + 8], b"31032004")
            self.assertEqual(given.base.documents, (*before, CASE_M, *behind))

    def test_faults_of_fields(self) -> None:
        faults = defaultdict(set)
        for file in faults_of_file(CASE_M):
            number, place = file.refusal
            faults[place].add(number)
        self.assertEqual(faults, FAULTS_OF_M)

    def test_figures_that_run_on(self) -> None:
        given = list(figures_run_on(TWICE))
        self.assertEqual([one.refusal for one in given], [(14, 906), (14, 926), (14, 943), (14, 960), (14, 906)])
        self.assertEqual(given[0].data[906:913], b"0000002")
        figures = (b"0000002", b"0" * 13, b"00000000015308642", b"00000000060100040", b"0000000024690")
        self.assertEqual(given[4].data[906:973], b"".join(figures))


class TestFamilies(unittest.TestCase):
    """What is tried as a medium."""

    @classmethod
    def setUpClass(cls) -> None:
        cls.inputs = {maker: inputs_of(maker) for maker in KNOWN + UNKNOWN}

    def known(self) -> list[MediumInput]:
        return [given for maker in KNOWN for given in self.inputs[maker]]

    def test_each_family_has_media_of_several_files(self) -> None:
        for maker, inputs in self.inputs.items():
            several = [given for given in inputs if len(given.base.documents) > 1]
            self.assertGreater(len(several), len(inputs) // 2, maker)
            self.assertLessEqual(max(len(given.data) for given in inputs), 65_536)

    def test_valid_media(self) -> None:
        media = [given.base for given in self.inputs[valid_media]]
        files = Counter(len(medium.documents) for medium in media)
        self.assertEqual(set(files), {1, 2, 3, 4, 5, 128})
        kinds = {pair for medium in media for pair in pairwise(document.header.kind for document in medium.documents)}
        self.assertEqual(kinds, set(product(KINDS, repeat=2)))
        self.assertEqual({given.valid for given in self.inputs[valid_media]}, {True})
        self.assertGreater(max(len(medium.payments) for medium in media), 250)

    def test_an_input_is_its_base_or_damaged(self) -> None:
        for given in self.known():
            self.assertEqual(given.refusal is None, given.valid, given.name)
        for maker in (valid_media, cut_media, media_with_junk, faulty_media):
            for given in self.inputs[maker]:
                self.assertEqual(given.data == given.base.data, given.valid, given.name)
        for maker in UNKNOWN:
            damaged = [given for given in self.inputs[maker] if not given.valid]
            differ = sum(given.data != given.base.data for given in damaged)
            self.assertGreater(differ, len(damaged) * 9 // 10)
            self.assertEqual({given.refusal for given in damaged}, {None})

    def test_the_top_is_reached_in_both_files(self) -> None:
        valid = [given.base.documents for given in self.inputs[media_at_top] if given.valid]
        self.assertIn([9_999_999_999_999] * 2, [[document.cents for document in documents] for documents in valid])
        refused = {given.refusal for given in self.inputs[media_at_top]}
        self.assertLessEqual({(9, 25807), (9, 25984), (9, 26112 + 25807), (9, 26112 + 25984)}, refused)

    def test_every_border_is_cut(self) -> None:
        refused, whole = defaultdict(set), set()
        for given in self.inputs[cut_media]:
            if given.valid:
                whole.add(given.data)
            else:
                refused[given.base].add(len(given.data))
        self.assertEqual(len(refused), 2)
        for medium, lengths in refused.items():
            borders = {start + field.place for start, document in zip(medium.file_starts, medium.documents)
                       for field in document.file.fields}
            self.assertLessEqual(borders - set(medium.file_ends), lengths)
            self.assertLessEqual({medium.data[:end] for end in medium.file_ends[:-1]}, whole)
            self.assertFalse(lengths & set(medium.file_ends))

    def test_junk_at_every_border(self) -> None:
        for medium in {given.base for given in self.inputs[media_with_junk]}:
            inputs = [given for given in self.inputs[media_with_junk] if given.base == medium]
            behind = Counter(given.name.partition(" behind ")[2] for given in inputs)
            self.assertEqual(len(behind), len(medium.documents) + 1)
            self.assertGreater(min(behind.values()), OFTEN)

    def test_every_field_of_every_file_has_its_fault(self) -> None:
        refused = defaultdict(set)
        for given in self.inputs[faulty_media]:
            refused[given.base].add(given.refusal[1])
        self.assertEqual(sorted(len(medium.documents) for medium in refused), [3, 4])
        for medium, places in refused.items():
            self.assertEqual(places, {field.place for field in medium.written.fields})

    def test_the_model_knows_every_number_in_each_file(self) -> None:
        known = defaultdict(set)
        for given in self.known():
            if given.refusal:
                number, place = given.refusal
                known[bisect_right(given.base.file_starts, place)].add(number)
        self.assertEqual([known[file] for file in (1, 2)], [NUMBERS, NUMBERS])
        self.assertLessEqual(NUMBERS - {9}, known[3])

    def test_further_families(self) -> None:
        counted = [{given.counted_as for given in family(7, NEEDED_FAMILIES + number)} for number in range(3)]
        self.assertEqual(counted, [{"files"}, {"listings"}, {"media"}])


class TestRequests(unittest.TestCase):
    """What is asked of media, and what the model says to it."""

    def test_every_fit_is_lent_for_a_valid_medium(self) -> None:
        requests = requests_for(Random(3), valid_medium("valid", BOTH))
        calls = [request.call for request in requests]
        self.assertEqual(calls, [CHECK_MEDIUM] + [LOAD_MEDIUM] * 12 + [CHECK])
        too_short = Counter()
        for request in requests[1:-1]:
            columns = tuple(number for number, rows in enumerate(request.numbers) if rows < NEEDED[number])
            too_short[columns] += 1
            self.assertEqual(request.expected, expected.medium_loaded(BOTH, request.columns))
            self.assertTrue(request.expected.startswith(b"16\t0\t0\t0\n" if columns else b"0\t0\t2\t3\n"))
        one_each = {(column,): 1 for column in range(9)}
        self.assertEqual(too_short, one_each | {(): 2, tuple(range(9)): 1})
        self.assertEqual(requests[0].expected, b"0\t0\t2\t3\n")
        self.assertEqual(requests[-1].expected, b"15\t512\t0\t0\t0\t0\n")

    def test_fits(self) -> None:
        rng = Random(1)
        self.assertEqual(exact(rng, NEEDED), NEEDED)
        self.assertEqual(none(rng, NEEDED), (0,) * 9)
        lent = [longer(rng, NEEDED) for _ in range(OFTEN)]
        self.assertTrue(all(rows >= needed for rooms in lent for rows, needed in zip(rooms, NEEDED)))
        self.assertGreater(len(set(lent)), 1)
        for column in range(9):
            short = [rows < needed for rows, needed in zip(short_at(column)(rng, NEEDED), NEEDED)]
            self.assertEqual(short, [number == column for number in range(9)])

    def test_damaged_media_are_checked_and_loaded(self) -> None:
        rng = Random(4)
        short_tables = 0
        for given in inputs_of(faulty_media):
            requests = [request for request in requests_for(rng, given) if request.call != CHECK]
            self.assertEqual([request.call for request in requests], [CHECK_MEDIUM, LOAD_MEDIUM])
            for request in requests:
                self.assertEqual(request.expected, expected.refused(request, *given.refusal))
            table = requests[1].numbers[4:]
            in_later_file = given.refusal[1] >= given.base.file_starts[1]
            short_tables += in_later_file and min(table) < len(given.base.documents)
        self.assertGreater(short_tables, OFTEN)

    def test_what_the_model_does_not_know(self) -> None:
        given = MediumInput("damaged", b"0128A", BOTH)
        requests = requests_for(Random(1), given)
        self.assertEqual({request.expected for request in requests}, {None})

    def test_files_are_asked_as_media(self) -> None:
        rng = Random(5)
        calls, files = Counter(), list(family(7, len(FIRST_FAMILIES)))
        for given in files:
            requests = requests_for(rng, given)
            calls.update(request.call for request in requests)
            self.assertEqual([request.call for request in requests].count(CHECK_MEDIUM), 1)
        self.assertIn(calls[LOAD_MEDIUM], range(len(files) // 8, len(files) // 2))

    def test_known_answers_of_files_are_those_of_media(self) -> None:
        late = Input("late", Form.FILE, b"..", CASE_M, refusal=(23, 95))
        valid = valid_input("valid", Form.FILE, CASE_M)
        for given, answer in ((late, b"23\t95\t0\t0\n"), (valid, b"0\t0\t1\t1\n")):
            asked = {request.call: request for request in requests_for(Random(5), given)}
            self.assertEqual(asked[CHECK_MEDIUM].expected, answer)
        load = asked[LOAD_MEDIUM]
        self.assertEqual(load.expected, expected.medium_loaded(Medium((CASE_M,)), load.columns))

    def test_on_the_wire(self) -> None:
        check = check_medium_request(MediumInput("damaged", b"0128A", BOTH)).wire()
        self.assertEqual(check, b"N 000005" + b" 999999" * 11 + b"\n0128A")
        load = Request(LOAD_MEDIUM, b"..", (2, 0, 0, 1, 0, 0, 1, 0, 0), b"00000000000000099" * 4).wire()
        head = b"O 000002 000002 000000 000000 000001 000000 000000 000001 000000 000000 000000 000000\n"
        self.assertEqual(load, head + b".." + b"00000000000000099" * 4)
        self.assertEqual(len(head), 86)


class TestCases(unittest.TestCase):
    """Rows of the table about media: what they ask for, and the answer that meets them."""

    def answer(self, call: str, base: str, answer: str) -> bytes:
        case = Case(call, base, "", answer, "")
        return answer_to(request_of(call, unchanged(base, as_named=True)), case)

    def test_bases(self) -> None:
        self.assertEqual(unchanged("file + file", as_named=True), CASE_M.file.data * 2)
        both = unchanged("payments 2 + key LB 05 015", as_named=True)
        self.assertEqual(both, unchanged("payments 2", as_named=True) + unchanged("key LB 05 015", as_named=True))

    def test_checks(self) -> None:
        self.assertEqual(self.answer("check medium", "file + file", "2 files, 2 payments"), b"0\t0\t2\t2\n")
        self.assertEqual(self.answer("check medium", "file", "1 file, 1 payment"), b"0\t0\t1\t1\n")
        self.assertEqual(self.answer("check medium", "file + file", "2 516"), b"2\t516\t0\t0\n")

    def test_loads(self) -> None:
        right = (
            b"0\t0\t2\t2\n30050020 30050020 \n7654321 7654321 \n12345 12345 \n128 640 \n"
            b"0 512 10000000000000010 \n1 1 10000000000000013 \n7654321 7654321 10000000000000016 \n"
            b"30050020 30050020 10000000000000019 \n12345 12345 10000000000000022 \n"
        )
        for answer in ("files 0 512", "starts 128 640, sums of C4 30050020 30050020", "C4 30050020 30050020"):
            self.assertEqual(self.answer("load medium 2 3", "file + file", answer), right)

    def test_a_load_is_held_to_what_its_row_says(self) -> None:
        right = self.answer("load medium 2 2", "file + file", "counts 1 1")
        for answer in ("starts 128 128", "starts 128", "files 0 512, counts 1 2", "sums of C5 12345 12345"):
            self.assertNotEqual(self.answer("load medium 2 2", "file + file", answer), right)
        for answer in ("names 1 2", "starts", "starts 128 640; files 0 512"):
            with self.assertRaises(ValueError):
                self.answer("load medium 2 2", "file + file", answer)

    def test_refused_loads(self) -> None:
        as_before = b"".join(b"%d \n" % (10 ** 16 + row) for row in range(9))
        for number, place in ((16, 0), (23, 607)):
            answer = self.answer("load medium 1 1", "file + file", f"{number} {place}")
            self.assertEqual(answer, b"%d\t%d\t0\t0\n" % (number, place) + as_before)

    def test_what_a_row_asks_for(self) -> None:
        asked = {
            "check medium": (0,) * 9, "load medium 1 0": (1,) * 4 + (0,) * 5, "load medium 1 0*8": (1,) + (0,) * 8,
            "load medium 0*3 1 0*5": (0, 0, 0, 1) + (0,) * 5,
        }
        for call, rows in asked.items():
            letter = b"N" if call == "check medium" else b"O"
            numbers = b"".join(b" %06d" % number for number in (2, *rows, 0, 0))
            lent = b"".join(b"%d" % (10 ** 16 + row) for row in range(sum(rows)))
            self.assertEqual(request_of(call, b"..").wire(), letter + numbers + b"\n.." + lent)
