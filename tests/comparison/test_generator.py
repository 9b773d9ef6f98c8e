"""Tests of the generator: the model, marks and supplements, the same inputs for a seed, what is asked for."""

import unittest
from collections import Counter
from collections.abc import Iterable
from dataclasses import replace
from itertools import islice, product
from random import Random

from . import expected
from .case_m import CASE_M
from .contents import contents_for
from .document import Document
from .families import FIRST_FAMILIES, family, valid_shapes
from .inputs import Form, Input, valid_input
from .layout import MOST_PARTS, TEXT_SIGNS, length_of_payment, payment_fields, text_name, width_of
from .lending import requests_for
from .requests import (
    CHECK, COMPOSE, FIND, HAND, HIGHEST, LIST, LOAD, NAME_OF_CALL, TEXT_OF_FIELD, VIEW, Request, asked_text,
)
from .shapes import KEYS, KINDS, MARK_ORDERS, SUPPLEMENTS, all_keys, document_of
from .specials import wrong_supplements
from .viewing import find_request, hand_request, view_request

# The listing that the requirements print, and the file that it stands for.
LISTING_OF_M = (
    b"A|GK|20050010|00000000|MUSTER GMBH|150304|0001234567|0000000000|\n"
    b"C|00000000|30050020|0007654321|0000000000000|51|000|20050010|0001234567|00000012345"
    b"|MEIER KG|MUSTER GMBH|RECHNUNG 17|02|KUNDE 4\n"
).replace(b"|", b"\t")
FILE_OF_M = b"".join((
    b"0128AGK", b"20050010", b"00000000", b"MUSTER GMBH".ljust(27), b"150304    ",
    b"0001234567", b"0000000000", b"1".rjust(48),
    b"0216C", b"00000000", b"30050020", b"0007654321", b"0000000000000", b"51000 ", b"00000000000",
    b"20050010", b"0001234567", b"00000012345   ", b"MEIER KG".ljust(35),
    b"MUSTER GMBH".ljust(27), b"RECHNUNG 17".ljust(27), b"1  01", b"02", b"KUNDE 4".ljust(67),
    b"0128E     ", b"0000001", b"0000000000000", b"00000000007654321", b"00000000030050020",
    b"0000000012345".ljust(64),
))

# Parts of a payment, C1, and the bytes of its sections.
LENGTHS_AND_WIDTHS = (
    (0, 187, 256), (2, 245, 256), (3, 274, 384), (6, 361, 384), (7, 390, 512), (10, 477, 512), (11, 506, 640),
    (14, 593, 640), (15, 622, 768),
)
# Where C14a, C15 and C16 and the marks of the parts stand in a payment; a mark's text is two bytes behind it.
PLACES_OF_NAMED = {"C14a": 93, "C15": 128, "C16": 155}
PLACES_OF_MARKS = (187, 216, 256, 285, 314, 343, 384, 413, 442, 471, 512, 541, 570, 599, 640)
# The supplements that the requirements name for each key but 54, which takes all.
NAMED_FOR_KEY = {
    "04": "000 888", "51": "000 888", "53": "000 888", "05": "000 888 005 006 015", "56": "000",
}
# Each kind of request about the view is made at least so often for the valid shapes.
OFTEN = 20
FILE_INPUT = valid_input("valid", Form.FILE, CASE_M)


class TestModel(unittest.TestCase):
    """The model against what the requirements print."""

    def test_file_of_case_m(self) -> None:
        self.assertEqual(CASE_M.file.data, FILE_OF_M)
        self.assertEqual(len(FILE_OF_M), 512)

    def test_listing_of_case_m(self) -> None:
        self.assertEqual(CASE_M.listing.data, LISTING_OF_M)

    def test_places_in_case_m(self) -> None:
        places = {field.name: field.place for field in CASE_M.file.fields}
        printed = {
            "A7": 50, "A11b": 95, "C1": 128, "C4": 141, "C7a": 172, "C14a": 221, "C18": 313, "mark 1": 315,
            "E4": 394,
        }
        self.assertEqual({name: places[name] for name in printed}, printed)

    def test_answers_for_case_m(self) -> None:
        columns = [(1, 2), (3, 4), (5, 6), (7, 8)]
        rows = b"30050020 2 \n7654321 4 \n12345 6 \n128 8 \n"
        self.assertEqual(expected.loaded(CASE_M, columns), b"0\t0\t1\t7654321\t30050020\t12345\n" + rows)
        too_short = [(1,), (2,), (), (3,)]
        self.assertEqual(expected.loaded(CASE_M, too_short), b"16\t0\t0\t0\t0\t0\n1 \n2 \n\n3 \n")

    def test_view_of_case_m(self) -> None:
        not_there = b"19\t0\t0\t0\n"
        self.assertEqual(expected.found(CASE_M, 0), b"0\t0\t128\t512\n")
        for n in (1, 2, HIGHEST):
            self.assertEqual(expected.found(CASE_M, n), not_there)
        texts = {
            "C14a": (221, b"MEIER KG"), "C15": (256, b"MUSTER GMBH"), "C16": (283, b"RECHNUNG 17"),
            "text 1": (317, b"KUNDE 4"),
        }
        for name, (place, text) in texts.items():
            self.assertEqual(expected.handed(CASE_M, 128, name), b"0\t0\t%d\t%d\n" % (place, place + 27))
            self.assertEqual(expected.viewed(CASE_M, 0, name), b"0\t0\t27\n%b\n" % text.ljust(27))
            self.assertEqual(expected.viewed(CASE_M, 1, name), b"19\t0\t0\n\n")
            for start in (0, 127, 129, 256, 384, 512, 513, HIGHEST):
                self.assertEqual(expected.handed(CASE_M, start, name), not_there)
        for part in (0, 2, 15, 16, HIGHEST):
            self.assertEqual(expected.handed(CASE_M, 128, text_name(part)), not_there)
            self.assertEqual(expected.viewed(CASE_M, 0, text_name(part)), b"19\t0\t0\n\n")

    def test_refused_requests(self) -> None:
        rows = b"".join(b"%017d" % row for row in (7, 8, 9, 5))
        answers = {
            Request(CHECK, b""): b"21\t174\t0\t0\t0\t0\n",
            Request(LOAD, b"", (2, 0, 1, 1), rows): b"21\t174\t0\t0\t0\t0\n7 8 \n\n9 \n5 \n",
            Request(LIST, b"", (3,), b"\n\n."): b"21\t174\t0\n\n\n.\n",
            Request(COMPOSE, b"", (2,), b".."): b"21\t174\t0\n..\n",
            Request(FIND, b""): b"21\t174\t0\t0\n",
            Request(HAND, b""): b"21\t174\t0\t0\n",
            Request(VIEW, b""): b"21\t174\t0\n\n",
        }
        for request, answer in answers.items():
            self.assertEqual(expected.refused(request, 21, 174), answer)

    def test_places_of_texts(self) -> None:
        places = PLACES_OF_NAMED | {text_name(part): mark + 2 for part, mark in enumerate(PLACES_OF_MARKS, 1)}
        document = document_of(Random(3), b"GK", list(MARK_ORDERS))
        for number, (payment, start) in enumerate(zip(document.payments, document.starts, strict=True)):
            for name, place in islice(places.items(), 3 + len(payment.parts)):
                borders = (start + place, start + place + 27)
                text = document.file.data[slice(*borders)]
                self.assertEqual(expected.handed(document, start, name), b"0\t0\t%d\t%d\n" % borders)
                self.assertEqual(expected.viewed(document, number, name), b"0\t0\t27\n%b\n" % text)
            beyond = text_name(len(payment.parts) + 1)
            self.assertEqual(expected.handed(document, start, beyond), b"19\t0\t0\t0\n")

    def test_fields_that_are_asked_for(self) -> None:
        self.assertEqual([asked_text(field, 7) for field in (14, 15, 16)], ["C14a", "C15", "C16"])
        self.assertEqual({asked_text(field, 7) for field in (0, 13, 17, 114, HIGHEST)}, {"text 7"})

    def test_lengths_of_payments(self) -> None:
        for parts, length, width in LENGTHS_AND_WIDTHS:
            self.assertEqual(length_of_payment(parts), length)
            self.assertEqual(width_of(payment_fields(parts)), width)

    def test_text_signs(self) -> None:
        self.assertEqual(len(set(TEXT_SIGNS)), 50)


class TestShapes(unittest.TestCase):
    """The orders of marks against the rule as the requirements print it."""

    def test_number_of_orders(self) -> None:
        self.assertEqual(len(set(MARK_ORDERS)), 56)
        self.assertEqual(max(map(len, MARK_ORDERS)), 15)

    def test_no_order_descends(self) -> None:
        for marks in MARK_ORDERS:
            self.assertEqual(sorted(marks), list(marks))
            self.assertLessEqual(marks.count(1), 1)
            self.assertLessEqual(marks.count(2), 13)
            self.assertLessEqual(marks.count(3), 1)


def takes(key: str, supplement: str) -> bool:
    """Whether the requirements let them go together."""
    return key == "54" or supplement in NAMED_FOR_KEY[key].split()


def tried(inputs: Iterable[Input]) -> Counter[tuple[Form, str, str, str]]:
    """The form of each input of one payment, and A3, C7a and C7b as they stand in it."""
    return Counter((given.form, *kind_key_and_supplement(given)) for given in inputs)


def kind_key_and_supplement(given: Input) -> tuple[str, str, str]:
    data = given.data.decode()
    if given.form is Form.FILE:
        return data[5:7], data[172:174], data[174:177]
    header, payment = (line.split("\t") for line in data.splitlines())
    return header[1], payment[5], payment[6]


class TestSupplements(unittest.TestCase):
    """Keys and their supplements against the table as the requirements print it."""

    def test_every_key_has_its_supplements(self) -> None:
        self.assertEqual(sorted(SUPPLEMENTS), sorted(key for keys in KEYS.values() for key in keys))
        for key, taken in SUPPLEMENTS.items():
            wanted = [number for number in range(1000) if takes(f"{key:02}", f"{number:03}")]
            self.assertEqual(sorted(taken), wanted)

    def test_payments_have_supplements_of_their_keys(self) -> None:
        payments = (payment for kind in KINDS for payment in document_of(Random(2), kind, [()] * 400).payments)
        drawn = {(f"{payment.key:02}", f"{payment.supplement:03}") for payment in payments}
        free = {pair for pair in drawn if pair[0] == "54"}
        named = {(key, supplement) for key, words in NAMED_FOR_KEY.items() for supplement in words.split()}
        self.assertEqual(drawn - free, named)
        self.assertGreater(len(free), 100)

    def test_every_key_is_tried_with_every_supplement(self) -> None:
        valid = tried(valid_input("valid", form, document) for document in all_keys(Random(1)) for form in Form)
        wrong = tried(family(7, FIRST_FAMILIES.index(wrong_supplements)))
        self.assertTrue(all(takes(key, supplement) for _, _, key, supplement in valid))
        self.assertFalse(any(takes(key, supplement) for _, _, key, supplement in wrong))
        beside = {number + near for number in (5, 6, 15, 888) for near in (-1, 0, 1)}
        supplements = [f"{number:03}" for number in {0, 1, 51, 999} | beside]
        keys = {"GK": "51 53 54 56", "LK": "04 05", "GB": "51 53 54 56", "LB": "04 05"}
        wanted = {pair for kind in keys for pair in product(Form, [kind], keys[kind].split(), supplements)}
        self.assertEqual(wanted - valid.keys() - wrong.keys(), set())
        self.assertEqual(set((valid + wrong).values()), {1})

    def test_wrong_ones_are_refused_where_they_stand(self) -> None:
        for given in wrong_supplements(Random(3)):
            is_file = given.form is Form.FILE
            place = 174 if is_file else given.data.index(b"\n") + 49
            for request in requests_for(Random(5), given):
                known = expected.refused(request, 21, place) if (request.call != COMPOSE) == is_file else None
                self.assertEqual(request.expected, known)

    def test_they_are_put_into_payments(self) -> None:
        (field,) = (field for field in CASE_M.file.fields if field.name == "C7b")
        contents = {content for _, content in contents_for(field, b"777", CASE_M.header)}
        self.assertLessEqual({b"005", b"006", b"015", b"888", b"051"}, contents)


class TestFamilies(unittest.TestCase):
    """Families are the same for a seed and others for another one."""

    def test_same_for_a_seed(self) -> None:
        for number in range(len(FIRST_FAMILIES) + 4):
            self.assertEqual(list(islice(family(7, number), 300)), list(islice(family(7, number), 300)))

    def test_other_for_another_seed(self) -> None:
        number = len(FIRST_FAMILIES)
        self.assertNotEqual(list(family(7, number)), list(family(8, number)))

    def test_same_requests_for_a_seed(self) -> None:
        for number in (0, 1):
            for given in islice(family(7, len(FIRST_FAMILIES) + number), 50):
                self.assertEqual(requests_for(Random(1), given), requests_for(Random(1), given))

    def test_both_forms(self) -> None:
        forms = [{given.form for given in family(7, len(FIRST_FAMILIES) + number)} for number in (0, 1)]
        self.assertEqual(forms, [{Form.FILE}, {Form.LISTING}])


CALLS_OF_VIEW = (FIND, HAND, VIEW)
# What may be asked for. Where two of them are the same, the dictionaries below name the one that comes later.
NUMBERS = (
    "the first", "the last", "another", "the count", "the count and one", "0 in 16 bits", "the highest",
)
STARTS = (
    "the first", "the last", "another", "a byte before", "a byte behind", "a later section", "inside",
    "of A", "of E", "the end", "beyond the end", "a start in 16 bits", "the highest",
)
PARTS = ("0", "the first", "the last", "another", "one more", "15", "16", "1 in 16 bits", "the highest")


def kind_of_number(document: Document, n: int) -> str:
    count = len(document.payments)
    kinds = {
        count - 1: "the last", 0: "the first", count: "the count", count + 1: "the count and one",
        65_536: "0 in 16 bits", HIGHEST: "the highest",
    }
    return kinds.get(n, "another")


def kind_of_start(document: Document, start: int) -> str:
    starts, end = document.starts, len(document.file.data)
    kinds = {place - 1: "a byte before" for place in starts}
    kinds |= {place + 1: "a byte behind" for place in starts} | dict.fromkeys(starts, "another")
    kinds |= {starts[-1]: "the last", starts[0]: "the first"}
    kinds |= {place + 65_536: "a start in 16 bits" for place in starts}
    kinds |= {0: "of A", end - 128: "of E", end: "the end", HIGHEST: "the highest"}
    if start not in kinds and start < end:
        return "inside" if start % 128 else "a later section"
    return kinds.get(start, "beyond the end")


def kind_of_part(most: int, part: int) -> str:
    kinds = {15: "15", 16: "16", 1: "the first", most: "the last", most + 1: "one more", 0: "0"}
    return (kinds | {65_537: "1 in 16 bits", HIGHEST: "the highest"}).get(part, "another")


def kinds_of(document: Document, request: Request) -> list[str]:
    """What a request about the view asks for; a text only where its payment is there."""
    which, field, part, _ = request.numbers
    call = NAME_OF_CALL[request.call]
    kind_of = kind_of_start if request.call == HAND else kind_of_number
    numbers = document.starts if request.call == HAND else range(len(document.payments))
    kinds = [f"{call}: {kind_of(document, which)}"]
    if request.call != FIND and which in numbers:
        most = len(document.payments[numbers.index(which)].parts)
        kinds.append(f"{call} {TEXT_OF_FIELD.get(field) or f'part: {kind_of_part(most, part)}'}")
    return kinds


def view_requests_for(given: Input) -> list[Request]:
    return [request for request in requests_for(Random(5), given) if request.call in CALLS_OF_VIEW]


class TestViewRequests(unittest.TestCase):
    """What is asked about the view: all that is there, and all that is not."""

    def test_every_kind_is_asked_for_often(self) -> None:
        rng = Random(4)
        files = [given for given in valid_shapes(rng) if given.form is Form.FILE]
        asked = ((given.base, request) for given in files for request in requests_for(rng, given))
        of_view = ((base, request) for base, request in asked if request.call in CALLS_OF_VIEW)
        met = Counter(kind for base, request in of_view for kind in kinds_of(base, request))
        wanted = {f"{call}: {kind}" for call in ("find", "view") for kind in NUMBERS}
        wanted |= {f"hand: {kind}" for kind in STARTS}
        wanted |= {f"{call} {text}" for call in ("hand", "view") for text in TEXT_OF_FIELD.values()}
        wanted |= {f"{call} part: {kind}" for call in ("hand", "view") for kind in PARTS}
        self.assertEqual(set(met), wanted)
        self.assertGreaterEqual(min(met.values()), OFTEN)

    def test_every_text_is_handed_out(self) -> None:
        rng = Random(9)
        files = [given for given in valid_shapes(rng) if given.form is Form.FILE]
        asked = (request for given in files for request in requests_for(rng, given))
        handed = {
            (request.call, asked_text(*request.numbers[1:3])) for request in asked
            if request.call in (HAND, VIEW) and (request.expected or b"").startswith(b"0\t0\t")
        }
        texts = [*TEXT_OF_FIELD.values(), *(text_name(part) for part in range(1, MOST_PARTS + 1))]
        self.assertEqual(handed, {(call, text) for call in (HAND, VIEW) for text in texts})

    def test_the_model_answers_for_valid_files(self) -> None:
        given = valid_input("valid", Form.FILE, document_of(Random(6), b"LB", list(MARK_ORDERS[:9])))
        requests = view_requests_for(given)
        self.assertEqual({request.call for request in requests}, set(CALLS_OF_VIEW))
        answers = [request.expected or b"" for request in requests]
        accepted = sum(answer.startswith(b"0\t0\t") for answer in answers)
        refused = sum(answer.startswith(b"19\t0\t0") for answer in answers)
        self.assertEqual(accepted + refused, len(answers))
        self.assertGreater(min(accepted, refused), len(answers) // 5)

    def test_damaged_files_are_asked_once_by_each_call(self) -> None:
        requests = view_requests_for(replace(FILE_INPUT, valid=False))
        self.assertEqual(tuple(request.call for request in requests), CALLS_OF_VIEW)
        self.assertEqual({request.expected for request in requests}, {None})

    def test_listings_are_asked_now_and_then(self) -> None:
        rng = Random(8)
        listings = islice(family(7, len(FIRST_FAMILIES) + 1), 400)
        calls = Counter(request.call for given in listings for request in requests_for(rng, given))
        self.assertEqual({calls[call] for call in CALLS_OF_VIEW}, {calls[CHECK]})
        self.assertIn(calls[CHECK], range(20, 100))

    def test_numbers_on_the_wire(self) -> None:
        given = replace(FILE_INPUT, data=b"0128A")
        wires = {
            find_request(given, 7): b"F 000005 000007 999999 999999 999999\n0128A",
            hand_request(given, 128, (14, 0)): b"H 000005 000128 000014 000000 999999\n0128A",
            view_request(given, HIGHEST, (0, 16)): b"V 000005 999999 000000 000016 999999\n0128A",
        }
        for request, wire in wires.items():
            self.assertEqual(request.wire(), wire)
