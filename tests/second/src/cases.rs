//! The cases of the requirements on both sides of a line, and damage at every byte.

use crate::check::check;
use crate::refusal::verdict;
use crate::samples::{self, changed, m, payments_up_to, MARKS, PLACES_IN_M};
use crate::totals::Totals;

mod dates;

fn verdict_on(file: &[u8]) -> (u8, usize) {
    verdict(&check(file))
}

/// The verdict on M with bytes put over the old ones at a place.
fn m_with(place: usize, over: &[u8]) -> (u8, usize) {
    verdict_on(&changed(m(), place, over))
}

/// The verdict on a file of one payment with these marks.
fn marks(marks: &[&str]) -> (u8, usize) {
    let parts: Vec<samples::Part> = marks.iter().map(|&mark| (mark, "TEXT")).collect();
    verdict_on(&samples::file(&[samples::payment(1, &parts)]))
}

#[test]
fn m_is_accepted_with_its_figures() {
    let file = m();
    assert_eq!(file.len(), 512);
    assert_eq!(&file[128..132], b"0216");
    assert_eq!(&file[394..401], b"0000001");
    assert_eq!(&file[414..431], b"00000000007654321");
    assert_eq!(&file[431..448], b"00000000030050020");
    assert_eq!(&file[448..461], b"0000000012345");
    let totals = Totals {
        count: 1,
        accounts: 7_654_321,
        bank_codes: 30_050_020,
        cents: 12_345,
    };
    assert_eq!(check(&file), Ok(totals));
}

#[test]
fn files_cut_short_or_too_long() {
    assert_eq!(verdict_on(b""), (1, 0));
    assert_eq!(verdict_on(&m()[..130]), (1, 128));
    for more in [&b"X"[..], b"\n", b"\x1a", &m()] {
        assert_eq!(verdict_on(&[&m(), more].concat()), (15, 512));
    }
}

#[test]
fn a_field_that_is_not_whole_is_not_looked_at() {
    assert_eq!(verdict_on(b"xyz"), (1, 0));
    assert_eq!(verdict_on(b"wxyz"), (2, 0));
    assert_eq!(verdict_on(&[&m()[..344], b"X"].concat()), (1, 344));
    for (bytes, place) in [(128, 128), (384, 384), (383, 344), (511, 461)] {
        assert_eq!(verdict_on(&m()[..bytes]), (1, place));
    }
}

#[test]
fn every_cut_is_1_at_the_field_begun() {
    for pair in PLACES_IN_M.windows(2) {
        for bytes in pair[0]..pair[1] {
            assert_eq!(verdict_on(&m()[..bytes]), (1, pair[0]), "{bytes} bytes");
        }
    }
}

#[test]
fn every_byte_damaged_is_refused_at_its_field() {
    for pair in PLACES_IN_M.windows(2) {
        for place in pair[0]..pair[1] {
            let (number, at) = m_with(place, b"\x01");
            assert_eq!(at, pair[0], "byte {place}");
            assert!((2..=4).contains(&number), "byte {place}: {number}");
        }
    }
}

#[test]
fn the_first_field_after_a() {
    assert_eq!(m_with(128, b"0186"), (5, 128));
    let (header, rest) = (&m()[..128], &m()[384..]);
    assert_eq!(verdict_on(&[header, rest].concat()), (5, 128));
    assert_eq!(verdict_on(&[header, &m()[..]].concat()), (5, 128));
    for length in [b"0188", b"0215", b"0158", b"0651", b"0000", b"0128"] {
        assert_eq!(m_with(128, length), (5, 128));
    }
    for length in [b"    ", b"012X", b"01 7"] {
        assert_eq!(m_with(128, length), (3, 128));
    }
}

#[test]
fn the_first_field_after_a_payment() {
    assert_eq!(m_with(384, b"0129"), (5, 384));
    assert_eq!(m_with(384, b"012X"), (3, 384));
    assert_eq!(m_with(388, b"A"), (2, 388));
    assert_eq!(m_with(384, b"0187"), (2, 388));
}

#[test]
fn the_number_of_parts_agrees_with_the_length() {
    let mut file = changed(m(), 128, b"0187");
    file = changed(file, 313, b"01");
    assert_eq!(verdict_on(&file), (11, 313));
    for parts in [b"00", b"02", b"16", b"99"] {
        assert_eq!(m_with(313, parts), (11, 313));
    }
}

#[test]
fn marks_on_both_sides() {
    let file = changed(changed(m(), 128, b"0622"), 313, b"15");
    assert_eq!(verdict_on(&file), (13, 315));
    assert_eq!(marks(&["02"; 14]), (13, 727));
    assert_eq!(marks(&["02"; 13]), (0, 0));
    assert_eq!(marks(&["03", "03"]), (13, 315));
    assert_eq!(marks(&["03", "02"]), (13, 315));
    assert_eq!(marks(&["02", "01"]), (13, 344));
    assert_eq!(marks(&["01", "01"]), (13, 344));
    assert_eq!(marks(&["01", "03", "02"]), (13, 344));
    assert_eq!(marks(&["00"]), (13, 315));
    assert_eq!(marks(&["04"]), (13, 315));
    assert_eq!(marks(&["0 "]), (3, 315));
}

#[test]
fn fifteen_marks_on_both_sides() {
    let mut all = ["02"; 15];
    assert_eq!(marks(&all), (13, 315));
    all[0] = "01";
    assert_eq!(marks(&all), (13, 768));
    all[14] = "03";
    assert_eq!(marks(&all), (0, 0));
    all[13] = "03";
    assert_eq!(marks(&all), (13, 727));
}

#[test]
fn marks_texts_and_closing_blanks_stand_where_they_should() {
    for parts in 0..=15 {
        let payment = samples::payment(1, &samples::parts(parts));
        let file = samples::file(&[payment]);
        assert_eq!(verdict_on(&file), (0, 0), "{parts} parts");
        for mark in &MARKS[..parts] {
            let place = 128 + mark;
            assert_eq!(
                verdict_on(&changed(file.clone(), place + 1, b"x")),
                (3, place)
            );
            assert_eq!(
                verdict_on(&changed(file.clone(), place + 28, b"x")),
                (4, place + 2)
            );
        }
        let closing = parts
            .checked_sub(1)
            .map_or(128 + 187, |last| 128 + MARKS[last] + 29);
        let section_end = file.len() - 128 - 1;
        assert_eq!(verdict_on(&changed(file, section_end, b"X")), (2, closing));
    }
}

#[test]
fn closing_blanks_are_one_field() {
    assert_eq!(m_with(350, b"X"), (2, 344));
    assert_eq!(verdict_on(&m()[..350]), (1, 344));
    let file = samples::file(&[samples::payment(1, &samples::parts(3))]);
    assert_eq!(verdict_on(&changed(file, 383, b"X")), (2, 373));
}

#[test]
fn single_fields_on_both_sides() {
    let blank = " ".repeat(27);
    let cases = [
        (5, "LK", (12, 172)),
        (5, "GB", (0, 0)),
        (5, "KG", (2, 5)),
        (15, "00000001", (11, 15)),
        (23, blank.as_str(), (0, 0)),
        (80, "@", (2, 80)),
        (141, "9", (11, 141)),
        (141, "0", (11, 141)),
        (159, "0999999999990", (0, 0)),
        (159, "0000000000001", (11, 159)),
        (178, "1", (2, 178)),
        (178, "X", (2, 178)),
        (189, "9", (11, 189)),
        (221, "m", (4, 221)),
        (221, blank.as_str(), (11, 221)),
        (283, blank.as_str(), (0, 0)),
        (394, "0000002", (14, 394)),
    ];
    for (place, over, expected) in cases {
        assert_eq!(m_with(place, over.as_bytes()), expected, "{place}");
    }
}

#[test]
fn keys_and_supplements_on_both_sides() {
    let cases = [
        ("LK", "04000", (0, 0)),
        ("LK", "04888", (0, 0)),
        ("LK", "04005", (21, 174)),
        ("LK", "05005", (0, 0)),
        ("LB", "05006", (0, 0)),
        ("LK", "05015", (0, 0)),
        ("LK", "05888", (0, 0)),
        ("LK", "05051", (21, 174)),
        ("LB", "05008", (21, 174)),
        ("GK", "51888", (0, 0)),
        ("GK", "51889", (21, 174)),
        ("GK", "51015", (21, 174)),
        ("GB", "53888", (0, 0)),
        ("GK", "53001", (21, 174)),
        ("GK", "54999", (0, 0)),
        ("GK", "56000", (0, 0)),
        ("GK", "56888", (21, 174)),
        ("GK", "510X1", (3, 174)),
        ("GK", "5499 ", (3, 174)),
        ("GK", "55051", (12, 172)),
        ("GK", "05051", (12, 172)),
        ("GK", "5X051", (3, 172)),
    ];
    for (kind, key_and_supplement, expected) in cases {
        let file = changed(m(), 5, kind.as_bytes());
        let file = changed(file, 172, key_and_supplement.as_bytes());
        assert_eq!(verdict_on(&file), expected, "{kind} {key_and_supplement}");
    }
}

#[test]
fn a_supplement_follows_the_key_of_its_own_payment() {
    let two = samples::file(&[samples::payment(1, &[]), samples::payment(2, &[])]);
    let with_keys = |first, second| {
        let file = changed(two.clone(), 172, first);
        verdict_on(&changed(file, 172 + 256, second))
    };
    assert_eq!(with_keys(b"51000", b"54123"), (0, 0));
    assert_eq!(with_keys(b"54123", b"51000"), (0, 0));
    assert_eq!(with_keys(b"54123", b"51123"), (21, 430));
    assert_eq!(with_keys(b"51123", b"54123"), (21, 174));
}

#[test]
fn a_wrong_supplement_is_refused_once_it_is_whole() {
    let wrong = changed(m(), 172, b"51889");
    assert_eq!(verdict_on(&wrong[..176]), (1, 174));
    assert_eq!(verdict_on(&wrong[..177]), (21, 174));
    assert_eq!(verdict_on(&changed(wrong, 177, b"X")), (21, 174));
}

#[test]
fn the_figures_of_the_end_are_compared_not_taken() {
    assert_eq!(m_with(430, b"2"), (14, 414));
    assert_eq!(m_with(447, b"1"), (14, 431));
    assert_eq!(m_with(460, b"6"), (14, 448));
    assert_eq!(m_with(401, b"1"), (2, 401));
    let swapped = b"0000000003005002000000000007654321";
    assert_eq!(m_with(414, swapped), (14, 414));
}

#[test]
fn the_cent_total_on_both_sides_of_its_top() {
    let full = samples::file(&payments_up_to(99));
    assert_eq!(full.len(), 26_112);
    let cents = check(&full).map(|totals| totals.cents);
    assert_eq!(cents, Ok(9_999_999_999_999));
    let over = samples::file(&payments_up_to(100));
    assert_eq!(verdict_on(&over), (9, 25_807));
    let mut further = payments_up_to(99);
    further.push(samples::payment(1, &[]));
    assert_eq!(verdict_on(&samples::file(&further)), (9, 25_984));
}
