//! The two dates of A: what is wrong with one is told in a file and in a listing alike, at the place it has there.

use super::{m_with, verdict_on};
use crate::compose::compose;
use crate::refusal::verdict;
use crate::samples::{changed, days_around, m, A_LINE, C_LINE};

/// What is said to M's file and what to M's listing.
type Verdicts = [(u8, usize); 2];

const ACCEPTED: Verdicts = [(0, 0); 2];

fn at_a7(number: u8) -> Verdicts {
    [(number, 50), (number, 35)]
}

fn at_a11b(number: u8) -> Verdicts {
    [(number, 95), (number, 64)]
}

/// The verdicts on M with these two dates.
fn dated(created: &str, executed: &str) -> Verdicts {
    let file = changed(m(), 50, created.as_bytes());
    let file = changed(file, 95, executed.as_bytes());
    [verdict_on(&file), listing_dated(created, executed)]
}

/// The verdict on M's listing with these two dates.
fn listing_dated(created: &str, executed: &str) -> (u8, usize) {
    let line = A_LINE.replace("150304", created);
    let line = line.replace("\t\n", &format!("\t{executed}\n"));
    verdict(&compose((line + C_LINE).as_bytes(), &mut [0; 512]))
}

/// M, executed on any of these days, is given this.
fn all_are(dates: &[&str], expected: Verdicts) {
    for date in dates {
        assert_eq!(dated("150304", date), expected, "{date}");
    }
}

#[test]
fn an_execution_on_no_day_is_10() {
    let dates = [
        "00000000", "15030000", "29021900", "29022100", "29022003", "00032004", "32032004",
        "31042004", "15002004", "15132004", "99999999",
    ];
    all_are(&dates, at_a11b(10));
}

#[test]
fn an_execution_before_the_creation_is_22() {
    let dates = [
        "14032004", "29022004", "15032003", "31122003", "29022000", "15031904", "01010001",
    ];
    all_are(&dates, at_a11b(22));
}

#[test]
fn an_execution_within_15_days_is_in_order() {
    all_are(&["15032004", "16032004", "29032004", "30032004"], ACCEPTED);
}

#[test]
fn an_execution_after_15_days_is_23() {
    let dates = [
        "31032004", "01042004", "14042004", "14032005", "15032005", "29022008", "31129999",
    ];
    all_are(&dates, at_a11b(23));
}

#[test]
fn dates_across_months_and_years() {
    let cases = [
        ("311299", "30121999", at_a11b(22)),
        ("311299", "01012000", ACCEPTED),
        ("311299", "15012000", ACCEPTED),
        ("311299", "16012000", at_a11b(23)),
        ("311279", "31121979", at_a11b(22)),
        ("311279", "15012080", ACCEPTED),
        ("311279", "16012080", at_a11b(23)),
        ("010180", "31121979", at_a11b(22)),
        ("010180", "01011980", ACCEPTED),
        ("010180", "01012080", at_a11b(23)),
        ("280204", "29022004", ACCEPTED),
        ("140204", "29022004", ACCEPTED),
        ("140204", "01032004", at_a11b(23)),
        ("140203", "29022003", at_a11b(10)),
        ("140203", "01032003", ACCEPTED),
        ("140203", "02032003", at_a11b(23)),
        ("010300", "29022000", at_a11b(22)),
    ];
    for (created, executed, expected) in cases {
        assert_eq!(dated(created, executed), expected, "{created} {executed}");
    }
}

#[test]
fn a_creation_on_no_day_is_10_whatever_the_execution() {
    for created in ["290203", "000000", "310404", "151304", "999999"] {
        for executed in ["15032004", "14032004", "31032004", "29021900", "1503 004"] {
            let answer = dated(created, executed);
            assert_eq!(answer, at_a7(10), "{created} {executed}");
        }
    }
    // Also where no execution is dated.
    let absent = [m_with(50, b"290203"), listing_dated("290203", "")];
    assert_eq!(absent, at_a7(10));
    assert_eq!(dated("29020X", "14032004"), at_a7(3));
}

#[test]
fn the_bytes_of_a_date_come_before_its_day() {
    for date in ["1503 004", " 5032004", "   32004", "3103200X", "X4032004"] {
        assert_eq!(dated("150304", date), at_a11b(3), "{date}");
    }
    // In a listing a blank at the end is out of form.
    for (date, in_file) in [("1503200 ", (3, 95)), ("        ", (0, 0))] {
        assert_eq!(dated("150304", date), [in_file, (17, 0)], "{date:?}");
    }
    assert_eq!(listing_dated("150304", ""), (0, 0));
}

#[test]
fn a_date_out_of_its_span_is_refused_once_it_is_whole() {
    for (date, number) in [(b"14032004", 22), (b"31032004", 23)] {
        let file = changed(m(), 95, date);
        assert_eq!(verdict_on(&file[..102]), (1, 95));
        assert_eq!(verdict_on(&file[..103]), (number, 95));
        assert_eq!(verdict_on(&changed(file, 103, b"X")), (number, 95));
    }
}

#[test]
fn every_day_around_a_creation_is_told_as_stepping_tells() {
    let creations = [
        ("150304", 15_032_004, 2003..=2005),
        ("311299", 31_121_999, 1998..=2001),
        ("010180", 1_011_980, 1979..=1981),
        ("311279", 31_122_079, 2078..=2081),
    ];
    for (created, day, years) in creations {
        for (executed, steps) in days_around(day, years) {
            let expected = match steps {
                None => at_a11b(22),
                Some(0..=15) => ACCEPTED,
                Some(_) => at_a11b(23),
            };
            let answer = dated(created, &format!("{executed:08}"));
            assert_eq!(answer, expected, "{created} {executed:08}");
        }
    }
}
