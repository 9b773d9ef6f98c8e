//! The verdicts on media: what may follow an E, places from the medium's start, and rules that begin anew at each A.

use super::*;
use crate::refusal::verdict;
use crate::samples::{self, changed, m, payments_up_to, PLACES_IN_M};
use crate::totals::Totals;

mod damage;
mod loads;

fn verdict_on(medium: &[u8]) -> (u8, usize) {
    verdict(&check(medium))
}

/// The verdict on M and what follows it.
fn behind_m(more: &[u8]) -> (u8, usize) {
    verdict_on(&[&m(), more].concat())
}

fn contents(files: u64, payments: u64) -> Result<Contents, Refusal> {
    Ok(Contents { files, payments })
}

#[test]
fn files_follow_one_another_without_a_gap() {
    assert_eq!(check(&m()), contents(1, 1));
    assert_eq!(check(&m().repeat(2)), contents(2, 2));
    assert_eq!(check(&m().repeat(100)), contents(100, 100));
    let of_three = samples::file(&vec![samples::payment(1, &[]); 3]);
    assert_eq!(check(&[of_three, m()].concat()), contents(2, 4));
}

#[test]
fn a_medium_may_hold_more_payments_than_a_file() {
    let full = || Reading {
        start: 0,
        header: Vec::new(),
        payments: Vec::new(),
        totals: Totals {
            count: 9_999_999,
            ..Totals::default()
        },
        rest: Stretch::default(),
    };
    let all = Contents::of(&[full(), full()]);
    assert_eq!((all.files, all.payments), (2, 19_999_998));
}

#[test]
fn an_empty_medium_lacks_its_first_field() {
    assert_eq!(verdict_on(b""), (1, 0));
    assert_eq!(verdict_on(b"012"), (1, 0));
    assert_eq!(verdict_on(b"0128"), (1, 4));
    assert_eq!(verdict_on(b"XXXX"), (2, 0));
}

#[test]
fn what_follows_an_end_is_the_next_a1() {
    for more in [&b"0"[..], b"01", b"012", b"\n", b"\x1a", b"X", b"   "] {
        assert_eq!(behind_m(more), (1, 512), "{more:?}");
    }
    for more in [
        &b"XXXX"[..],
        b"012X",
        b"0127",
        b"    ",
        b"\n012",
        b"\n\n\n\n",
    ] {
        assert_eq!(behind_m(more), (2, 512), "{more:?}");
    }
    assert_eq!(behind_m(b"0128"), (1, 516));
    assert_eq!(behind_m(b"0128E"), (2, 516));
    assert_eq!(behind_m(b"0128C"), (2, 516));
    assert_eq!(behind_m(b"0128A"), (1, 517));
}

#[test]
fn only_a_whole_file_follows_an_end() {
    let file = m();
    let (header, payment, end) = (&file[..128], &file[128..384], &file[384..]);
    assert_eq!(behind_m(payment), (2, 512));
    assert_eq!(behind_m(end), (2, 516));
    assert_eq!(behind_m(header), (1, 640));
    assert_eq!(behind_m(&[header, end].concat()), (5, 640));
    assert_eq!(behind_m(&[header, header].concat()), (5, 640));
    assert_eq!(behind_m(&[header, payment].concat()), (1, 896));
    assert_eq!(behind_m(&[header, payment, header].concat()), (2, 900));
    assert_eq!(behind_m(&file[..300]), (1, 795));
    // A gap is no file.
    assert_eq!(behind_m(&[b"\n", &file[..]].concat()), (2, 512));
    assert_eq!(behind_m(&[b' '; 128]), (2, 512));
}

#[test]
fn a_single_file_is_told_as_by_its_own_check() {
    let single = |bytes: &[u8]| verdict(&check::check(bytes));
    for place in 0..512 {
        let file = changed(m(), place, b"\x01");
        assert_eq!(verdict_on(&file), single(&file), "byte {place}");
        assert_eq!(verdict_on(&m()[..place]), single(&m()[..place]));
    }
}

#[test]
fn every_cut_of_a_later_file_is_1_at_the_field_begun() {
    let medium = m().repeat(3);
    for start in [512, 1024] {
        assert_eq!(verdict_on(&medium[..start]), (0, 0));
        for pair in PLACES_IN_M.windows(2) {
            for bytes in pair[0].max(1)..pair[1] {
                let answer = verdict_on(&medium[..start + bytes]);
                assert_eq!(answer, (1, start + pair[0]), "{bytes} bytes");
            }
        }
    }
}

#[test]
fn every_byte_damaged_is_refused_at_its_field_of_its_file() {
    for start in [0, 512, 1024] {
        for pair in PLACES_IN_M.windows(2) {
            for place in pair[0]..pair[1] {
                let medium = changed(m().repeat(3), start + place, b"\x01");
                let (number, at) = verdict_on(&medium);
                assert_eq!(at, start + pair[0], "byte {place} from {start}");
                assert!((2..=4).contains(&number), "byte {place}: {number}");
            }
        }
    }
}

#[test]
fn the_first_file_that_is_damaged_is_refused() {
    let damage = |places: &[usize]| {
        let damaged = |medium, &place: &usize| changed(medium, place, b"x");
        verdict_on(&places.iter().fold(m().repeat(3), damaged))
    };
    assert_eq!(damage(&[1245, 733, 221]), (4, 221));
    assert_eq!(damage(&[1245, 733]), (4, 733));
    assert_eq!(damage(&[1245]), (4, 1245));
}

/// The verdict on two files like M, each with its kind and its key and supplement.
fn with_keys(files: [(&str, &str); 2]) -> (u8, usize) {
    let files = files.map(|(kind, key_and_supplement)| {
        let file = changed(m(), 5, kind.as_bytes());
        changed(file, 172, key_and_supplement.as_bytes())
    });
    verdict_on(&files.concat())
}

#[test]
fn keys_follow_the_kind_of_their_own_file() {
    assert_eq!(with_keys([("GK", "51000"), ("LB", "05015")]), (0, 0));
    assert_eq!(with_keys([("LB", "04888"), ("GK", "54999")]), (0, 0));
    assert_eq!(with_keys([("GK", "51000"), ("LB", "51000")]), (12, 684));
    assert_eq!(with_keys([("LB", "05000"), ("GK", "05000")]), (12, 684));
    assert_eq!(with_keys([("LB", "51000"), ("GK", "51000")]), (12, 172));
    assert_eq!(with_keys([("GK", "54123"), ("GK", "51123")]), (21, 686));
    assert_eq!(with_keys([("LB", "05015"), ("LB", "04015")]), (21, 686));
}

#[test]
fn the_sending_bank_follows_the_kind_of_its_own_file() {
    let from_bank = changed(changed(m(), 5, b"GB"), 15, b"20050010");
    let from_customer = changed(m(), 15, b"20050010");
    assert_eq!(verdict_on(&[m(), from_bank.clone()].concat()), (0, 0));
    assert_eq!(verdict_on(&[from_bank.clone(), m()].concat()), (0, 0));
    let medium = [from_bank, from_customer].concat();
    assert_eq!(verdict_on(&medium), (11, 512 + 15));
}

#[test]
fn an_execution_is_dated_by_the_creation_of_its_own_file() {
    let dated = |created, executed| changed(changed(m(), 50, created), 95, executed);
    let old = dated(b"010180", b"16011980");
    let new = dated(b"150304", b"30032004");
    assert_eq!(verdict_on(&[new.clone(), old.clone()].concat()), (0, 0));
    assert_eq!(verdict_on(&[old.clone(), new.clone()].concat()), (0, 0));
    let late = dated(b"010180", b"30032004");
    assert_eq!(verdict_on(&[new, late].concat()), (23, 512 + 95));
    let early = dated(b"150304", b"16011980");
    assert_eq!(verdict_on(&[old, early].concat()), (22, 512 + 95));
}

#[test]
fn the_figures_of_an_end_are_those_of_its_own_file() {
    let two = samples::file(&[samples::payment(1, &[]), samples::payment(2, &[])]);
    assert_eq!(check(&[two, m()].concat()), contents(2, 3));
    let counted_on = [
        (394, &b"0000002"[..]),
        (414, b"00000000015308642"),
        (431, b"00000000060100040"),
        (448, b"0000000024690"),
    ];
    for (place, figure) in counted_on {
        assert_eq!(behind_m(&changed(m(), place, figure)), (14, 512 + place));
    }
    // An end needs a payment in its own file.
    assert_eq!(behind_m(&[&m()[..128], &m()[384..]].concat()), (5, 640));
}

#[test]
fn the_cent_limit_holds_for_each_file() {
    let full = samples::file(&payments_up_to(99));
    assert_eq!(full.len(), 26_112);
    assert_eq!(check(&full.repeat(2)), contents(2, 202));
    assert_eq!(check(&[full.clone(), m()].concat()), contents(2, 102));
    let over = samples::file(&payments_up_to(100));
    let medium = [&full[..], &over].concat();
    assert_eq!(verdict_on(&medium), (9, 26_112 + 25_807));
    let mut further = payments_up_to(99);
    further.push(samples::payment(1, &[]));
    let medium = [full, samples::file(&further)].concat();
    assert_eq!(verdict_on(&medium), (9, 26_112 + 25_984));
}
