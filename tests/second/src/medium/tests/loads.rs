//! Loads of media: rows that run on through the files, the table of files, columns too short, and refused calls.

use super::*;
use crate::refusal::Number;
use crate::rules::Entry;
use crate::samples::lent;

/// Rows in each column that hold the medium of three files.
const EXACT: [usize; 9] = [6, 6, 6, 6, 3, 3, 3, 3, 3];

/// A file of payments with their own bank code, account, cents and number of parts.
fn file(payments: &[(u64, u64, u64, usize)]) -> Vec<u8> {
    let payments: Vec<_> = payments
        .iter()
        .map(|&(bank_code, account, cents, parts)| {
            let entry = Entry {
                bank_code,
                account,
                cents,
            };
            samples::payment_of(entry, &samples::parts(parts))
        })
        .collect();
    samples::file(&payments)
}

/// Files of two, one and three payments, which begin at 0, 1280 and 1792.
fn three_files() -> [Vec<u8>; 3] {
    [
        file(&[
            (30_050_020, 7_654_321, 5, 1),
            (10_020_030, 1, 99_999_999_999, 15),
        ]),
        file(&[(80_000_001, 9_999_999_999, 7, 0)]),
        file(&[
            (20_010_020, 111, 1000, 3),
            (20_010_021, 222, 2000, 7),
            (89_999_999, 333, 3000, 11),
        ]),
    ]
}

/// What the columns and the table hold when the three files are loaded.
fn three_files_loaded() -> [Vec<u64>; 9] {
    [
        vec![
            30_050_020, 10_020_030, 80_000_001, 20_010_020, 20_010_021, 89_999_999,
        ],
        vec![7_654_321, 1, 9_999_999_999, 111, 222, 333],
        vec![5, 99_999_999_999, 7, 1000, 2000, 3000],
        vec![128, 384, 1408, 1920, 2304, 2816],
        vec![0, 1280, 1792],
        vec![2, 1, 3],
        vec![7_654_322, 9_999_999_999, 666],
        vec![40_070_050, 80_000_001, 130_020_040],
        vec![100_000_000_004, 7, 6000],
    ]
}

/// Answer of a load into columns and a table with so many rows, and what they hold after it.
fn loaded(medium: &[u8], rows: [usize; 9]) -> (Result<Contents, Refusal>, Vec<Vec<u64>>) {
    let [bank_codes, accounts, cents, starts, table @ ..] = rows;
    let mut columns = lent([bank_codes, accounts, cents, starts]);
    let mut table = lent(table);
    let answer = load(medium, &mut columns, &mut table);
    (answer, [&columns[..], &table[..]].concat())
}

/// The load is refused so, and all nine are left as they were.
fn is_refused(medium: &[u8], rows: [usize; 9], refusal: Refusal) {
    let expected = (Err(refusal), lent(rows).to_vec());
    assert_eq!(loaded(medium, rows), expected, "{rows:?}");
}

/// The three files are loaded, and rows behind theirs are left as they were.
fn are_loaded(rows: [usize; 9]) {
    let mut columns = three_files_loaded();
    for (column, rows) in columns.iter_mut().zip(rows) {
        column.resize(rows, 7);
    }
    let expected = (contents(3, 6), columns.to_vec());
    assert_eq!(loaded(&three_files().concat(), rows), expected, "{rows:?}");
}

#[test]
fn m_twice_over_has_two_rows_in_all() {
    let expected = vec![
        vec![30_050_020; 2],
        vec![7_654_321; 2],
        vec![12_345; 2],
        vec![128, 640],
        vec![0, 512],
        vec![1; 2],
        vec![7_654_321; 2],
        vec![30_050_020; 2],
        vec![12_345; 2],
    ];
    assert_eq!(loaded(&m().repeat(2), [2; 9]), (contents(2, 2), expected));
}

#[test]
fn columns_run_on_and_each_file_has_its_row() {
    are_loaded(EXACT);
}

#[test]
fn rows_behind_the_counts_stay() {
    are_loaded([7, 8, 9, 10, 4, 5, 6, 7, 8]);
    are_loaded([256; 9]);
    for longer in 0..9 {
        let mut rows = EXACT;
        rows[longer] += 1;
        are_loaded(rows);
    }
}

#[test]
fn any_of_the_nine_too_short_is_16_and_leaves_all() {
    let medium = three_files().concat();
    for short in 0..9 {
        for rows in [EXACT, EXACT.map(|rows| rows + 4)] {
            for left in [0, EXACT[short] - 1] {
                let mut rows = rows;
                rows[short] = left;
                is_refused(&medium, rows, Number::NoRoom.at(0));
            }
        }
    }
    is_refused(&medium, [0; 9], Number::NoRoom.at(0));
    is_refused(&m(), [0; 9], Number::NoRoom.at(0));
}

#[test]
fn rows_for_the_longest_file_do_not_do_for_the_medium() {
    let medium = three_files().concat();
    is_refused(&medium, [3; 9], Number::NoRoom.at(0));
    is_refused(&medium, [6, 6, 6, 6, 1, 1, 1, 1, 1], Number::NoRoom.at(0));
    is_refused(
        &m().repeat(2),
        [2, 2, 2, 2, 1, 2, 2, 2, 2],
        Number::NoRoom.at(0),
    );
}

#[test]
fn damage_in_any_file_leaves_all() {
    // E4 of each file.
    let damaged = |place| changed(three_files().concat(), place, b"0000009");
    for place in [1162, 1674, 3466] {
        for rows in [EXACT, [256; 9], [0; 9]] {
            is_refused(&damaged(place), rows, Number::NotCounted.at(place));
        }
    }
}

#[test]
fn a_files_refusal_comes_before_a_column_too_short() {
    let damaged = changed(m().repeat(2), 512 + 394, b"0000002");
    for short in 0..9 {
        let mut rows = [2; 9];
        rows[short] = 1;
        is_refused(&damaged, rows, Number::NotCounted.at(906));
        is_refused(b"", rows, Number::NotWhole.at(0));
        let longer = [&m().repeat(2)[..], b"012"].concat();
        is_refused(&longer, rows, Number::NotWhole.at(1024));
    }
    is_refused(&damaged, [0; 9], Number::NotCounted.at(906));
}

#[test]
fn files_at_the_cent_limit_keep_their_own_totals() {
    let full = samples::file(&payments_up_to(99));
    let (answer, columns) = loaded(&full.repeat(2), [202, 202, 202, 202, 2, 2, 2, 2, 2]);
    assert_eq!(answer, contents(2, 202));
    assert_eq!(columns[3][100..102], [25_728, 26_240]);
    let table = [
        vec![0, 26_112],
        vec![101; 2],
        vec![101 * 7_654_321; 2],
        vec![101 * 30_050_020; 2],
        vec![9_999_999_999_999; 2],
    ];
    assert_eq!(columns[4..], table);
}
