//! Requests for the check and the load of a medium.

use super::*;
use crate::samples::head_line;

/// A request over a medium: head line, input, lent content. The numbers that the call does not use are left out.
fn request<const USED: usize>(
    letter: char,
    numbers: [usize; USED],
    input: &[u8],
    content: &[u8],
) -> Vec<u8> {
    let numbers: String = numbers.map(|number| format!(" {number:06}")).concat();
    let begin = format!("{letter} {:06}{numbers}", input.len());
    // For those any six digits do, even so many as could not be lent.
    let head = head_line(&begin, 999_999);
    [head.as_bytes(), input, content].concat()
}

/// A request of each call.
pub fn requests() -> [Vec<u8>; 2] {
    let lengths = [0, 0, 0, 1, 1, 0, 0, 0, 1];
    [
        request('N', [], &m(), b""),
        request('O', lengths, &m(), &[b'0'; 51]),
    ]
}

/// Rows as they are lent.
fn rows(values: &[u64]) -> String {
    values.iter().map(|value| format!("{value:017}")).collect()
}

/// The request for a load with these columns lent, and with any digits as the eleventh and twelfth number.
fn load_request(medium: &[u8], columns: [&[u64]; 9]) -> Vec<u8> {
    let content = columns.map(rows).concat();
    let lengths = columns.map(<[u64]>::len);
    request('O', lengths, medium, content.as_bytes())
}

/// Columns that hold something else in every row.
const LENT: [&[u64]; 9] = [
    &[11, 12],
    &[21, 22, 23],
    &[31, 32],
    &[41, 42],
    &[51, 52],
    &[61, 62],
    &[71, 72],
    &[81, 82, 83, 84],
    &[91, 92],
];

/// Columns as an answer shows them.
fn printed(columns: [&[u64]; 9]) -> String {
    let line = |column: &[u64]| {
        column
            .iter()
            .map(|row| format!("{row} "))
            .collect::<String>()
    };
    columns.map(|column| line(column) + "\n").concat()
}

/// Both calls refuse the medium so, and the load leaves what it was lent.
pub fn is_refused(medium: &[u8], refusal: &str) {
    let checked = answers(&request('N', [], medium, b""));
    assert_eq!(checked, format!("{refusal}\t0\t0\n"));
    let loaded = answers(&load_request(medium, LENT));
    assert_eq!(loaded, format!("{refusal}\t0\t0\n{}", printed(LENT)));
}

#[test]
fn checks_are_answered_with_files_and_payments() {
    let three = samples::file(&vec![samples::payment(1, &[]); 3]);
    let media = [m(), m().repeat(2), [m(), three].concat()];
    let requests = media.map(|medium| request('N', [], &medium, b""));
    let expected = "0\t0\t1\t1\n0\t0\t2\t2\n0\t0\t2\t4\n";
    assert_eq!(answers(&requests.concat()), expected);
}

#[test]
fn refusals_are_answered_without_files_and_payments() {
    let cut = |bytes| [&m(), &m()[..bytes]].concat();
    let and = |more: &[u8]| [&m(), more].concat();
    let cases = [
        (vec![], "1\t0"),
        (cut(3), "1\t512"),
        (and(b"\n"), "1\t512"),
        (and(b"XXXX"), "2\t512"),
        (and(b"0128E"), "2\t516"),
        (and(&m()[128..384]), "2\t512"),
        (and(&m()[384..]), "2\t516"),
        (cut(300), "1\t795"),
        (samples::changed(m().repeat(2), 906, b"0000002"), "14\t906"),
    ];
    for (medium, refusal) in cases {
        is_refused(&medium, refusal);
    }
}

#[test]
fn columns_and_table_come_back_as_they_are_after_the_call() {
    let second = samples::file(&[samples::payment(5, &[])]);
    let medium = [m(), second].concat();
    let columns = "30050020 30050020 \n7654321 7654321 23 \n12345 5 \n128 640 \n";
    let table = "0 512 \n1 1 \n7654321 7654321 \n30050020 30050020 83 84 \n12345 5 \n";
    let expected = format!("0\t0\t2\t2\n{columns}{table}");
    assert_eq!(answers(&load_request(&medium, LENT)), expected);
}

#[test]
fn columns_of_different_lengths_are_taken_apart() {
    let lent: [&[u64]; 9] = [
        &[1],
        &[2, 3],
        &[4, 5],
        &[6],
        &[7],
        &[8, 9],
        &[10],
        &[11],
        &[12, 13],
    ];
    let columns = "30050020 \n7654321 3 \n12345 5 \n128 \n";
    let table = "0 \n1 9 \n7654321 \n30050020 \n12345 13 \n";
    let expected = format!("0\t0\t1\t1\n{columns}{table}");
    assert_eq!(answers(&load_request(&m(), lent)), expected);
}

#[test]
fn any_column_one_row_short_is_16() {
    for short in 0..9 {
        let mut lent = LENT;
        lent[short] = &lent[short][..1];
        let expected = format!("16\t0\t0\t0\n{}", printed(lent));
        assert_eq!(answers(&load_request(&m().repeat(2), lent)), expected);
    }
}

#[test]
fn rows_that_are_no_number_count_as_0() {
    let content = rows(&[5]) + "0000000000000000X" + &" ".repeat(17) + &rows(&[6]);
    let lengths = [1, 0, 0, 1, 1, 0, 0, 0, 1];
    let loaded = request('O', lengths, b"", content.as_bytes());
    assert_eq!(answers(&loaded), "1\t0\t0\t0\n5 \n\n\n0 \n0 \n\n\n\n6 \n");
}

#[test]
fn calls_over_media_stand_among_others() {
    let check_medium = || request('N', [], &m().repeat(2), b"");
    let requests = [
        check_medium(),
        check_m(),
        load_request(b"", LENT),
        check_m(),
        check_medium(),
    ];
    let checked = "0\t0\t2\t2\n";
    let refused = format!("1\t0\t0\t0\n{}", printed(LENT));
    let expected = [checked, CHECKED_M, &refused, CHECKED_M, checked];
    assert_eq!(answers(&requests.concat()), expected.concat());
}

#[test]
fn the_largest_medium_is_loaded_into_the_largest_columns() {
    let medium = m().repeat(128);
    assert_eq!(medium.len(), 65_536);
    let loaded = answers(&load_request(&medium, [&[7; 256]; 9]));
    let lines: Vec<&str> = loaded.lines().collect();
    assert_eq!((lines[0], lines.len()), ("0\t0\t128\t128", 10));
    let behind = "7 ".repeat(128);
    for (line, last) in [(1, "30050020"), (4, "65152"), (5, "65024"), (9, "12345")] {
        assert!(
            lines[line].ends_with(&format!(" {last} {behind}")),
            "{line}"
        );
    }
}

/// No request has this head, though bytes enough for the longest follow it, and none is answered from there on.
fn is_bad(head: &str) {
    let following = check_m().repeat(120);
    let input = [&check_m(), head.as_bytes(), &following].concat();
    let expected = format!("{CHECKED_M}bad request\n");
    assert_eq!(answers(&input), expected, "{head}");
}

#[test]
fn lengths_beyond_their_limits_are_bad() {
    for nth in 0..9 {
        let begin = format!("O 000000{} 000257", " 000000".repeat(nth));
        is_bad(&head_line(&begin, 0));
    }
    is_bad(&head_line("O 065537", 0));
    is_bad(&head_line("N 065537", 0));
}

#[test]
fn every_number_of_the_head_has_six_digits() {
    for letter in ["N", "O"] {
        for before in [0, 1, 9, 10, 11] {
            let numbers = " 000000".repeat(before);
            for wrong in ["00000X", "00000 ", "     0"] {
                is_bad(&head_line(&format!("{letter}{numbers} {wrong}"), 0));
            }
        }
    }
}

#[test]
fn too_few_rows_are_bad() {
    for short in 0..9 {
        let whole = load_request(&m(), LENT);
        let cut = &whole[..whole.len() - 17 * short - 1];
        assert_eq!(answers(cut), "bad request\n", "{short} rows and a byte");
    }
    let without_rows = request('O', [1; 9], &m(), b"");
    assert_eq!(answers(&without_rows), "bad request\n");
}
