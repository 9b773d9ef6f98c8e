//! Files, listings, requests and days for the tests: the whole case M, files made like it, the calendar step by step.

use crate::columns::Lent;
use crate::head;
use crate::rules::Entry;
use std::io::{self, Read};
use std::iter;
use std::ops::RangeInclusive;

/// The A line of M.
pub const A_LINE: &str =
    "A\tGK\t20050010\t00000000\tMUSTER GMBH\t150304\t0001234567\t0000000000\t\n";

/// The line of M's payment.
pub const C_LINE: &str = "C\t00000000\t30050020\t0007654321\t0000000000000\t51\t000\t20050010\t0001234567\t00000012345\tMEIER KG\tMUSTER GMBH\tRECHNUNG 17\t02\tKUNDE 4\n";

/// The listing of M.
pub fn m_listing() -> String {
    [A_LINE, C_LINE].concat()
}

/// Where the fields of M begin, and its end.
pub const PLACES_IN_M: [usize; 48] = [
    0, 4, 5, 7, 15, 23, 50, 56, 60, 70, 80, 95, 103, 127, // A1 to A12
    128, 132, 133, 141, 149, 159, 172, 174, 177, 178, 189, 197, 207, 218, 221, 248, // to C14b
    256, 283, 310, 311, 313, 315, 317, 344, // C15 to C18, mark, text, closing blanks
    384, 388, 389, 394, 401, 414, 431, 448, 461, // E1 to E9
    512,
];

/// Where the marks of fifteen parts stand in a payment.
pub const MARKS: [usize; 15] = [
    187, 216, 256, 285, 314, 343, 384, 413, 442, 471, 512, 541, 570, 599, 640,
];

/// Mark and text of an extension part.
pub type Part<'a> = (&'a str, &'a str);

/// A sample payment: its bytes and what it adds to the totals.
#[derive(Clone)]
pub struct Sample {
    pub bytes: String,
    pub entry: Entry,
}

/// The file of the whole case M.
pub fn m() -> Vec<u8> {
    file(&[payment(12_345, &[("02", "KUNDE 4")])])
}

/// A file with M's header and these payments, its E counted.
pub fn file(payments: &[Sample]) -> Vec<u8> {
    let sum = |number: fn(&Entry) -> u64| -> u64 {
        let numbers = payments.iter().map(|payment| number(&payment.entry));
        numbers.sum()
    };
    let bodies: String = payments.iter().map(|payment| &*payment.bytes).collect();
    let end = format!(
        "0128E{:5}{:07}{:013}{:017}{:017}{:013}{:51}",
        "",
        payments.len(),
        0,
        sum(|entry| entry.account),
        sum(|entry| entry.bank_code),
        sum(|entry| entry.cents),
        ""
    );
    format!("{}{bodies}{end}", header()).into_bytes()
}

/// M's record A.
fn header() -> String {
    format!(
        "0128AGK2005001000000000{:27}150304{:4}00012345670000000000{:15}{:8}{:24}1",
        "MUSTER GMBH", "", "", "", ""
    )
}

/// A payment like M's with its own cents and parts.
pub fn payment(cents: u64, parts: &[Part]) -> Sample {
    let entry = Entry {
        bank_code: 30_050_020,
        account: 7_654_321,
        cents,
    };
    payment_of(entry, parts)
}

/// A payment like M's with its own entry and parts.
pub fn payment_of(entry: Entry, parts: &[Part]) -> Sample {
    let Entry {
        bank_code,
        account,
        cents,
    } = entry;
    let number = parts.len();
    let mut bytes = [
        format!("{:04}C00000000{bank_code:08}", 187 + 29 * number), // C1 to C4
        format!("{account:010}000000000000051000 "),                // C5 to C8
        format!("{:011}200500100001234567", 0),                     // C9 to C11
        format!("{cents:011}   {:27}{:8}", "MEIER KG", ""),         // C12 to C14b
        format!("{:27}{:27}1  {number:02}", "MUSTER GMBH", "RECHNUNG 17"), // C15 to C18
    ]
    .concat();
    for (index, (mark, text)) in parts.iter().enumerate() {
        // The third, seventh, eleventh and fifteenth part begin a section of their own.
        if matches!(index, 2 | 6 | 10 | 14) {
            fill_section(&mut bytes);
        }
        bytes.extend([*mark, &format!("{text:27}")]);
    }
    fill_section(&mut bytes);
    Sample { bytes, entry }
}

fn fill_section(bytes: &mut String) {
    let sections = bytes.len().div_ceil(128);
    *bytes += &" ".repeat(sections * 128 - bytes.len());
}

/// So many parts, filled in a permitted way: 01 and 03 only where purposes do not suffice.
pub fn parts(number: usize) -> Vec<Part<'static>> {
    let mut parts = vec![("02", "ZWECK"); number];
    if number > 13 {
        parts[0].0 = "01";
    }
    if number > 14 {
        parts[14].0 = "03";
    }
    parts
}

/// A hundred payments of the greatest amount and one more; 99 cents take the total to its top.
pub fn payments_up_to(last: u64) -> Vec<Sample> {
    let mut payments = vec![payment(99_999_999_999, &[]); 100];
    payments.push(payment(last, &[]));
    payments
}

/// Columns with so many rows, a 7 in each.
pub fn lent<const WIDTH: usize>(rows: [usize; WIDTH]) -> Lent<WIDTH> {
    rows.map(|rows| vec![7; rows])
}

/// The head line of a request that begins so, with one and the same number for all that are left.
pub fn head_line(begin: &str, left: usize) -> String {
    let mut line = begin.to_string();
    while line.len() + 1 < head::bytes_from(begin.as_bytes()[0]) {
        line += &format!(" {left:06}");
    }
    line + "\n"
}

/// The bytes with some of them put over the old ones at a place.
pub fn changed(mut bytes: Vec<u8>, place: usize, over: &[u8]) -> Vec<u8> {
    bytes[place..place + over.len()].copy_from_slice(over);
    bytes
}

/// Every day of these years, written DDMMYYYY, with the steps it lies behind the day of creation; none before it.
pub fn days_around(
    created: u64,
    years: RangeInclusive<u64>,
) -> impl Iterator<Item = (u64, Option<u64>)> {
    let mut steps = None;
    days_of(years).map(move |day| {
        steps = steps
            .map(|before| before + 1)
            .or((day == created).then_some(0));
        (day, steps)
    })
}

/// Every day of these years, written DDMMYYYY, one after the other.
pub fn days_of(years: RangeInclusive<u64>) -> impl Iterator<Item = u64> {
    let first = (1, 1, *years.start());
    iter::successors(Some(first), |&day| Some(next_day(day)))
        .take_while(move |(_, _, year)| year <= years.end())
        .map(|(day, month, year)| day * 1_000_000 + month * 10_000 + year)
}

/// The day after a day, month and year. The program numbers its days; the tests step, so as not to repeat its error.
fn next_day((day, month, year): (u64, u64, u64)) -> (u64, u64, u64) {
    let is_century = year.is_multiple_of(100);
    let is_leap = year.is_multiple_of(if is_century { 400 } else { 4 });
    match (day, month) {
        (28, 2) if is_leap => (29, 2, year),
        (28 | 29, 2) => (1, 3, year),
        (30, 4 | 6 | 9 | 11) => (1, month + 1, year),
        (31, 12) => (1, 1, year + 1),
        (31, _) => (1, month + 1, year),
        _ => (day + 1, month, year),
    }
}

/// An input that comes in short pieces.
pub struct Pieces<'a> {
    rest: &'a [u8],
    longest: usize,
}

impl<'a> Pieces<'a> {
    pub fn of(bytes: &'a [u8], longest: usize) -> Self {
        Pieces {
            rest: bytes,
            longest,
        }
    }
}

impl Read for Pieces<'_> {
    fn read(&mut self, room: &mut [u8]) -> io::Result<usize> {
        let most = room.len().min(self.longest);
        self.rest.read(&mut room[..most])
    }
}
