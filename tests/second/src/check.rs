//! One pass over a logical file, its fields in file order: the refusal, or the payments read and their totals.

use crate::layout::{self, Content, Field, END_LENGTH, FIRST_FIELD_WIDTH};
use crate::refusal::{Number, Refusal};
use crate::rules::{Entry, Ledger};
use crate::signs::number;
use crate::totals::Totals;

/// An accepted logical file.
#[derive(Debug)]
pub struct Reading<'a> {
    /// The byte where it begins.
    pub start: usize,
    /// The fields of A that a listing shows.
    pub header: Vec<Listed<'a>>,
    pub payments: Vec<Payment<'a>>,
    pub totals: Totals,
    /// What follows its E.
    pub rest: Stretch<'a>,
}

/// A payment of an accepted file.
#[derive(Debug)]
pub struct Payment<'a> {
    /// The byte where it begins.
    pub start: usize,
    pub entry: Entry,
    /// The fields of C that a listing shows.
    pub listed: Vec<Listed<'a>>,
}

/// A field that a listing shows.
#[derive(Debug)]
pub struct Listed<'a> {
    pub content: Content,
    pub stretch: Stretch<'a>,
}

/// Bytes of a file or medium, and the place where they begin in it.
#[derive(Clone, Copy, Debug, Default, PartialEq, Eq)]
pub struct Stretch<'a> {
    pub place: usize,
    pub bytes: &'a [u8],
}

impl<'a> Stretch<'a> {
    /// All the bytes of a file or medium.
    pub fn all(bytes: &'a [u8]) -> Self {
        Stretch { place: 0, bytes }
    }
}

/// Count and sums of a file.
pub fn check(file: &[u8]) -> Result<Totals, Refusal> {
    read(file).map(|reading| reading.totals)
}

/// Reads a whole file: one logical file and nothing more.
pub fn read(file: &[u8]) -> Result<Reading<'_>, Refusal> {
    let reading = read_first(Stretch::all(file))?;
    if reading.rest.bytes.is_empty() {
        Ok(reading)
    } else {
        Err(Number::BytesAfterEnd.at(reading.rest.place))
    }
}

/// Reads the logical file that the stretch begins with, whatever follows it.
pub fn read_first(stretch: Stretch<'_>) -> Result<Reading<'_>, Refusal> {
    let mut pass = Pass::over(stretch);
    let header = pass.fields(&layout::HEADER)?;
    let mut payments = Vec::new();
    loop {
        let start = pass.place();
        let Some(parts) = pass.first_field()? else {
            break;
        };
        let listed = pass.fields(&layout::payment(parts))?;
        payments.push(Payment {
            start,
            entry: pass.ledger.end_payment(),
            listed,
        });
    }
    pass.fields(&layout::END)?;
    Ok(Reading {
        start: stretch.place,
        header,
        payments,
        totals: pass.ledger.totals(),
        rest: pass.rest,
    })
}

/// How far a logical file has been read. What is remembered, and so both limits, begins anew with each.
struct Pass<'a> {
    rest: Stretch<'a>,
    ledger: Ledger,
}

impl<'a> Pass<'a> {
    fn over(stretch: Stretch<'a>) -> Self {
        Pass {
            rest: stretch,
            ledger: Ledger::default(),
        }
    }

    fn place(&self) -> usize {
        self.rest.place
    }

    /// The next field's bytes, unless the stretch ends inside of it.
    fn whole(&mut self, width: usize) -> Result<&'a [u8], Refusal> {
        let place = self.place();
        let (field, bytes) = self
            .rest
            .bytes
            .split_at_checked(width)
            .ok_or(Number::NotWhole.at(place))?;
        self.rest = Stretch {
            place: place + width,
            bytes,
        };
        Ok(field)
    }

    /// Reads fields one after another and keeps those that a listing shows.
    fn fields(&mut self, fields: &[Field]) -> Result<Vec<Listed<'a>>, Refusal> {
        let mut listed = Vec::with_capacity(fields.len());
        for field in fields {
            let place = self.place();
            let bytes = self.whole(field.width)?;
            self.ledger
                .take(field.content, bytes)
                .map_err(|number| number.at(place))?;
            if field.listed {
                listed.push(Listed {
                    content: field.content,
                    stretch: Stretch { place, bytes },
                });
            }
        }
        Ok(listed)
    }

    /// Reads C1 or E1: the number of parts of the payment that begins, or none where E begins.
    fn first_field(&mut self) -> Result<Option<usize>, Refusal> {
        let place = self.place();
        let bytes = self.whole(FIRST_FIELD_WIDTH)?;
        let length = number(bytes).ok_or(Number::NoDigit.at(place))?;
        if length == END_LENGTH && self.ledger.totals().count > 0 {
            return Ok(None);
        }
        let parts = layout::numbers_of_parts()
            .find(|&parts| layout::payment_length(parts) == length)
            .ok_or(Number::NoLength.at(place))?;
        self.ledger
            .begin_payment(parts)
            .map_err(|number| number.at(place))?;
        Ok(Some(parts))
    }
}

#[cfg(test)]
mod tests {
    use super::*;
    use crate::refusal::verdict;
    use crate::samples::{self, m};

    fn first_field(bytes: &[u8], totals: Totals) -> Result<Option<usize>, (u8, usize)> {
        let mut pass = Pass::over(Stretch::all(bytes));
        pass.ledger = Ledger::standing_at(totals);
        pass.first_field()
            .map_err(|refusal| (refusal.code(), refusal.place))
    }

    fn standing(count: u64, cents: u64) -> Totals {
        Totals {
            count,
            cents,
            ..Totals::default()
        }
    }

    #[test]
    fn the_first_field_is_an_end_only_behind_a_payment() {
        assert_eq!(first_field(b"0128", standing(0, 0)), Err((5, 0)));
        assert_eq!(first_field(b"0128", standing(1, 1)), Ok(None));
        assert_eq!(first_field(b"0187", standing(0, 0)), Ok(Some(0)));
        assert_eq!(first_field(b"0622", standing(1, 1)), Ok(Some(15)));
    }

    #[test]
    fn only_sixteen_lengths_begin_a_payment() {
        let lengths: Vec<u64> = (0..10_000)
            .filter(|length| {
                let field = format!("{length:04}");
                first_field(field.as_bytes(), standing(0, 0)).is_ok()
            })
            .collect();
        let expected: Vec<u64> = (0..16).map(|parts| 187 + 29 * parts).collect();
        assert_eq!(lengths, expected);
    }

    #[test]
    fn a_payment_behind_the_last_is_refused_at_its_length() {
        let top = 9_999_999_999_999;
        assert_eq!(first_field(b"0187", standing(9_999_998, 1)), Ok(Some(0)));
        assert_eq!(first_field(b"0187", standing(9_999_999, 1)), Err((6, 0)));
        assert_eq!(first_field(b"0187", standing(1, top)), Err((9, 0)));
        assert_eq!(first_field(b"0187", standing(9_999_999, top)), Err((6, 0)));
        assert_eq!(first_field(b"0128", standing(9_999_999, top)), Ok(None));
    }

    #[test]
    fn at_the_top_the_bytes_still_come_first() {
        let top = standing(1, 9_999_999_999_999);
        assert_eq!(first_field(b"0188", top), Err((5, 0)));
        assert_eq!(first_field(b"01X7", top), Err((3, 0)));
        assert_eq!(first_field(b"018", top), Err((1, 0)));
        assert_eq!(first_field(b"    ", top), Err((3, 0)));
    }

    #[test]
    fn a_logical_file_ends_at_its_end_record_whatever_follows() {
        for rest in [&b""[..], b"X", b"0128E", &m()] {
            let file = [&m(), rest].concat();
            let reading = read_first(Stretch::all(&file));
            let borders = reading.map(|reading| (reading.start, reading.rest));
            let behind = Stretch {
                place: 512,
                bytes: rest,
            };
            assert_eq!(borders, Ok((0, behind)));
        }
    }

    #[test]
    fn a_logical_file_has_its_places_from_where_the_stretch_begins() {
        let file = m();
        let damaged = samples::changed(m(), 394, b"0000002");
        let at = |bytes| Stretch { place: 1000, bytes };
        let places = read_first(at(&file)).map(|reading| {
            let payments: Vec<usize> = reading.payments.iter().map(|c| c.start).collect();
            (reading.start, payments, reading.rest.place)
        });
        assert_eq!(places, Ok((1000, vec![1128], 1512)));
        assert_eq!(verdict(&read_first(at(&damaged))), (14, 1394));
        assert_eq!(verdict(&read_first(at(b"012"))), (1, 1000));
        assert_eq!(verdict(&read_first(at(b""))), (1, 1000));
    }
}
