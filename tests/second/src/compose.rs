//! Composing a file from a listing: what the lines show is examined as in a file, the rest is written as it must be.

use crate::layout::{self, Content, Field};
use crate::lines::{self, Line};
use crate::output;
use crate::refusal::{Number, Refusal};
use crate::rules::Ledger;
use crate::signs::BLANK;

/// Composes the file into a lent output and gives its length.
pub fn compose(listing: &[u8], lent: &mut [u8]) -> Result<usize, Refusal> {
    let file = file_of(listing)?;
    output::deliver(&file, lent)
}

fn file_of(listing: &[u8]) -> Result<Vec<u8>, Refusal> {
    let mut draft = Draft::default();
    let mut place = 0;
    for line in listing.split_inclusive(|&byte| byte == b'\n') {
        if place == 0 {
            draft.header(line)?;
        } else {
            draft.payment(line, place)?;
        }
        place += line.len();
    }
    if draft.ledger.totals().count == 0 {
        return Err(Number::LineMissing.at(listing.len()));
    }
    draft.end();
    Ok(draft.file)
}

/// A file as far as it has been composed.
#[derive(Default)]
struct Draft {
    file: Vec<u8>,
    ledger: Ledger,
}

impl Draft {
    fn header(&mut self, line: &[u8]) -> Result<(), Refusal> {
        let line = lines::header(line).ok_or(Number::NoLine.at(0))?;
        self.record(&line, 0)
    }

    fn payment(&mut self, line: &[u8], place: usize) -> Result<(), Refusal> {
        let (parts, line) = lines::payment(line).ok_or(Number::NoLine.at(place))?;
        self.ledger
            .begin_payment(parts)
            .map_err(|number| number.at(place))?;
        self.first_field(layout::payment_length(parts));
        self.record(&line, place)?;
        self.ledger.end_payment();
        Ok(())
    }

    fn end(&mut self) {
        self.first_field(layout::END_LENGTH);
        for field in &layout::END {
            self.unlisted(field);
        }
    }

    /// Writes C1 or E1.
    fn first_field(&mut self, length: u64) {
        self.number(length, layout::FIRST_FIELD_WIDTH);
    }

    /// Writes the fields of a line that begins at `place`, the listed ones from its cells.
    fn record(&mut self, line: &Line, mut place: usize) -> Result<(), Refusal> {
        let mut cells = line.cells.iter();
        for field in &line.fields {
            let cell = if field.listed { cells.next() } else { None };
            let Some(cell) = cell else {
                self.unlisted(field);
                continue;
            };
            let bytes = filled_up(cell, field.width);
            self.ledger
                .take(field.content, &bytes)
                .map_err(|number| number.at(place))?;
            self.file.extend(bytes);
            // A tab, or the line's end, stands behind every cell.
            place += cell.len() + 1;
        }
        Ok(())
    }

    /// Writes a field that no listing shows.
    fn unlisted(&mut self, field: &Field) {
        match field.content {
            Content::Fixed(bytes) => self.file.extend(bytes),
            Content::Zeros => self.number(0, field.width),
            Content::Figure(counted) => self.number(self.ledger.figure(counted), field.width),
            _ => self.file.extend(filled_up(b"", field.width)),
        }
    }

    fn number(&mut self, value: u64, width: usize) {
        self.file.extend(format!("{value:0width$}").bytes());
    }
}

/// The cell with the blanks that the listing leaves out.
fn filled_up(cell: &[u8], width: usize) -> Vec<u8> {
    let mut bytes = cell.to_vec();
    bytes.resize(width, BLANK);
    bytes
}

#[cfg(test)]
mod tests {
    use super::*;
    use crate::listing;
    use crate::refusal::{verdict, Number};
    use crate::samples::{self, m_listing, A_LINE, C_LINE};

    fn refused(listing: &str) -> (u8, usize) {
        verdict(&file_of(listing.as_bytes()))
    }

    /// M's listing with one change in the line of its payment.
    fn with(old: &str, new: &str) -> String {
        A_LINE.to_string() + &C_LINE.replacen(old, new, 1)
    }

    /// M's listing with these parts.
    fn with_parts(parts: &[samples::Part]) -> String {
        let cells: String = parts
            .iter()
            .map(|(mark, text)| format!("\t{mark}\t{text}"))
            .collect();
        with("\t02\tKUNDE 4", &cells)
    }

    #[test]
    fn m_goes_both_ways() {
        assert_eq!(file_of(m_listing().as_bytes()), Ok(samples::m()));
        let mut lent = vec![b'.'; 514];
        assert_eq!(compose(m_listing().as_bytes(), &mut lent), Ok(512));
        assert_eq!(lent, [&samples::m()[..], b".."].concat());
    }

    #[test]
    fn every_number_of_parts_goes_both_ways() {
        for number in 0..=15 {
            let parts = samples::parts(number);
            let file = samples::file(&[samples::payment(12_345, &parts)]);
            assert_eq!(file_of(with_parts(&parts).as_bytes()).as_ref(), Ok(&file));
            let mut lent = vec![0; file.len()];
            let length = listing::list(&file, &mut lent).unwrap_or_default();
            assert_eq!(&lent[..length], with_parts(&parts).as_bytes());
        }
    }

    #[test]
    fn an_output_too_short_stays_and_comes_last() {
        let mut lent = vec![b'.'; 511];
        let answer = compose(m_listing().as_bytes(), &mut lent);
        assert_eq!(answer, Err(Number::NoRoom.at(0)));
        assert_eq!(lent, vec![b'.'; 511]);
        let answer = compose(A_LINE.as_bytes(), &mut []);
        assert_eq!(answer, Err(Number::LineMissing.at(65)));
    }

    #[test]
    fn lines_that_are_missing_are_18_at_the_end() {
        assert_eq!(refused(""), (18, 0));
        assert_eq!(refused(A_LINE), (18, 65));
    }

    #[test]
    fn lines_out_of_form_are_17_at_their_start() {
        assert_eq!(refused("\n"), (17, 0));
        assert_eq!(refused(A_LINE.trim_end()), (17, 0));
        assert_eq!(refused(C_LINE), (17, 0));
        assert_eq!(refused(&A_LINE.repeat(2)), (17, 65));
        for rest in ["\n", "X", "E\n", A_LINE, C_LINE.trim_end()] {
            assert_eq!(refused(&(m_listing() + rest)), (17, 193), "{rest:?}");
        }
        assert_eq!(refused(m_listing().trim_end()), (17, 65));
    }

    #[test]
    fn lines_are_taken_one_after_the_other() {
        let bad_kind = A_LINE.replace("GK", "XX");
        assert_eq!(refused(&(bad_kind + "C\n")), (2, 2));
        assert_eq!(refused(&A_LINE.replace("GK", "G ")), (17, 0));
        assert_eq!(
            refused(&with("\t51\t", "\t52\t").replace("KG", "kg")),
            (12, 110)
        );
    }

    #[test]
    fn an_empty_name_is_11_where_it_would_stand() {
        assert_eq!(refused(&with("MEIER KG", "")), (11, 149));
        assert_eq!(refused(&with("MUSTER GMBH", "")), (11, 158));
        assert_eq!(refused(&with("MEIER KG", "   ")), (17, 65));
        assert_eq!(refused(&with("RECHNUNG 17", "")), (0, 0));
        assert_eq!(refused(&with("KUNDE 4", "")), (0, 0));
    }

    #[test]
    fn a_carriage_return_is_no_line_end() {
        assert_eq!(refused(&with("\n", "\r\n")), (4, 185));
        let longest = "X".repeat(27);
        assert_eq!(refused(&with("KUNDE 4", &longest)), (0, 0));
        assert_eq!(refused(&with("KUNDE 4\n", &(longest + "\r\n"))), (17, 65));
        assert_eq!(refused(&m_listing().replacen('\n', "\r\n", 1)), (17, 0));
    }

    #[test]
    fn fields_are_refused_at_their_first_byte() {
        let cases = [
            ("30050020", "3005002X", (3, 76)),
            ("30050020", "3005002 ", (17, 65)),
            ("30050020", " 0050020", (3, 76)),
            ("30050020", "90050020", (11, 76)),
            ("0007654321", "0000000000", (11, 85)),
            ("0000000000000", "0000000000001", (11, 96)),
            ("\t51\t", "\t04\t", (12, 110)),
            ("\t000\t", "\t00X\t", (3, 113)),
            ("\t000\t", "\t889\t", (21, 113)),
            ("\t000\t", "\t888\t", (0, 0)),
            ("\t000\t", "\t0000\t", (17, 65)),
            ("51\t000", "56\t888", (21, 113)),
            ("51\t000", "54\t999", (0, 0)),
            ("51\t000", "55\t051", (12, 110)),
            ("20050010", "00050010", (11, 117)),
            ("0001234567", "0000000000", (11, 126)),
            ("00000012345", "00000000000", (11, 137)),
            ("MEIER KG", "MEIER Kg", (4, 149)),
            ("\t02\t", "\t04\t", (13, 182)),
            ("\t02\t", "\t0X\t", (3, 182)),
            ("\t02\t", "\t002\t", (17, 65)),
        ];
        for (old, new, expected) in cases {
            assert_eq!(refused(&with(old, new)), expected, "{old} to {new}");
        }
    }

    #[test]
    fn supplements_of_debits_are_held_against_their_key() {
        let cases = [
            ("04\t000", (0, 0)),
            ("04\t005", (21, 113)),
            ("05\t005", (0, 0)),
            ("05\t051", (21, 113)),
        ];
        for (key_and_supplement, expected) in cases {
            let debits = m_listing().replace("GK", "LK");
            let listing = debits.replace("51\t000", key_and_supplement);
            assert_eq!(refused(&listing), expected, "{key_and_supplement}");
        }
    }

    #[test]
    fn header_fields_are_refused_at_their_first_byte() {
        let cases = [
            ("20050010", "2005001X", (3, 5)),
            ("00000000", "00000001", (11, 14)),
            ("MUSTER", "Muster", (4, 23)),
            ("150304", "290203", (10, 35)),
            ("0001234567", "000123456X", (3, 42)),
            ("0000000000", "X000000000", (3, 53)),
            ("\t\n", "\t30032004\n", (0, 0)),
            ("\t\n", "\t29022100\n", (10, 64)),
            ("\t\n", "\t14032004\n", (22, 64)),
            ("\t\n", "\t31032004\n", (23, 64)),
            ("\t\n", "\t 1032004\n", (3, 64)),
            ("\t\n", "\t        \n", (17, 0)),
        ];
        for (old, new, expected) in cases {
            let listing = A_LINE.replacen(old, new, 1) + C_LINE;
            assert_eq!(refused(&listing), expected, "{old} to {new}");
        }
    }

    #[test]
    fn the_number_of_fields_fixes_the_marks() {
        assert_eq!(refused(&with_parts(&[("02", ""); 13])), (0, 0));
        assert_eq!(refused(&with_parts(&[("02", ""); 14])), (13, 182 + 13 * 4));
        assert_eq!(refused(&with_parts(&[("02", ""); 15])), (13, 182));
        assert_eq!(refused(&with_parts(&[("02", ""); 16])), (17, 65));
    }

    #[test]
    fn behind_a_full_total_form_comes_first_then_9() {
        let most = with("00000012345", "99999999999").replacen(A_LINE, "", 1);
        let last = most.replacen("99999999999", "00000000099", 1);
        let full = A_LINE.to_string() + &most.repeat(100) + &last;
        assert_eq!(refused(&full), (0, 0));
        let without_cents = last.replace("00000000099", "00000000000");
        assert_eq!(refused(&(full.clone() + &without_cents)), (9, full.len()));
        assert_eq!(refused(&(full.clone() + "C\n")), (17, full.len()));
        let over = full.replace("00000000099", "00000000100");
        assert_eq!(refused(&over), (9, full.len() - last.len() + 72));
    }

    #[test]
    fn a_line_behind_the_last_payment_is_6_at_its_start() {
        let totals = crate::totals::Totals {
            count: 9_999_999,
            ..Default::default()
        };
        let mut draft = Draft {
            ledger: Ledger::standing_at(totals),
            ..Draft::default()
        };
        let answer = draft.payment(C_LINE.as_bytes(), 65);
        assert_eq!(answer, Err(Number::TooManyPayments.at(65)));
        let answer = draft.payment(b"C\n", 65);
        assert_eq!(answer, Err(Number::NoLine.at(65)));
    }
}
