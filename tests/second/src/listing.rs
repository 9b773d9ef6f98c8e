//! The listing of an accepted file: a line for A and a line for each payment.

use crate::check::{self, Reading};
use crate::output;
use crate::refusal::Refusal;
use crate::signs::without_closing_blanks;

/// Prints the listing of a file into a lent output and gives its length.
pub fn list(file: &[u8], lent: &mut [u8]) -> Result<usize, Refusal> {
    let reading = check::read(file)?;
    output::deliver(&lines(&reading), lent)
}

fn lines(reading: &Reading) -> Vec<u8> {
    let payments = reading.payments.iter().map(|payment| &payment.listed);
    let mut lines = Vec::new();
    for fields in std::iter::once(&reading.header).chain(payments) {
        // Digits end in no blank, and an absent date is all blank: every field may be cut alike.
        let cells: Vec<&[u8]> = fields
            .iter()
            .map(|field| without_closing_blanks(field.stretch.bytes))
            .collect();
        lines.extend(cells.join(&b'\t'));
        lines.push(b'\n');
    }
    lines
}

#[cfg(test)]
mod tests {
    use super::*;
    use crate::refusal::Number;
    use crate::samples;

    #[test]
    fn the_listing_of_m_is_the_printed_one() {
        let mut lent = vec![b'.'; 195];
        assert_eq!(list(&samples::m(), &mut lent), Ok(193));
        assert_eq!(lent, [samples::m_listing().as_bytes(), b".."].concat());
    }

    #[test]
    fn an_output_too_short_is_16_and_stays() {
        let mut lent = vec![b'.'; 192];
        assert_eq!(list(&samples::m(), &mut lent), Err(Number::NoRoom.at(0)));
        assert_eq!(lent, vec![b'.'; 192]);
    }

    #[test]
    fn leading_and_inner_blanks_stay_in_a_text() {
        let file = samples::changed(samples::m(), 221, b"  A  B  ");
        let mut lent = vec![0; 512];
        let length = list(&file, &mut lent).unwrap_or_default();
        let text = String::from_utf8_lossy(&lent[..length]).into_owned();
        assert!(text.contains("\t  A  B\tMUSTER GMBH\t"), "{text}");
    }

    #[test]
    fn a_date_of_execution_is_listed_whole() {
        let file = samples::changed(samples::m(), 95, b"30032004");
        let mut lent = vec![0; 512];
        assert_eq!(list(&file, &mut lent), Ok(201));
        assert_eq!(&lent[..73][64 - 11..], b"0000000000\t30032004\n");
    }
}
