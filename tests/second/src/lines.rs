//! The form of a listing's lines: letter, number of fields, widths, no closing blanks, the ending.

use crate::layout::{self, Content, Field};

/// A line in good form: the fields of its record and the cells of those that are listed.
pub struct Line<'a> {
    pub fields: Vec<Field>,
    pub cells: Vec<&'a [u8]>,
}

/// The line as an A line, if it has that form.
pub fn header(line: &[u8]) -> Option<Line<'_>> {
    in_form(layout::HEADER.to_vec(), cells(line)?)
}

/// The line as the line of a payment, with its number of parts, if it has that form.
pub fn payment(line: &[u8]) -> Option<(usize, Line<'_>)> {
    let cells = cells(line)?;
    let parts = layout::numbers_of_parts().find(|parts| 13 + 2 * parts == cells.len())?;
    let line = in_form(layout::payment(parts), cells)?;
    Some((parts, line))
}

/// What the tabs part, if the line is ended.
fn cells(line: &[u8]) -> Option<Vec<&[u8]>> {
    let content = line.strip_suffix(b"\n")?;
    Some(content.split(|&byte| byte == b'\t').collect())
}

fn in_form(fields: Vec<Field>, cells: Vec<&[u8]>) -> Option<Line<'_>> {
    let listed = || fields.iter().filter(|field| field.listed);
    let fits = listed().count() == cells.len()
        && listed().zip(&cells).all(|(field, cell)| fits(field, cell));
    fits.then_some(Line { fields, cells })
}

/// Whether the cell has the field's form; what it says is not yet looked at.
fn fits(field: &Field, cell: &[u8]) -> bool {
    let width_fits = match field.content {
        // The letter of the line.
        Content::Fixed(letter) => cell == letter,
        Content::Text | Content::Name => cell.len() <= field.width,
        Content::ExecutionDate => cell.is_empty() || cell.len() == field.width,
        _ => cell.len() == field.width,
    };
    width_fits && !cell.ends_with(b" ")
}

#[cfg(test)]
mod tests {
    use super::*;
    use crate::samples::{A_LINE, C_LINE};

    fn is_header(line: &str) -> bool {
        header(line.as_bytes()).is_some()
    }

    fn parts(line: &str) -> Option<usize> {
        payment(line.as_bytes()).map(|(parts, _)| parts)
    }

    #[test]
    fn the_lines_of_m_are_in_form() {
        assert!(is_header(A_LINE));
        assert_eq!(parts(C_LINE), Some(1));
        assert!(!is_header(C_LINE));
        assert_eq!(parts(A_LINE), None);
    }

    #[test]
    fn a_line_is_ended() {
        assert!(!is_header(A_LINE.trim_end_matches('\n')));
        assert!(!is_header(""));
        assert!(!is_header("\n"));
        assert_eq!(parts("C\n"), None);
    }

    #[test]
    fn the_first_field_is_the_letter_alone() {
        assert!(!is_header(&A_LINE.replacen('A', "AA", 1)));
        assert!(!is_header(&A_LINE.replacen('A', "B", 1)));
        assert!(!is_header(&A_LINE.replacen('A', "", 1)));
        assert_eq!(parts(&C_LINE.replacen('C', "E", 1)), None);
    }

    #[test]
    fn no_field_ends_in_a_blank() {
        assert!(!is_header(&A_LINE.replace("GK", "G ")));
        assert!(!is_header(&A_LINE.replace("20050010", "2005001 ")));
        assert!(!is_header(&A_LINE.replace("GMBH", "GMBH ")));
        assert!(!is_header(&A_LINE.replace("\t\n", "\t        \n")));
        assert!(is_header(&A_LINE.replace("20050010", " 0050010")));
    }

    #[test]
    fn widths_are_exact_but_for_texts_and_the_date() {
        assert!(is_header(&A_LINE.replace("MUSTER GMBH", "")));
        assert!(is_header(&A_LINE.replace("MUSTER GMBH", &"X".repeat(27))));
        assert!(!is_header(&A_LINE.replace("MUSTER GMBH", &"X".repeat(28))));
        assert!(!is_header(&A_LINE.replace("150304", "15032004")));
        assert!(is_header(&A_LINE.replace("\t\n", "\t15032004\n")));
        assert!(!is_header(&A_LINE.replace("\t\n", "\t150304\n")));
        assert!(!is_header(&A_LINE.replace("\t\n", "\t\r\n")));
    }

    #[test]
    fn parts_come_in_pairs_up_to_fifteen() {
        let without = C_LINE.trim_end_matches("\t02\tKUNDE 4\n");
        for number in 0..=15 {
            let line = format!("{without}{}\n", "\t02\t".repeat(number));
            assert_eq!(parts(&line), Some(number));
            assert_eq!(parts(&line.replace('\n', "\t02\n")), None);
        }
        assert_eq!(parts(&format!("{without}{}\n", "\t02\t".repeat(16))), None);
        assert_eq!(parts(&C_LINE.replace("\t02\t", "\t002\t")), None);
    }
}
