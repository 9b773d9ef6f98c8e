//! The view of one payment: the whole file and the payment's start, both checked again by every hand-out.

use crate::check::{self, Payment, Stretch};
use crate::layout::Content;
use crate::refusal::{Number, Refusal};

/// The texts that a view hands out.
#[derive(Clone, Copy, Debug, PartialEq, Eq)]
pub enum Text {
    C14a,
    C15,
    C16,
    /// The text of an extension part, counted from 1.
    Part(u64),
}

impl Text {
    /// The texts of a payment that stand before this one; none for a part 0, or one that no payment can have.
    fn before(self) -> Option<usize> {
        let texts = match self {
            Text::C14a => 0,
            Text::C15 => 1,
            Text::C16 => 2,
            Text::Part(part) => part.checked_sub(1)?.checked_add(3)?,
        };
        usize::try_from(texts).ok()
    }
}

/// A file and a start. Any two may be put together, so that nothing is known of them.
#[derive(Clone, Copy, Debug, Default, PartialEq, Eq)]
pub struct View<'a> {
    pub file: &'a [u8],
    pub start: u64,
}

impl<'a> View<'a> {
    /// Makes the view of payment `n`, counted from 0. What a refused making gives is the default: no bytes, start 0.
    pub fn of(file: &'a [u8], n: u64) -> Result<Self, Refusal> {
        let reading = check::read(file)?;
        let n = usize::try_from(n).ok();
        let payment = n.and_then(|n| reading.payments.get(n));
        let start = payment.ok_or(Number::NotThere.at(0))?.start as u64;
        Ok(View { file, start })
    }

    /// A text of the payment that begins at the start, all 27 bytes as they stand in the file.
    pub fn hand_out(&self, text: Text) -> Result<Stretch<'a>, Refusal> {
        let reading = check::read(self.file)?;
        let mut payments = reading.payments.iter();
        payments
            .find(|payment| payment.start as u64 == self.start)
            .and_then(|payment| text_of(payment, text))
            .ok_or(Number::NotThere.at(0))
    }
}

/// The texts of a payment are C14a, C15, C16 and those of its parts, in this order.
fn text_of<'a>(payment: &Payment<'a>, text: Text) -> Option<Stretch<'a>> {
    let is_text = |content| matches!(content, Content::Name | Content::Text);
    let mut texts = payment.listed.iter().filter(|field| is_text(field.content));
    Some(texts.nth(text.before()?)?.stretch)
}

#[cfg(test)]
mod tests {
    use super::*;
    use crate::samples::{self, changed, m, Part, MARKS};

    /// The texts that every payment has, and where they stand in it.
    const NAMED: [(Text, usize); 3] = [(Text::C14a, 93), (Text::C15, 128), (Text::C16, 155)];

    const NOT_THERE: Refusal = Refusal {
        number: Number::NotThere,
        place: 0,
    };

    /// Payments of 2, 0, 15 and 3 parts, which begin at 128, 384, 640 and 1408; E begins at 1792.
    fn four_payments() -> Vec<u8> {
        let payment = |number| samples::payment(7, &samples::parts(number));
        samples::file(&[2, 0, 15, 3].map(payment))
    }

    const FOUR_STARTS: [u64; 4] = [128, 384, 640, 1408];

    /// What is handed out of the file's payment at the start.
    fn handed(file: &[u8], start: u64, text: Text) -> Result<(usize, Vec<u8>), Refusal> {
        let stretch = View { file, start }.hand_out(text)?;
        Ok((stretch.place, stretch.bytes.to_vec()))
    }

    fn in_27_bytes(text: &str) -> Vec<u8> {
        format!("{text:27}").into_bytes()
    }

    #[test]
    fn a_view_holds_the_file_and_the_payments_start() {
        let file = m();
        let view = View {
            file: &file,
            start: 128,
        };
        assert_eq!(View::of(&file, 0), Ok(view));
        let file = four_payments();
        for (n, start) in (0..).zip(FOUR_STARTS) {
            let expected = View { file: &file, start };
            assert_eq!(View::of(&file, n), Ok(expected));
        }
    }

    #[test]
    fn there_is_no_payment_from_the_count_on() {
        for n in [1, 2, 1 << 32, u64::MAX - 1, u64::MAX] {
            assert_eq!(View::of(&m(), n), Err(NOT_THERE));
        }
        for n in [4, 5, u64::MAX] {
            assert_eq!(View::of(&four_payments(), n), Err(NOT_THERE));
        }
    }

    #[test]
    fn texts_are_handed_out_with_their_closing_blanks() {
        let expected = [
            (Text::C14a, 221, "MEIER KG"),
            (Text::C15, 256, "MUSTER GMBH"),
            (Text::C16, 283, "RECHNUNG 17"),
            (Text::Part(1), 317, "KUNDE 4"),
        ];
        for (text, place, bytes) in expected {
            assert_eq!(handed(&m(), 128, text), Ok((place, in_27_bytes(bytes))));
        }
    }

    #[test]
    fn texts_of_blanks_only_are_27_bytes_too() {
        let file = samples::file(&[samples::payment(1, &[("01", ""), ("03", "")])]);
        let file = changed(file, 283, &[b' '; 27]);
        for (text, place) in [(Text::C16, 283), (Text::Part(1), 317), (Text::Part(2), 346)] {
            assert_eq!(handed(&file, 128, text), Ok((place, in_27_bytes(""))));
        }
    }

    #[test]
    fn every_text_stands_where_its_payment_has_it() {
        for number in 0..=15 {
            let texts: Vec<String> = (1..=number).map(|part| format!("TEXT {part}")).collect();
            let marks = samples::parts(number).into_iter().map(|(mark, _)| mark);
            let parts: Vec<Part> = marks.zip(texts.iter().map(String::as_str)).collect();
            // The payment in question stands behind a shorter one.
            let payments = [samples::payment(5, &[]), samples::payment(6, &parts)];
            let mut file = samples::file(&payments);
            for (text, place) in NAMED {
                let name = in_27_bytes(&format!("AT {place}"));
                file = changed(file, 384 + place, &name);
                assert_eq!(handed(&file, 384, text), Ok((384 + place, name)));
            }
            for ((part, text), mark) in (1..).zip(&texts).zip(MARKS) {
                let expected = (384 + mark + 2, in_27_bytes(text));
                assert_eq!(handed(&file, 384, Text::Part(part)), Ok(expected));
            }
        }
    }

    #[test]
    fn part_0_and_parts_beyond_the_last_are_not_there() {
        for number in 0..=15 {
            let file = samples::file(&[samples::payment(1, &samples::parts(number))]);
            let accepted: Vec<usize> = (0..40)
                .filter(|&part| handed(&file, 128, Text::Part(part as u64)).is_ok())
                .collect();
            assert_eq!(accepted, Vec::from_iter(1..=number));
            for part in [0, number as u64 + 1, u64::MAX - 2, u64::MAX - 1, u64::MAX] {
                assert_eq!(handed(&file, 128, Text::Part(part)), Err(NOT_THERE));
            }
        }
    }

    #[test]
    fn only_a_payments_start_is_taken() {
        let file = four_payments();
        assert_eq!(&file[1792..1797], b"0128E");
        for text in [Text::C14a, Text::C15, Text::C16] {
            let taken: Vec<u64> = (0..2200)
                .filter(|&start| handed(&file, start, text) != Err(NOT_THERE))
                .collect();
            assert_eq!(taken, FOUR_STARTS);
            let wide = FOUR_STARTS.map(|start| start + (1 << 32));
            for start in wide.into_iter().chain([u64::MAX - 127, u64::MAX]) {
                assert_eq!(handed(&file, start, text), Err(NOT_THERE));
            }
        }
    }

    #[test]
    fn bytes_that_look_like_a_payment_begin_none() {
        // The last text of the first payment reads like the beginning of a payment.
        let payments = [
            samples::payment(5, &[("02", "0187C0000000030050020000765")]),
            samples::payment(6, &[]),
        ];
        let file = samples::file(&payments);
        assert_eq!(&file[317..322], &file[384..389]);
        assert_eq!(handed(&file, 317, Text::C14a), Err(NOT_THERE));
        assert!(handed(&file, 384, Text::C14a).is_ok());
    }

    #[test]
    fn the_files_refusal_comes_before_19() {
        let wrong_count = changed(m(), 394, b"0000002");
        let longer = [&m()[..], b"X"].concat();
        let cases = [
            (&b""[..], Number::NotWhole.at(0)),
            (&m()[..511], Number::NotWhole.at(461)),
            (&wrong_count, Number::NotCounted.at(394)),
            (&longer, Number::BytesAfterEnd.at(512)),
        ];
        for (file, refusal) in cases {
            for number in [0, 1, 128, u64::MAX] {
                assert_eq!(View::of(file, number), Err(refusal));
                for text in [Text::C14a, Text::Part(0), Text::Part(1), Text::Part(2)] {
                    assert_eq!(handed(file, number, text), Err(refusal));
                }
            }
        }
    }

    #[test]
    fn a_refused_making_leaves_a_view_that_hands_out_nothing() {
        let file = m();
        let view = View::of(&file, 1).unwrap_or_default();
        assert_eq!(
            view,
            View {
                file: b"",
                start: 0
            }
        );
        for text in [Text::C14a, Text::C15, Text::C16, Text::Part(1)] {
            let answer = view.hand_out(text);
            assert_eq!(answer, Err(Number::NotWhole.at(0)));
            assert!(answer.unwrap_or_default().bytes.is_empty());
        }
    }
}
