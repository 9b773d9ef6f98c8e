//! The head line of a request: the call's letter and five numbers, of a call over media twelve, each within its limit.

use crate::signs::number;
use crate::view::Text;

/// The bytes of a head line; those of a call over media have more.
pub const HEAD_BYTES: usize = 37;
/// A number in the head: a blank and six digits.
const NUMBER_BYTES: usize = 7;
const MOST_BYTES: usize = 65_536;
const MOST_ROWS: usize = 256;
/// Stands for the highest number of 64 bits, which six digits cannot tell.
const STANDS_FOR_HIGHEST: usize = 999_999;

/// The calls that may be asked for.
#[derive(Clone, Copy, Debug, PartialEq, Eq)]
pub enum Call {
    Check,
    Load,
    CheckMedium,
    LoadMedium,
    List,
    Compose,
    /// Where the view of a payment begins.
    Find,
    /// Where a text stands that the payment at a start hands out.
    HandOut,
    /// The text that the view of a payment hands out.
    View,
}

impl Call {
    fn of(letter: u8) -> Option<Self> {
        match letter {
            b'C' => Some(Call::Check),
            b'L' => Some(Call::Load),
            b'N' => Some(Call::CheckMedium),
            b'O' => Some(Call::LoadMedium),
            b'P' => Some(Call::List),
            b'M' => Some(Call::Compose),
            b'F' => Some(Call::Find),
            b'H' => Some(Call::HandOut),
            b'V' => Some(Call::View),
            _ => None,
        }
    }

    /// How many slices are lent, and the most that each may hold.
    fn lent(self) -> (usize, usize) {
        match self {
            Call::Load => (4, MOST_ROWS),
            Call::LoadMedium => (9, MOST_ROWS),
            Call::List | Call::Compose => (1, MOST_BYTES),
            Call::Check | Call::CheckMedium | Call::Find | Call::HandOut | Call::View => (0, 0),
        }
    }
}

/// How many numbers a head line with this letter has.
fn numbers_behind(letter: u8) -> usize {
    match letter {
        b'N' | b'O' => 12,
        _ => 5,
    }
}

/// How many bytes a head line with this letter has: the letter, the numbers and the line end.
pub fn bytes_from(letter: u8) -> usize {
    1 + numbers_behind(letter) * NUMBER_BYTES + 1
}

/// The head line of a request.
pub struct Head {
    pub call: Call,
    /// The length of the input.
    pub input: usize,
    /// The lengths of the lent slices; for the calls of the view, what they are asked for.
    pub numbers: Vec<usize>,
}

impl Head {
    /// None where the letter, a number or a limit is wrong. Blanks and line end are not looked at.
    pub fn of(line: &[u8]) -> Option<Self> {
        let (&letter, numbers) = line.split_first()?;
        let call = Call::of(letter)?;
        let numbers: Vec<usize> = numbers
            .chunks_exact(NUMBER_BYTES)
            .map(head_number)
            .collect::<Option<_>>()?;
        let (&input, lengths) = numbers.split_first()?;
        let (slices, most) = call.lent();
        let is_whole = numbers.len() == numbers_behind(letter);
        let lent_within = lengths.iter().take(slices).all(|&length| length <= most);
        (is_whole && input <= MOST_BYTES && lent_within).then_some(Head {
            call,
            input,
            numbers: lengths.to_vec(),
        })
    }

    /// The payment that a view is asked for, or the start of the one that hands out.
    pub fn payment_or_start(&self) -> u64 {
        wide(self.numbers[0])
    }

    /// The text that is to be handed out: the number of its field, or any other and the number of its part.
    pub fn text(&self) -> Text {
        match self.numbers[1] {
            14 => Text::C14a,
            15 => Text::C15,
            16 => Text::C16,
            _ => Text::Part(wide(self.numbers[2])),
        }
    }
}

/// A number that may be any of 64 bits.
fn wide(number: usize) -> u64 {
    if number == STANDS_FOR_HIGHEST {
        u64::MAX
    } else {
        number as u64
    }
}

fn head_number(blank_and_digits: &[u8]) -> Option<usize> {
    let (_, digits) = blank_and_digits.split_first()?;
    usize::try_from(number(digits)?).ok()
}

#[cfg(test)]
mod tests {
    use super::*;
    use crate::samples::head_line;

    fn is_head(line: &str) -> bool {
        Head::of(line.as_bytes()).is_some()
    }

    #[test]
    fn the_printed_head_has_37_bytes() {
        let line = b"L 000512 000002 000003 000002 000000\n";
        assert_eq!(line.len(), HEAD_BYTES);
        let read = Head::of(line).map(|head| (head.call, head.input, head.numbers));
        assert_eq!(read, Some((Call::Load, 512, vec![2, 3, 2, 0])));
    }

    #[test]
    fn wrong_letters_and_wrong_digits_make_no_head() {
        assert!(!is_head("X 000000 000000 000000 000000 000000\n"));
        assert!(!is_head("c 000000 000000 000000 000000 000000\n"));
        assert!(!is_head("v 000000 000000 000000 000000 000000\n"));
        assert!(!is_head("C 00000X 000000 000000 000000 000000\n"));
        assert!(!is_head("C 000000 000000 000000 000000 00 000\n"));
        assert!(!is_head("C -00001 000000 000000 000000 000000\n"));
        assert!(!is_head("F 000000 00000X 000000 000000 000000\n"));
        assert!(!is_head("H 000000 000000 0000-1 000000 000000\n"));
        assert!(!is_head("V 000000 000000 000000 000000 00000 \n"));
        assert!(!is_head(""));
    }

    #[test]
    fn each_call_limits_the_numbers_it_uses() {
        assert!(is_head("C 065536 999999 999999 999999 999999\n"));
        assert!(!is_head("C 065537 000000 000000 000000 000000\n"));
        assert!(is_head("P 065536 065536 999999 999999 999999\n"));
        assert!(!is_head("P 000000 065537 000000 000000 000000\n"));
        assert!(is_head("M 065536 065536 999999 999999 999999\n"));
        assert!(!is_head("M 000000 065537 000000 000000 000000\n"));
        assert!(is_head("L 065536 000256 000256 000256 000256\n"));
        assert!(!is_head("L 000000 000257 000000 000000 000000\n"));
        assert!(!is_head("L 000000 000000 000000 000000 000257\n"));
        for letter in ["F", "H", "V"] {
            let head = |numbers| letter.to_string() + numbers;
            assert!(is_head(&head(" 065536 999999 999999 999999 999999\n")));
            assert!(is_head(&head(" 000000 000000 000000 000000 000000\n")));
            assert!(!is_head(&head(" 065537 000000 000000 000000 000000\n")));
        }
    }

    /// What a call of the view is asked for.
    fn asked(line: &str) -> Option<(Call, u64, Text)> {
        let head = Head::of(line.as_bytes())?;
        Some((head.call, head.payment_or_start(), head.text()))
    }

    #[test]
    fn the_calls_of_the_view_are_told_what_they_are_asked_for() {
        let finding = asked("F 000512 000007 000000 000000 000000\n");
        assert_eq!(finding, Some((Call::Find, 7, Text::Part(0))));
        let texts = [
            (" 000014 000003", Text::C14a),
            (" 000015 000000", Text::C15),
            (" 000016 000001", Text::C16),
            (" 000000 000003", Text::Part(3)),
            (" 000013 000001", Text::Part(1)),
            (" 000017 000002", Text::Part(2)),
            (" 000114 000014", Text::Part(14)),
        ];
        for (numbers, text) in texts {
            let line = format!("H 000512 000128{numbers} 000009\n");
            assert_eq!(asked(&line), Some((Call::HandOut, 128, text)));
            let line = format!("V 000512 000000{numbers} 000009\n");
            assert_eq!(asked(&line), Some((Call::View, 0, text)));
        }
    }

    #[test]
    fn six_nines_stand_for_the_highest_number() {
        let highest = asked("H 000000 999999 000000 999999 000000\n");
        let expected = (Call::HandOut, u64::MAX, Text::Part(u64::MAX));
        assert_eq!(highest, Some(expected));
        let below = asked("V 000000 999998 999999 999998 000000\n");
        assert_eq!(below, Some((Call::View, 999_998, Text::Part(999_998))));
    }

    #[test]
    fn blanks_and_line_end_are_not_looked_at() {
        assert!(is_head("CX000000X000000X000000X000000X000000X"));
    }

    /// The letters of the calls, and those of them that go on to twelve numbers.
    const LETTERS: &[u8] = b"CLNOPMFHV";
    const LETTERS_OVER_MEDIA: &[u8] = b"NO";

    /// Whether a line that begins so, all further numbers being 0, is a head.
    fn begins_head(begin: &str) -> bool {
        is_head(&head_line(begin, 0))
    }

    #[test]
    fn the_printed_head_over_media_has_86_bytes() {
        let line = b"O 000012 000001 000002 000003 000004 000005 000006 000007 000008 000009 000010 000011\n";
        assert_eq!((line.len(), bytes_from(b'O')), (86, 86));
        let read = Head::of(line).map(|head| (head.call, head.input, head.numbers));
        let numbers = vec![1, 2, 3, 4, 5, 6, 7, 8, 9, 10, 11];
        assert_eq!(read, Some((Call::LoadMedium, 12, numbers)));
    }

    #[test]
    fn only_calls_over_media_have_a_longer_head() {
        for letter in 0..=255 {
            let longer = LETTERS_OVER_MEDIA.contains(&letter);
            assert_eq!(bytes_from(letter), if longer { 86 } else { HEAD_BYTES });
        }
    }

    #[test]
    fn nine_letters_name_a_call() {
        let letters: Vec<u8> = (0..=255)
            .filter(|&letter| Call::of(letter).is_some())
            .collect();
        assert_eq!(letters, b"CFHLMNOPV");
        for &letter in LETTERS {
            assert!(begins_head(&char::from(letter).to_string()));
        }
        for begin in ["X", "c", "v", "n", "o", " ", "0"] {
            assert!(!begins_head(begin), "{begin}");
        }
    }

    #[test]
    fn every_number_has_six_digits_whether_used_or_not() {
        for &letter in LETTERS {
            for nth in 0..numbers_behind(letter) {
                for wrong in ["00000X", "00 000", "-00001", " 00000", "00000 "] {
                    let before = " 000000".repeat(nth);
                    let begin = format!("{}{before} {wrong}", char::from(letter));
                    assert!(!begins_head(&begin), "{begin}");
                }
            }
        }
    }

    #[test]
    fn a_line_with_fewer_numbers_or_more_is_no_head() {
        for &letter in LETTERS {
            for numbers in 0..=13 {
                let line = format!("{}{}\n", char::from(letter), " 000000".repeat(numbers));
                let whole = numbers == numbers_behind(letter);
                assert_eq!(is_head(&line), whole, "{numbers} numbers");
            }
        }
    }

    #[test]
    fn no_input_is_longer_than_its_limit() {
        for &letter in LETTERS {
            let head = |input| begins_head(&format!("{} {input}", char::from(letter)));
            assert!(head("065536"));
            assert!(!head("065537"));
            assert!(!head("999999"));
        }
    }

    /// Whether a call may have a number of the head, the first being the input's length, so high.
    fn takes(letter: u8, nth: usize, number: usize) -> bool {
        let before = " 000000".repeat(nth);
        begins_head(&format!("{}{before} {number:06}", char::from(letter)))
    }

    #[test]
    fn each_call_limits_the_lengths_of_what_it_is_lent() {
        let lent = [
            (b'L', 4, 256),
            (b'O', 9, 256),
            (b'P', 1, 65_536),
            (b'M', 1, 65_536),
        ];
        for (letter, slices, most) in lent {
            for nth in 1..numbers_behind(letter) {
                let used = nth <= slices;
                assert!(takes(letter, nth, most), "{letter} {nth}");
                assert_eq!(takes(letter, nth, most + 1), !used, "{letter} {nth}");
                assert_eq!(takes(letter, nth, 999_999), !used, "{letter} {nth}");
            }
        }
    }

    #[test]
    fn calls_that_are_lent_nothing_take_any_numbers() {
        for letter in ["C", "N", "F", "H", "V"] {
            let head = head_line(&format!("{letter} 065536"), 999_999);
            assert!(is_head(&head), "{letter}");
        }
    }

    #[test]
    fn blanks_and_line_end_of_a_head_over_media_are_not_looked_at() {
        assert!(is_head(&format!("N{}X", "X000000".repeat(12))));
    }
}
