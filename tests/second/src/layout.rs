//! The fields of the records A, C and E as data: width, content, and whether a listing shows them.

use Content::{Blanks, Digits, ExecutionDate, Figure, FileKind, Fixed, Name, Text, Zeros};
use Meaning::{
    Account, Amount, BankCode, CountedAccount, CountedBankCode, CreationDate, Customer, Free, Key,
    Mark, SendingBank, Supplement,
};

/// What a field holds. The order in a field is the same everywhere: first its bytes, then their meaning.
#[derive(Clone, Copy, Debug)]
pub enum Content {
    Fixed(&'static [u8]),
    Blanks,
    Zeros,
    /// Credits or debits, from a customer or a bank.
    FileKind,
    Digits(Meaning),
    /// A date, or as many blanks.
    ExecutionDate,
    /// A text, which may be all blank.
    Text,
    /// A text that is not all blank.
    Name,
    /// Digits that repeat what the program has counted itself.
    Figure(Counted),
}

/// What the digits of a field say, and so which condition they are under.
#[derive(Clone, Copy, Debug)]
pub enum Meaning {
    Free,
    SendingBank,
    CreationDate,
    CountedBankCode,
    CountedAccount,
    Customer,
    Key,
    Supplement,
    BankCode,
    Account,
    Amount,
    Mark,
}

/// The figures a file repeats.
#[derive(Clone, Copy, Debug)]
pub enum Counted {
    Parts,
    Payments,
    Accounts,
    BankCodes,
    Cents,
}

/// One field of a record.
#[derive(Clone, Copy, Debug)]
pub struct Field {
    pub width: usize,
    pub content: Content,
    pub listed: bool,
}

const fn listed(width: usize, content: Content) -> Field {
    Field {
        width,
        content,
        listed: true,
    }
}

const fn hidden(width: usize, content: Content) -> Field {
    Field {
        width,
        content,
        listed: false,
    }
}

/// The first field after A or a payment, C1 and E1 in one until its value tells which.
pub const FIRST_FIELD_WIDTH: usize = 4;
/// The value of that field that begins E.
pub const END_LENGTH: u64 = 128;

/// Record A.
pub const HEADER: [Field; 14] = [
    hidden(4, Fixed(b"0128")),       // A1
    listed(1, Fixed(b"A")),          // A2
    listed(2, FileKind),             // A3
    listed(8, Digits(Free)),         // A4
    listed(8, Digits(SendingBank)),  // A5
    listed(27, Text),                // A6
    listed(6, Digits(CreationDate)), // A7
    hidden(4, Blanks),               // A8
    listed(10, Digits(Free)),        // A9
    listed(10, Digits(Free)),        // A10
    hidden(15, Blanks),              // A11a
    listed(8, ExecutionDate),        // A11b
    hidden(24, Blanks),              // A11c
    hidden(1, Fixed(b"1")),          // A12
];

/// Record C from C2 to C18, the same for every payment.
const CONSTANT_PART: [Field; 20] = [
    listed(1, Fixed(b"C")),             // C2
    listed(8, Digits(Free)),            // C3
    listed(8, Digits(CountedBankCode)), // C4
    listed(10, Digits(CountedAccount)), // C5
    listed(13, Digits(Customer)),       // C6
    listed(2, Digits(Key)),             // C7a
    listed(3, Digits(Supplement)),      // C7b
    hidden(1, Blanks),                  // C8
    hidden(11, Zeros),                  // C9
    listed(8, Digits(BankCode)),        // C10
    listed(10, Digits(Account)),        // C11
    listed(11, Digits(Amount)),         // C12
    hidden(3, Blanks),                  // C13
    listed(27, Name),                   // C14a
    hidden(8, Blanks),                  // C14b
    listed(27, Name),                   // C15
    listed(27, Text),                   // C16
    hidden(1, Fixed(b"1")),             // C17a
    hidden(2, Blanks),                  // C17b
    hidden(2, Figure(Counted::Parts)),  // C18
];

/// An extension part: its mark and its text.
const PART: [Field; 2] = [listed(2, Digits(Mark)), listed(27, Text)];

/// Record E from E2 on. The accounts come before the bank codes here, unlike in C.
pub const END: [Field; 8] = [
    hidden(1, Fixed(b"E")),                 // E2
    hidden(5, Blanks),                      // E3
    hidden(7, Figure(Counted::Payments)),   // E4
    hidden(13, Zeros),                      // E5
    hidden(17, Figure(Counted::Accounts)),  // E6
    hidden(17, Figure(Counted::BankCodes)), // E7
    hidden(13, Figure(Counted::Cents)),     // E8
    hidden(51, Blanks),                     // E9
];

const SECTION_BYTES: usize = 128;
const PART_BYTES: usize = 29;
const MOST_PARTS: usize = 15;
/// Bytes of C1 to C18, and those of them in the second section.
const CONSTANT_BYTES: usize = 187;
const CONSTANT_BYTES_IN_SECOND: usize = CONSTANT_BYTES - SECTION_BYTES;
/// Parts that the second section takes, and each of the third to the sixth.
const PARTS_IN_SECOND: usize = 2;
const PARTS_IN_LATER: [usize; 4] = [4, 4, 4, 1];

/// Every number of parts a payment may have.
pub fn numbers_of_parts() -> impl Iterator<Item = usize> {
    0..=MOST_PARTS
}

/// C1 of a payment with so many parts: the closing blanks do not count.
pub fn payment_length(parts: usize) -> u64 {
    (CONSTANT_BYTES + PART_BYTES * parts) as u64
}

/// The fields of a payment with so many parts, from C2 to the closing blanks of its last section.
pub fn payment(parts: usize) -> Vec<Field> {
    let mut fields = CONSTANT_PART.to_vec();
    let in_second = parts.min(PARTS_IN_SECOND);
    add_parts(&mut fields, in_second, CONSTANT_BYTES_IN_SECOND);
    let mut left = parts - in_second;
    for room in PARTS_IN_LATER {
        let here = left.min(room);
        if here > 0 {
            add_parts(&mut fields, here, 0);
        }
        left -= here;
    }
    fields
}

/// The parts of one section and its closing blanks, behind `before` bytes of other fields.
fn add_parts(fields: &mut Vec<Field>, parts: usize, before: usize) {
    for _ in 0..parts {
        fields.extend(PART);
    }
    fields.push(hidden(SECTION_BYTES - before - PART_BYTES * parts, Blanks));
}

#[cfg(test)]
mod tests {
    use super::*;

    fn bytes(fields: &[Field]) -> usize {
        fields.iter().map(|field| field.width).sum()
    }

    fn cells(fields: &[Field]) -> usize {
        fields.iter().filter(|field| field.listed).count()
    }

    #[test]
    fn records_are_whole_sections() {
        assert_eq!(bytes(&HEADER), 128);
        assert_eq!(FIRST_FIELD_WIDTH + bytes(&END), 128);
        let sections = [2, 2, 2, 3, 3, 3, 3, 4, 4, 4, 4, 5, 5, 5, 5, 6];
        for (parts, section) in numbers_of_parts().zip(sections) {
            let width = FIRST_FIELD_WIDTH + bytes(&payment(parts));
            assert_eq!(width, 128 * section, "{parts} parts");
        }
    }

    #[test]
    fn listed_fields_are_9_and_13_and_two_per_part() {
        assert_eq!(cells(&HEADER), 9);
        assert_eq!(cells(&END), 0);
        for parts in numbers_of_parts() {
            assert_eq!(cells(&payment(parts)), 13 + 2 * parts);
        }
    }

    #[test]
    fn lengths_leave_the_closing_blanks_out() {
        assert_eq!(payment_length(0), 187);
        assert_eq!(payment_length(1), 216);
        assert_eq!(payment_length(15), 622);
    }

    #[test]
    fn closing_blanks_are_one_field_in_each_section() {
        let closing = |parts: usize| -> Vec<usize> {
            payment(parts)
                .into_iter()
                .skip(CONSTANT_PART.len())
                .filter(|field| !field.listed)
                .map(|field| field.width)
                .collect()
        };
        assert_eq!(closing(0), [69]);
        assert_eq!(closing(1), [40]);
        assert_eq!(closing(2), [11]);
        assert_eq!(closing(3), [11, 99]);
        assert_eq!(closing(6), [11, 12]);
        assert_eq!(closing(9), [11, 12, 41]);
        assert_eq!(closing(15), [11, 12, 12, 12, 99]);
    }
}
