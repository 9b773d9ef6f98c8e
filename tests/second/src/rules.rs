//! The conditions of every field, in the light of what has been read before it.

use crate::dates;
use crate::layout::{Content, Counted, Meaning};
use crate::marks::Marks;
use crate::refusal::{demand, Number};
use crate::signs::{all_are, is_text_sign, number, BLANK};
use crate::totals::Totals;

/// The three numbers of a payment that are summed up.
#[derive(Clone, Copy, Debug, Default, PartialEq, Eq)]
pub struct Entry {
    pub bank_code: u64,
    pub account: u64,
    pub cents: u64,
}

/// What has to be remembered of the fields read so far.
#[derive(Clone, Debug, Default)]
pub struct Ledger {
    debits: bool,
    from_bank: bool,
    created: u64,
    parts: usize,
    key: u64,
    marks: Marks,
    entry: Entry,
    totals: Totals,
}

impl Ledger {
    pub fn totals(&self) -> Totals {
        self.totals
    }

    /// Begins a payment with so many parts, if one may begin.
    pub fn begin_payment(&mut self, parts: usize) -> Result<(), Number> {
        self.totals.room_for_payment()?;
        self.parts = parts;
        self.marks = Marks::expecting(parts);
        Ok(())
    }

    /// Counts the payment begun and gives its entry.
    pub fn end_payment(&mut self) -> Entry {
        self.totals.count_payment();
        self.entry
    }

    /// The figure that a file has to repeat at this point.
    pub fn figure(&self, counted: Counted) -> u64 {
        match counted {
            Counted::Parts => self.parts as u64,
            Counted::Payments => self.totals.count,
            Counted::Accounts => self.totals.accounts,
            Counted::BankCodes => self.totals.bank_codes,
            Counted::Cents => self.totals.cents,
        }
    }

    /// Takes a field that is whole: its bytes first, then their meaning.
    pub fn take(&mut self, content: Content, bytes: &[u8]) -> Result<(), Number> {
        match content {
            Content::Fixed(fixed) => demand(bytes == fixed, Number::NotFixed),
            Content::Blanks => demand(all_are(bytes, BLANK), Number::NotFixed),
            Content::Zeros => demand(all_are(bytes, b'0'), Number::NotFixed),
            Content::FileKind => self.file_kind(bytes),
            Content::Digits(meaning) => {
                let value = digits(bytes)?;
                self.meaning(meaning, bytes, value)
            }
            Content::ExecutionDate if all_are(bytes, BLANK) => Ok(()),
            Content::ExecutionDate => Ok(dates::execution(digits(bytes)?, self.created)?),
            Content::Text => text(bytes),
            Content::Name => {
                text(bytes)?;
                demand(!all_are(bytes, BLANK), Number::Condition)
            }
            Content::Figure(counted) => {
                let agrees = digits(bytes)? == self.figure(counted);
                demand(agrees, disagreement(counted))
            }
        }
    }

    fn file_kind(&mut self, bytes: &[u8]) -> Result<(), Number> {
        (self.debits, self.from_bank) = match bytes {
            b"GK" => (false, false),
            b"LK" => (true, false),
            b"GB" => (false, true),
            b"LB" => (true, true),
            _ => return Err(Number::NotFixed),
        };
        Ok(())
    }

    fn meaning(&mut self, meaning: Meaning, bytes: &[u8], value: u64) -> Result<(), Number> {
        match meaning {
            Meaning::Free => Ok(()),
            Meaning::SendingBank => demand(self.from_bank || value == 0, Number::Condition),
            Meaning::CreationDate => {
                self.created = dates::creation(value)?;
                Ok(())
            }
            Meaning::CountedBankCode => {
                bank_code(bytes)?;
                self.entry.bank_code = value;
                self.totals.add_bank_code(value)
            }
            Meaning::CountedAccount => {
                not_zero(value)?;
                self.entry.account = value;
                self.totals.add_account(value)
            }
            Meaning::Customer => {
                let framed = bytes.starts_with(b"0") && bytes.ends_with(b"0");
                demand(framed, Number::Condition)
            }
            Meaning::Key => {
                self.key = value;
                demand(self.is_key(value), Number::NoKey)
            }
            Meaning::Supplement => demand(self.is_supplement(bytes), Number::NoSupplement),
            Meaning::BankCode => bank_code(bytes),
            Meaning::Account => not_zero(value),
            Meaning::Amount => {
                not_zero(value)?;
                self.entry.cents = value;
                self.totals.add_cents(value)
            }
            Meaning::Mark => demand(self.marks.take(value), Number::NoMark),
        }
    }

    /// Whether the key belongs to this kind of file.
    fn is_key(&self, key: u64) -> bool {
        if self.debits {
            matches!(key, 4 | 5)
        } else {
            matches!(key, 51 | 53 | 54 | 56)
        }
    }

    /// Whether the supplement goes with the key before it: annex 1 of the diskette document.
    fn is_supplement(&self, supplement: &[u8]) -> bool {
        match self.key {
            4 | 51 | 53 => matches!(supplement, b"000" | b"888"),
            5 => matches!(supplement, b"000" | b"888" | b"005" | b"006" | b"015"),
            56 => supplement == b"000",
            54 => true,
            // No other key gets past C7a.
            _ => false,
        }
    }
}

fn digits(bytes: &[u8]) -> Result<u64, Number> {
    number(bytes).ok_or(Number::NoDigit)
}

fn text(bytes: &[u8]) -> Result<(), Number> {
    let signs_only = bytes.iter().all(|&byte| is_text_sign(byte));
    demand(signs_only, Number::NoTextSign)
}

/// No bank code begins with 0 or 9.
fn bank_code(bytes: &[u8]) -> Result<(), Number> {
    let unused = bytes.starts_with(b"0") || bytes.starts_with(b"9");
    demand(!unused, Number::Condition)
}

fn not_zero(value: u64) -> Result<(), Number> {
    demand(value != 0, Number::Condition)
}

/// C18 is under a condition of its own field, the figures of E are control figures.
fn disagreement(counted: Counted) -> Number {
    match counted {
        Counted::Parts => Number::Condition,
        Counted::Payments | Counted::Accounts | Counted::BankCodes | Counted::Cents => {
            Number::NotCounted
        }
    }
}

#[cfg(test)]
impl Ledger {
    /// A ledger that stands at these totals, for the limits no small file reaches.
    pub fn standing_at(totals: Totals) -> Self {
        Ledger {
            totals,
            ..Ledger::default()
        }
    }
}

#[cfg(test)]
mod tests {
    use super::*;
    use Content::{Digits, ExecutionDate, FileKind, Fixed, Name, Text, Zeros};

    fn taken(content: Content, bytes: &[u8]) -> Result<(), Number> {
        Ledger::default().take(content, bytes)
    }

    #[test]
    fn fixed_bytes_are_never_looked_at_as_digits() {
        assert_eq!(taken(Fixed(b"0128"), b"0128"), Ok(()));
        assert_eq!(taken(Fixed(b"0128"), b"012X"), Err(Number::NotFixed));
        assert_eq!(taken(Zeros, b"0X0"), Err(Number::NotFixed));
        assert_eq!(taken(Zeros, b"010"), Err(Number::NotFixed));
        assert_eq!(taken(FileKind, b"KG"), Err(Number::NotFixed));
    }

    #[test]
    fn the_sending_bank_is_zero_in_a_customers_file_only() {
        for (kind, expected) in [(b"GK", Err(Number::Condition)), (b"LB", Ok(()))] {
            let mut ledger = Ledger::default();
            assert_eq!(ledger.take(FileKind, kind), Ok(()));
            let sending_bank = Digits(Meaning::SendingBank);
            assert_eq!(ledger.take(sending_bank, b"20050010"), expected);
            assert_eq!(ledger.take(sending_bank, b"00000000"), Ok(()));
            assert_eq!(ledger.take(sending_bank, b"0000000X"), Err(Number::NoDigit));
        }
    }

    #[test]
    fn keys_follow_the_kind_of_file() {
        for (kind, keys) in [(b"LK", vec![4, 5]), (b"GB", vec![51, 53, 54, 56])] {
            let mut ledger = Ledger::default();
            assert_eq!(ledger.take(FileKind, kind), Ok(()));
            for key in 0..100 {
                let bytes = format!("{key:02}");
                let expected = demand(keys.contains(&key), Number::NoKey);
                assert_eq!(
                    ledger.take(Digits(Meaning::Key), bytes.as_bytes()),
                    expected
                );
            }
        }
    }

    /// The supplements, of all there could be, that a file of this kind takes with the key.
    fn supplements(kind: &str, key: &str) -> Vec<String> {
        let mut ledger = Ledger::default();
        assert_eq!(ledger.take(FileKind, kind.as_bytes()), Ok(()));
        assert_eq!(ledger.take(Digits(Meaning::Key), key.as_bytes()), Ok(()));
        let mut all: Vec<String> = (0..1000).map(|value| format!("{value:03}")).collect();
        all.retain(|supplement| {
            let answer = ledger.take(Digits(Meaning::Supplement), supplement.as_bytes());
            assert!(matches!(answer, Ok(()) | Err(Number::NoSupplement)));
            answer.is_ok()
        });
        all
    }

    #[test]
    fn each_key_has_its_own_supplements() {
        for kind in ["LK", "LB"] {
            assert_eq!(supplements(kind, "04"), ["000", "888"]);
            let of_05 = ["000", "005", "006", "015", "888"];
            assert_eq!(supplements(kind, "05"), of_05);
        }
        for kind in ["GK", "GB"] {
            assert_eq!(supplements(kind, "51"), ["000", "888"]);
            assert_eq!(supplements(kind, "53"), ["000", "888"]);
            assert_eq!(supplements(kind, "54").len(), 1000);
            assert_eq!(supplements(kind, "56"), ["000"]);
        }
    }

    #[test]
    fn the_digits_of_a_supplement_come_before_its_key() {
        for (key, supplement) in [("51", b"0X1"), ("54", b"99 "), ("56", b"/00")] {
            let mut ledger = Ledger::default();
            assert_eq!(ledger.take(Digits(Meaning::Key), key.as_bytes()), Ok(()));
            let answer = ledger.take(Digits(Meaning::Supplement), supplement);
            assert_eq!(answer, Err(Number::NoDigit));
        }
    }

    #[test]
    fn texts_may_be_blank_and_names_not() {
        assert_eq!(taken(Text, b"   "), Ok(()));
        assert_eq!(taken(Name, b"   "), Err(Number::Condition));
        assert_eq!(taken(Name, b" x "), Err(Number::NoTextSign));
        assert_eq!(taken(Name, b" X "), Ok(()));
    }

    #[test]
    fn customer_numbers_are_framed_by_zeros() {
        let customer = Digits(Meaning::Customer);
        assert_eq!(taken(customer, b"0999999999990"), Ok(()));
        assert_eq!(taken(customer, b"1000000000000"), Err(Number::Condition));
        assert_eq!(taken(customer, b"0000000000001"), Err(Number::Condition));
        assert_eq!(taken(customer, b"X000000000001"), Err(Number::NoDigit));
    }

    #[test]
    fn an_execution_date_is_absent_or_a_day_in_its_span() {
        let mut ledger = Ledger::default();
        let created = Digits(Meaning::CreationDate);
        assert_eq!(ledger.take(created, b"150304"), Ok(()));
        let cases = [
            ("        ", Ok(())),
            ("15032004", Ok(())),
            ("1503 004", Err(Number::NoDigit)),
            ("00000000", Err(Number::NoDate)),
            ("14032004", Err(Number::TooEarly)),
            ("31032004", Err(Number::TooLate)),
        ];
        for (date, expected) in cases {
            let answer = ledger.take(ExecutionDate, date.as_bytes());
            assert_eq!(answer, expected, "{date}");
        }
        assert_eq!(ledger.take(created, b"290203"), Err(Number::NoDate));
    }

    #[test]
    fn the_condition_of_a_field_comes_before_its_sum() {
        let top = Totals {
            accounts: 99_999_999_999_999_999,
            bank_codes: 99_999_999_999_999_999,
            cents: 9_999_999_999_999,
            ..Totals::default()
        };
        let cases = [
            (Meaning::CountedBankCode, "90000000", Number::Condition),
            (Meaning::CountedBankCode, "10000000", Number::BankCodesFull),
            (Meaning::CountedAccount, "0000000000", Number::Condition),
            (Meaning::CountedAccount, "0000000001", Number::AccountsFull),
            (Meaning::Amount, "00000000000", Number::Condition),
            (Meaning::Amount, "00000000001", Number::CentsFull),
        ];
        for (meaning, bytes, number) in cases {
            let mut ledger = Ledger::standing_at(top);
            assert_eq!(ledger.take(Digits(meaning), bytes.as_bytes()), Err(number));
        }
    }

    #[test]
    fn bank_codes_and_accounts_of_the_other_side_enter_no_sum() {
        let mut ledger = Ledger::default();
        assert_eq!(ledger.take(Digits(Meaning::BankCode), b"20050010"), Ok(()));
        assert_eq!(ledger.take(Digits(Meaning::Account), b"0001234567"), Ok(()));
        assert_eq!(ledger.totals(), Totals::default());
    }
}
