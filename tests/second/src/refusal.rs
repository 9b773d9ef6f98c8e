//! The numbers given back, and a refusal: one number and one place.

/// Why an input is refused; the value is the number of the requirements.
#[derive(Clone, Copy, Debug, PartialEq, Eq)]
#[repr(u8)]
pub enum Number {
    NotWhole = 1,
    NotFixed = 2,
    NoDigit = 3,
    NoTextSign = 4,
    NoLength = 5,
    TooManyPayments = 6,
    AccountsFull = 7,
    BankCodesFull = 8,
    CentsFull = 9,
    NoDate = 10,
    Condition = 11,
    NoKey = 12,
    NoMark = 13,
    NotCounted = 14,
    BytesAfterEnd = 15,
    NoRoom = 16,
    NoLine = 17,
    LineMissing = 18,
    NotThere = 19,
    InputTooLong = 20,
    NoSupplement = 21,
    TooEarly = 22,
    TooLate = 23,
}

impl Number {
    /// The refusal with this number at `place`.
    pub fn at(self, place: usize) -> Refusal {
        Refusal {
            number: self,
            place,
        }
    }
}

/// A number and the place, counted from 0, of the first byte it is about.
#[derive(Clone, Copy, Debug, PartialEq, Eq)]
pub struct Refusal {
    pub number: Number,
    pub place: usize,
}

impl Refusal {
    /// The number as it is printed.
    pub fn code(self) -> u8 {
        self.number as u8
    }
}

/// Number and place of a call's answer, 0 and 0 where it is accepted.
pub fn verdict<T>(answer: &Result<T, Refusal>) -> (u8, usize) {
    match answer {
        Ok(_) => (0, 0),
        Err(refusal) => (refusal.code(), refusal.place),
    }
}

/// `Ok` where the condition holds, else the number.
pub fn demand(holds: bool, number: Number) -> Result<(), Number> {
    if holds {
        Ok(())
    } else {
        Err(number)
    }
}

#[cfg(test)]
mod tests {
    use super::*;

    #[test]
    fn numbers_are_those_of_the_requirements() {
        assert_eq!(Number::NotWhole.at(7).code(), 1);
        assert_eq!(Number::CentsFull.at(7).code(), 9);
        assert_eq!(Number::NoDate.at(7).code(), 10);
        assert_eq!(Number::LineMissing.at(7).code(), 18);
        assert_eq!(Number::NotThere.at(7).code(), 19);
        assert_eq!(Number::InputTooLong.at(7).code(), 20);
        assert_eq!(Number::NoSupplement.at(7).code(), 21);
        assert_eq!(Number::TooEarly.at(7).code(), 22);
        assert_eq!(Number::TooLate.at(7).code(), 23);
        assert_eq!(Number::NoKey.at(7).place, 7);
    }

    #[test]
    fn a_verdict_is_0_at_0_where_nothing_is_refused() {
        assert_eq!(verdict(&Ok(5)), (0, 0));
        assert_eq!(verdict::<u64>(&Err(Number::NoKey.at(7))), (12, 7));
    }

    #[test]
    fn a_demand_that_fails_gives_its_number() {
        assert_eq!(demand(true, Number::NoKey), Ok(()));
        assert_eq!(demand(false, Number::NoKey), Err(Number::NoKey));
    }
}
