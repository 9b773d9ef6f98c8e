//! The count of payments and the three sums, each with its limit; they never meet in one addition.

use crate::refusal::{demand, Number};

/// As many payments as E4 can name.
const MOST_PAYMENTS: u64 = 9_999_999;
/// The greatest sum of 17 digits, for the accounts and for the bank codes.
const TOP_OF_17_DIGITS: u64 = 99_999_999_999_999_999;
/// The greatest sum of 13 digits, for the cents.
const TOP_OF_CENTS: u64 = 9_999_999_999_999;

/// What the payments read so far come to.
#[derive(Clone, Copy, Debug, Default, PartialEq, Eq)]
pub struct Totals {
    pub count: u64,
    pub accounts: u64,
    pub bank_codes: u64,
    pub cents: u64,
}

impl Totals {
    /// Whether a further payment may begin: every payment has at least one cent, so none fits a full total.
    pub fn room_for_payment(&self) -> Result<(), Number> {
        demand(self.count < MOST_PAYMENTS, Number::TooManyPayments)?;
        demand(self.cents < TOP_OF_CENTS, Number::CentsFull)
    }

    /// Counts a payment that has been read whole.
    pub fn count_payment(&mut self) {
        self.count = self.count.saturating_add(1);
    }

    pub fn add_account(&mut self, account: u64) -> Result<(), Number> {
        self.accounts =
            sum_up_to(TOP_OF_17_DIGITS, self.accounts, account).ok_or(Number::AccountsFull)?;
        Ok(())
    }

    pub fn add_bank_code(&mut self, bank_code: u64) -> Result<(), Number> {
        self.bank_codes =
            sum_up_to(TOP_OF_17_DIGITS, self.bank_codes, bank_code).ok_or(Number::BankCodesFull)?;
        Ok(())
    }

    pub fn add_cents(&mut self, cents: u64) -> Result<(), Number> {
        self.cents = sum_up_to(TOP_OF_CENTS, self.cents, cents).ok_or(Number::CentsFull)?;
        Ok(())
    }
}

/// The sum, unless it passes the top.
fn sum_up_to(top: u64, sum: u64, more: u64) -> Option<u64> {
    sum.checked_add(more).filter(|&grown| grown <= top)
}

#[cfg(test)]
mod tests {
    use super::*;

    #[test]
    fn sums_stop_at_their_tops() {
        let mut totals = Totals::default();
        assert_eq!(totals.add_account(99_999_999_999_999_998), Ok(()));
        assert_eq!(totals.add_account(2), Err(Number::AccountsFull));
        assert_eq!(totals.add_account(1), Ok(()));
        assert_eq!(totals.add_bank_code(99_999_999_999_999_999), Ok(()));
        assert_eq!(totals.add_bank_code(1), Err(Number::BankCodesFull));
        assert_eq!(totals.add_cents(9_999_999_999_999), Ok(()));
        assert_eq!(totals.add_cents(1), Err(Number::CentsFull));
        assert_eq!(totals.add_cents(u64::MAX), Err(Number::CentsFull));
        assert_eq!(totals.accounts, 99_999_999_999_999_999);
    }

    #[test]
    fn no_payment_begins_at_a_top() {
        let mut totals = Totals {
            count: 9_999_998,
            cents: 9_999_999_999_998,
            ..Totals::default()
        };
        assert_eq!(totals.room_for_payment(), Ok(()));
        totals.cents += 1;
        assert_eq!(totals.room_for_payment(), Err(Number::CentsFull));
        totals.count_payment();
        assert_eq!(totals.room_for_payment(), Err(Number::TooManyPayments));
        totals.cents = 0;
        assert_eq!(totals.room_for_payment(), Err(Number::TooManyPayments));
    }
}
