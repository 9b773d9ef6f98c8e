//! The two dates of a file, the day of its creation and that of its execution, and what may be wrong with either.

use crate::calendar;
use crate::refusal::Number;

/// Calendar days from the creation of a file within which it may be executed.
const LONGEST_DELAY: u64 = 15;

/// What is wrong with a date. Only a day that there is can be early or late.
#[derive(Clone, Copy, Debug, PartialEq, Eq)]
pub enum DateFault {
    NoSuchDay,
    TooEarly,
    TooLate,
}

impl From<DateFault> for Number {
    fn from(fault: DateFault) -> Self {
        match fault {
            DateFault::NoSuchDay => Number::NoDate,
            DateFault::TooEarly => Number::TooEarly,
            DateFault::TooLate => Number::TooLate,
        }
    }
}

/// The day of creation, written DDMMYY, as the number of its day.
pub fn creation(ddmmyy: u64) -> Result<u64, DateFault> {
    calendar::short_date(ddmmyy).ok_or(DateFault::NoSuchDay)
}

/// Holds a day of execution, written DDMMYYYY, against the number of the day of creation.
pub fn execution(ddmmyyyy: u64, created: u64) -> Result<(), DateFault> {
    let day = calendar::long_date(ddmmyyyy).ok_or(DateFault::NoSuchDay)?;
    match day.checked_sub(created) {
        None => Err(DateFault::TooEarly),
        Some(..=LONGEST_DELAY) => Ok(()),
        Some(_) => Err(DateFault::TooLate),
    }
}

#[cfg(test)]
mod tests {
    use super::*;
    use crate::samples::{days_around, days_of};
    use DateFault::{NoSuchDay, TooEarly, TooLate};

    /// A day of execution held against the day of creation, both as they are written.
    fn held(created: u64, executed: u64) -> Result<(), DateFault> {
        execution(executed, creation(created)?)
    }

    /// The day DDMMYYYY written DDMMYY.
    fn short(ddmmyyyy: u64) -> u64 {
        ddmmyyyy / 10_000 * 100 + ddmmyyyy % 100
    }

    #[test]
    fn each_fault_has_a_number_of_its_own() {
        let numbers = [NoSuchDay, TooEarly, TooLate].map(Number::from);
        assert_eq!(numbers, [Number::NoDate, Number::TooEarly, Number::TooLate]);
    }

    #[test]
    fn a_day_falls_into_the_case_that_stepping_gives() {
        let creations = [
            1_011_980, 31_121_999, 29_022_000, 14_022_003, 14_022_004, 15_032_004, 31_122_079,
        ];
        for created in creations {
            let mut in_order = 0;
            // The first and the last century year of this run are no leap years.
            for (day, steps) in days_around(created, 1890..=2110) {
                let expected = match steps {
                    None => Err(TooEarly),
                    Some(0..=15) => Ok(()),
                    Some(_) => Err(TooLate),
                };
                let answer = held(short(created), day);
                assert_eq!(answer, expected, "{day:08} for {created:08}");
                in_order += u64::from(answer.is_ok());
            }
            assert_eq!(in_order, 16, "{created:08}");
        }
    }

    #[test]
    fn every_day_of_creation_admits_sixteen_days() {
        // The day before, the day itself and fifteen more, the day behind them.
        let expected = [&[Err(TooEarly)][..], &[Ok(()); 16], &[Err(TooLate)]].concat();
        let days: Vec<u64> = days_of(1979..=2080).collect();
        let mut creations = 0;
        for run in days.windows(expected.len()) {
            let created = run[1];
            if (1980..2080).contains(&(created % 10_000)) {
                let told: Vec<_> = run.iter().map(|&day| held(short(created), day)).collect();
                assert_eq!(told, expected, "{created:08}");
                creations += 1;
            }
        }
        assert_eq!(creations, 36_525);
    }

    #[test]
    fn what_is_no_day_is_neither_early_nor_late() {
        let is_day = |written: &u64| held(150_304, *written) != Err(NoSuchDay);
        // In the order of the calendar: by the month, then by the day.
        let written_in = |year| {
            (0..10_000).map(move |month_and_day: u64| {
                let (month, day) = (month_and_day / 100, month_and_day % 100);
                day * 1_000_000 + month * 10_000 + year
            })
        };
        for year in [1, 1900, 1999, 2000, 2003, 2004, 2005, 2100, 9999] {
            let days: Vec<u64> = written_in(year).filter(is_day).collect();
            assert_eq!(days, Vec::from_iter(days_of(year..=year)), "{year}");
        }
        assert_eq!(written_in(0).filter(is_day).count(), 0);
    }

    #[test]
    fn a_day_of_creation_is_never_early_nor_late() {
        let mut days = 0;
        for written in 0..1_000_000 {
            match creation(written) {
                Ok(_) => days += 1,
                Err(fault) => assert_eq!(fault, NoSuchDay, "{written:06}"),
            }
        }
        assert_eq!(days, 36_525);
    }
}
