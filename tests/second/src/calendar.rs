//! Days of the Gregorian calendar, years 0001 to 9999, each as the number of days up to it.

/// Two-digit years from here on belong to the twentieth century.
const PIVOT: u64 = 80;

/// The day written DDMMYY.
pub fn short_date(ddmmyy: u64) -> Option<u64> {
    let two_digits = ddmmyy % 100;
    let century = if two_digits >= PIVOT { 1900 } else { 2000 };
    day_number(
        century + two_digits,
        ddmmyy / 100 % 100,
        ddmmyy / 10_000 % 100,
    )
}

/// The day written DDMMYYYY.
pub fn long_date(ddmmyyyy: u64) -> Option<u64> {
    day_number(
        ddmmyyyy % 10_000,
        ddmmyyyy / 10_000 % 100,
        ddmmyyyy / 1_000_000 % 100,
    )
}

/// Days from the first of January 0001, which is 1, up to the day given; none where there is no such day.
fn day_number(year: u64, month: u64, day: u64) -> Option<u64> {
    let years_before = year.checked_sub(1)?;
    if !(1..=days_in(year, month)).contains(&day) {
        return None;
    }
    let leap_days = years_before / 4 - years_before / 100 + years_before / 400;
    let months_before: u64 = (1..month).map(|earlier| days_in(year, earlier)).sum();
    Some(years_before * 365 + leap_days + months_before + day)
}

/// Days of the month; 0 where there is no such month.
fn days_in(year: u64, month: u64) -> u64 {
    match month {
        1 | 3 | 5 | 7 | 8 | 10 | 12 => 31,
        4 | 6 | 9 | 11 => 30,
        2 if is_leap(year) => 29,
        2 => 28,
        _ => 0,
    }
}

fn is_leap(year: u64) -> bool {
    year.is_multiple_of(4) && (!year.is_multiple_of(100) || year.is_multiple_of(400))
}

#[cfg(test)]
mod tests {
    use super::*;

    #[test]
    fn days_follow_each_other_without_gap() {
        let mut expected = 0;
        for year in 1..=9999 {
            for month in 0..=13 {
                for day in 0..=32 {
                    if let Some(number) = day_number(year, month, day) {
                        expected += 1;
                        assert_eq!(number, expected, "{day}.{month}.{year}");
                    }
                }
            }
        }
        assert_eq!(expected, 3_652_059);
    }

    #[test]
    fn there_is_no_year_zero() {
        assert_eq!(long_date(1_010_000), None);
        assert_eq!(long_date(1_010_001), Some(1));
    }

    #[test]
    fn century_years_are_leap_by_400() {
        assert_eq!(long_date(29_021_900), None);
        assert_eq!(long_date(29_022_100), None);
        assert!(long_date(29_022_000).is_some());
    }

    #[test]
    fn two_digit_years_turn_at_80() {
        assert_eq!(short_date(10_180), long_date(1_011_980));
        assert_eq!(short_date(311_279), long_date(31_122_079));
        assert_eq!(short_date(290_203), None);
        assert_eq!(short_date(290_204), long_date(29_022_004));
        assert_eq!(short_date(0), None);
    }

    #[test]
    fn days_across_a_new_year_are_neighbours() {
        let (last, first) = (short_date(311_299), long_date(1_012_000));
        assert_eq!(last.map(|day| day + 1), first);
    }
}
