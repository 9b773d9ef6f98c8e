//! Loading an accepted file's payments into four lent columns.

use crate::check::{self, Payment};
use crate::columns::{self, Lent};
use crate::refusal::Refusal;
use crate::totals::Totals;

/// Bank code, account, cents and the byte where the payment begins, a row for each payment.
pub type Columns = Lent<4>;

/// Fills the rows of the payments; rows behind them, and all rows of a refused file, stay.
pub fn load(file: &[u8], columns: &mut Columns) -> Result<Totals, Refusal> {
    let reading = check::read(file)?;
    let rows: Vec<_> = reading.payments.iter().map(row).collect();
    columns::demand_room(columns, &rows)?;
    columns::fill(columns, &rows);
    Ok(reading.totals)
}

/// The row of a payment.
pub fn row(payment: &Payment) -> [u64; 4] {
    let entry = payment.entry;
    [
        entry.bank_code,
        entry.account,
        entry.cents,
        payment.start as u64,
    ]
}

#[cfg(test)]
mod tests {
    use super::*;
    use crate::refusal::Number;
    use crate::samples::{self, lent};

    #[test]
    fn rows_are_filled_and_the_tail_stays() {
        let payments = [
            samples::payment(5, &[]),
            samples::payment(6, &[("02", "X")]),
        ];
        let mut columns = lent([2, 3, 2, 4]);
        let totals = load(&samples::file(&payments), &mut columns);
        assert_eq!(totals.map(|totals| totals.cents), Ok(11));
        let expected: Columns = [
            vec![30_050_020, 30_050_020],
            vec![7_654_321, 7_654_321, 7],
            vec![5, 6],
            vec![128, 384, 7, 7],
        ];
        assert_eq!(columns, expected);
    }

    #[test]
    fn any_column_too_short_leaves_all_as_they_are() {
        for short in 0..4 {
            let mut rows = [1; 4];
            rows[short] = 0;
            let mut columns = lent(rows);
            let answer = load(&samples::m(), &mut columns);
            assert_eq!(answer, Err(Number::NoRoom.at(0)));
            assert_eq!(columns, lent(rows));
        }
    }

    #[test]
    fn a_refused_file_comes_before_a_short_column() {
        let mut columns = lent([0; 4]);
        assert_eq!(load(b"", &mut columns), Err(Number::NotWhole.at(0)));
        let mut columns = lent([1; 4]);
        let damaged = samples::changed(samples::m(), 394, b"0000002");
        assert_eq!(
            load(&damaged, &mut columns),
            Err(Number::NotCounted.at(394))
        );
        assert_eq!(columns, lent([1; 4]));
    }
}
