//! Lent columns of numbers: rows are filled from the front where every column has the room, those behind them stay.

use crate::refusal::{Number, Refusal};

/// Columns of 64-bit numbers, lent side by side.
pub type Lent<const WIDTH: usize> = [Vec<u64>; WIDTH];

/// Refuses columns of which any is too short for the rows.
pub fn demand_room<const WIDTH: usize>(
    lent: &Lent<WIDTH>,
    rows: &[[u64; WIDTH]],
) -> Result<(), Refusal> {
    if lent.iter().any(|column| column.len() < rows.len()) {
        return Err(Number::NoRoom.at(0));
    }
    Ok(())
}

/// Puts the rows at the front of columns that have room for them.
pub fn fill<const WIDTH: usize>(lent: &mut Lent<WIDTH>, rows: &[[u64; WIDTH]]) {
    for (nth, column) in lent.iter_mut().enumerate() {
        for (cell, row) in column.iter_mut().zip(rows) {
            *cell = row[nth];
        }
    }
}

#[cfg(test)]
mod tests {
    use super::*;

    #[test]
    fn room_is_as_many_rows_in_every_column() {
        let rows = [[1, 2], [3, 4]];
        let room = |lengths: [usize; 2]| demand_room(&lengths.map(|rows| vec![0; rows]), &rows);
        assert_eq!(room([2, 2]), Ok(()));
        assert_eq!(room([3, 9]), Ok(()));
        assert_eq!(room([1, 2]), Err(Number::NoRoom.at(0)));
        assert_eq!(room([2, 1]), Err(Number::NoRoom.at(0)));
        assert_eq!(demand_room::<2>(&[vec![], vec![]], &[]), Ok(()));
    }

    #[test]
    fn rows_are_put_down_column_by_column() {
        let mut lent = [vec![7, 8], vec![7, 8, 9]];
        fill(&mut lent, &[[1, 2], [3, 4]]);
        assert_eq!(lent, [vec![1, 3], vec![2, 4, 9]]);
        fill(&mut lent, &[]);
        assert_eq!(lent, [vec![1, 3], vec![2, 4, 9]]);
    }
}
