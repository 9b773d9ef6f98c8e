//! A medium: one or more logical files end to end; its check, and its load into columns and a table of the files.

use crate::check::{self, Reading, Stretch};
use crate::columns::{self, Lent};
use crate::load::{self, Columns};
use crate::refusal::Refusal;

/// Start, count, and the sums of accounts, bank codes and cents, a row for each file.
pub type Table = Lent<5>;

/// What all the files of a medium hold. A count over a medium has no limit, and sums over it are not asked for.
#[derive(Clone, Copy, Debug, Default, PartialEq, Eq)]
pub struct Contents {
    pub files: u64,
    pub payments: u64,
}

impl Contents {
    fn of(files: &[Reading]) -> Self {
        Contents {
            files: files.len() as u64,
            payments: files.iter().map(|file| file.totals.count).sum(),
        }
    }
}

/// The numbers of files and payments of a medium.
pub fn check(medium: &[u8]) -> Result<Contents, Refusal> {
    read(medium).map(|files| Contents::of(&files))
}

/// Fills the rows of all payments and files; rows behind them, and all rows where the call is refused, stay.
pub fn load(medium: &[u8], columns: &mut Columns, table: &mut Table) -> Result<Contents, Refusal> {
    let files = read(medium)?;
    let of_payments: Vec<_> = files
        .iter()
        .flat_map(|file| &file.payments)
        .map(load::row)
        .collect();
    let of_files: Vec<_> = files.iter().map(row).collect();
    // Neither is written before both are known to have the room.
    columns::demand_room(columns, &of_payments)?;
    columns::demand_room(table, &of_files)?;
    columns::fill(columns, &of_payments);
    columns::fill(table, &of_files);
    Ok(Contents::of(&files))
}

/// Reads one file behind the other. What follows an E is the next A1, so that nothing can be left over.
fn read(medium: &[u8]) -> Result<Vec<Reading<'_>>, Refusal> {
    let mut files = Vec::new();
    let mut rest = Stretch::all(medium);
    // The first file is looked for even where there are no bytes.
    while files.is_empty() || !rest.bytes.is_empty() {
        let file = check::read_first(rest)?;
        rest = file.rest;
        files.push(file);
    }
    Ok(files)
}

/// The row of a file.
fn row(file: &Reading) -> [u64; 5] {
    let totals = file.totals;
    [
        file.start as u64,
        totals.count,
        totals.accounts,
        totals.bank_codes,
        totals.cents,
    ]
}

#[cfg(test)]
mod tests;
