//! Media damaged by the thousand, held against the check and load of single files.

use super::*;
use crate::dice::Dice;
use crate::refusal::Number;

/// One to three files end to end, each perhaps damaged.
fn sample_medium(dice: &mut Dice) -> Vec<u8> {
    let mut medium = Vec::new();
    for _ in 0..=dice.below(3) {
        let mut file = dice.file();
        // Most are left whole, so that later files are often reached.
        if dice.below(3) == 0 {
            dice.damage(&mut file);
        }
        medium.extend(file);
    }
    medium
}

/// The files of a medium and their starts, cut by the check of single files: its 15 tells where the first one ends.
fn files_of(medium: &[u8]) -> Result<Vec<(usize, &[u8])>, Refusal> {
    let mut files = Vec::new();
    let mut start = 0;
    loop {
        let rest = &medium[start..];
        let end = match check::check(rest) {
            Ok(_) => rest.len(),
            Err(refusal) if refusal.number == Number::BytesAfterEnd => refusal.place,
            Err(refusal) => return Err(refusal.number.at(start + refusal.place)),
        };
        files.push((start, &rest[..end]));
        start += end;
        if start == medium.len() {
            return Ok(files);
        }
    }
}

/// The columns and the table of the files, each loaded by itself and put behind the one before.
fn loaded_singly(files: &[(usize, &[u8])]) -> (Columns, Table) {
    let mut columns = Columns::default();
    let mut table = Table::default();
    for &(start, file) in files {
        let count = check::check(file).map_or(0, |totals| totals.count as usize);
        let mut own = samples::lent([count; 4]);
        let totals: Totals = load::load(file, &mut own).unwrap_or_default();
        let [_, _, _, starts] = &mut own;
        starts.iter_mut().for_each(|place| *place += start as u64);
        for (column, own) in columns.iter_mut().zip(own) {
            column.extend(own);
        }
        let row = [
            start as u64,
            totals.count,
            totals.accounts,
            totals.bank_codes,
            totals.cents,
        ];
        for (column, number) in table.iter_mut().zip(row) {
            column.push(number);
        }
    }
    (columns, table)
}

/// The medium is loaded as its files are, or refused as the first one in disorder is; two rows more stay in any case.
fn is_told_by_its_files(medium: &[u8]) -> Result<Contents, Refusal> {
    let files = files_of(medium);
    let (mut columns, mut table) = loaded_singly(files.as_deref().unwrap_or_default());
    let rows = |column: &Vec<u64>| column.len() + 2;
    let mut lent_columns = samples::lent(columns.each_ref().map(rows));
    let mut lent_table = samples::lent(table.each_ref().map(rows));
    let answer = load(medium, &mut lent_columns, &mut lent_table);
    let expected = columns.iter_mut().chain(&mut table);
    expected.for_each(|column| column.extend([7, 7]));
    assert_eq!((lent_columns, lent_table), (columns, table));
    assert_eq!(answer.err(), files.err());
    assert_eq!(check(medium), answer);
    answer
}

#[test]
fn media_are_told_by_their_files() {
    let mut dice = Dice(1997);
    let (mut several, mut refused_later) = (0, 0);
    for _ in 0..3_000 {
        let medium = sample_medium(&mut dice);
        // 15 is told of a file in good order that others follow, or what should be others.
        let followed = verdict(&check::check(&medium)).0 == 15;
        match is_told_by_its_files(&medium) {
            Ok(contents) => several += u32::from(contents.files > 1),
            Err(_) => refused_later += u32::from(followed),
        }
    }
    assert!((500..2_500).contains(&several), "{several} of several");
    assert!((200..2_500).contains(&refused_later), "{refused_later}");
}

#[test]
fn no_medium_is_refused_by_15_and_a_refusal_but_for_1_stays() {
    let mut dice = Dice(236);
    let mut refused = 0;
    for _ in 0..3_000 {
        let mut medium = sample_medium(&mut dice);
        let answer = check(&medium);
        medium.extend((0..300).map(|_| dice.byte()));
        let later = check(&medium);
        assert_ne!(verdict(&later).0, 15);
        if let Err(refusal) = answer {
            refused += 1;
            assert_ne!(refusal.number, Number::BytesAfterEnd);
            assert!(refusal.number == Number::NotWhole || later == answer);
        }
    }
    assert!((500..2_500).contains(&refused), "{refused} refused");
}
