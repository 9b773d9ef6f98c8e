//! Damaged files and listings by the thousand: what is accepted goes there and back unchanged.

use crate::check::check;
use crate::compose::compose;
use crate::dice::Dice;
use crate::listing::list;
use crate::output::Filling;
use crate::refusal::Refusal;
use crate::samples;
use crate::signs::without_closing_blanks;
use crate::view::{Text, View};

/// What the call writes into an output with room enough.
fn written(call: Filling, input: &[u8]) -> Result<Vec<u8>, Refusal> {
    let mut output = vec![0; 4096];
    let length = call(input, &mut output)?;
    output.truncate(length);
    Ok(output)
}

fn sample_file(dice: &mut Dice) -> Vec<u8> {
    let payments: Vec<_> = (0..=dice.below(3))
        .map(|_| samples::payment(7, &samples::parts(dice.below(16))))
        .collect();
    samples::file(&payments)
}

#[test]
fn accepted_files_come_back_from_their_listing() {
    let mut dice = Dice(2002);
    let mut accepted = 0;
    for _ in 0..4_000 {
        let mut file = sample_file(&mut dice);
        dice.damage(&mut file);
        let listing = written(list, &file);
        assert_eq!(listing.as_ref().err(), check(&file).as_ref().err());
        if let Ok(listing) = listing {
            accepted += 1;
            assert_eq!(written(compose, &listing), Ok(file));
        }
    }
    assert!((400..3_600).contains(&accepted), "{accepted} accepted");
}

#[test]
fn accepted_listings_come_back_from_their_file() {
    let mut dice = Dice(1974);
    let mut accepted = 0;
    for _ in 0..4_000 {
        let mut listing = written(list, &sample_file(&mut dice)).unwrap_or_default();
        dice.damage(&mut listing);
        if let Ok(file) = written(compose, &listing) {
            accepted += 1;
            assert!(check(&file).is_ok());
            assert_eq!(written(list, &file), Ok(listing));
        }
    }
    assert!((400..3_600).contains(&accepted), "{accepted} accepted");
}

/// All that a view hands out, without closing blanks.
fn texts(view: View) -> Vec<Vec<u8>> {
    let named = [Text::C14a, Text::C15, Text::C16];
    let all = named.into_iter().chain((1..).map(Text::Part));
    all.map_while(|text| view.hand_out(text).ok())
        .map(|stretch| without_closing_blanks(stretch.bytes).to_vec())
        .collect()
}

/// The texts in a line of a payment: C14a, C15 and C16, then that of each part behind its mark.
fn texts_in(line: &[u8]) -> Vec<Vec<u8>> {
    let cells: Vec<&[u8]> = line.split(|&byte| byte == b'\t').collect();
    let named = cells[10..13].iter();
    let texts = named.chain(cells[13..].iter().skip(1).step_by(2));
    texts.map(|text| text.to_vec()).collect()
}

#[test]
fn views_hand_out_the_texts_of_the_listing() {
    let mut dice = Dice(27);
    let mut payments = 0;
    for _ in 0..1_000 {
        let mut file = sample_file(&mut dice);
        dice.damage(&mut file);
        match written(list, &file) {
            Err(refusal) => assert_eq!(View::of(&file, 0), Err(refusal)),
            Ok(listing) => {
                let mut views = (0..).map_while(|n| View::of(&file, n).ok());
                for line in String::from_utf8_lossy(&listing).lines().skip(1) {
                    payments += 1;
                    assert_eq!(views.next().map(texts), Some(texts_in(line.as_bytes())));
                }
                assert_eq!(views.next(), None);
            }
        }
    }
    assert!((200..1_800).contains(&payments), "{payments} payments");
}

#[test]
fn a_refusal_but_for_1_stays_whatever_follows() {
    let mut dice = Dice(128);
    for _ in 0..4_000 {
        let mut file = sample_file(&mut dice);
        dice.damage(&mut file);
        if let Err(refusal) = check(&file) {
            file.extend((0..300).map(|_| dice.byte()));
            let later = check(&file);
            assert!(refusal.code() == 1 || later == Err(refusal));
        }
    }
}
