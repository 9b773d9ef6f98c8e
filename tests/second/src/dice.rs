//! Chance for the tests: files made and damaged at random, the same in every run.

use crate::rules::Entry;
use crate::samples;

/// Numbers that look random and are the same in every run.
pub struct Dice(pub u64);

impl Dice {
    pub fn below(&mut self, limit: usize) -> usize {
        self.0 ^= self.0 << 13;
        self.0 ^= self.0 >> 7;
        self.0 ^= self.0 << 17;
        usize::try_from(self.0 % limit as u64).unwrap_or(0)
    }

    /// Bytes that mean something somewhere, so that damage often goes unnoticed.
    pub fn byte(&mut self) -> u8 {
        let signs = b"0123456789AGKLBCE .\t\nx\xFF";
        signs[self.below(signs.len())]
    }

    /// Puts, takes out or changes a few bytes.
    pub fn damage(&mut self, bytes: &mut Vec<u8>) {
        for _ in 0..self.below(3) {
            let place = self.below(bytes.len());
            match self.below(8) {
                0 => bytes.insert(place, self.byte()),
                1 => bytes.truncate(place.max(1)),
                _ => bytes[place] = self.byte(),
            }
        }
    }

    /// A file of one to three payments with any numbers of parts.
    pub fn file(&mut self) -> Vec<u8> {
        let payments: Vec<_> = (0..=self.below(3))
            .map(|_| samples::payment_of(self.entry(), &samples::parts(self.below(16))))
            .collect();
        samples::file(&payments)
    }

    fn entry(&mut self) -> Entry {
        Entry {
            bank_code: 10_000_000 + self.below(80_000_000) as u64,
            account: 1 + self.below(9_999_999_999) as u64,
            cents: 1 + self.below(99_999_999_999) as u64,
        }
    }
}
