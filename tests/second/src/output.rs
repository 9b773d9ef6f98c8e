//! Lent outputs: filled from the front when they have the room, else left as they are.

use crate::refusal::{Number, Refusal};

/// A call that turns an input into what it writes at the front of a lent output; it gives the length written.
pub type Filling = fn(&[u8], &mut [u8]) -> Result<usize, Refusal>;

/// Puts the bytes at the front of the lent output and gives their number.
pub fn deliver(bytes: &[u8], lent: &mut [u8]) -> Result<usize, Refusal> {
    let front = lent.get_mut(..bytes.len()).ok_or(Number::NoRoom.at(0))?;
    front.copy_from_slice(bytes);
    Ok(bytes.len())
}

#[cfg(test)]
mod tests {
    use super::*;

    #[test]
    fn bytes_past_the_length_stay() {
        let mut lent = *b"....";
        assert_eq!(deliver(b"abc", &mut lent), Ok(3));
        assert_eq!(&lent, b"abc.");
    }

    #[test]
    fn an_output_too_short_stays() {
        let mut lent = *b"..";
        assert_eq!(deliver(b"abc", &mut lent), Err(Number::NoRoom.at(0)));
        assert_eq!(&lent, b"..");
        assert_eq!(deliver(b"ab", &mut lent), Ok(2));
    }
}
