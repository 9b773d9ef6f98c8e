//! Taking bytes from an input that may be slow and come in short pieces.

use std::io::Read;

/// The next `most` bytes, or all that are left; a failing read counts as the end of the input.
pub fn up_to(most: usize, input: &mut impl Read) -> Vec<u8> {
    let mut bytes = Vec::with_capacity(most);
    // What came before a failure is in `bytes` already.
    let _ = input.take(most as u64).read_to_end(&mut bytes);
    bytes
}

#[cfg(test)]
mod tests {
    use super::*;
    use std::io;

    /// Gives one byte at a time, then fails.
    struct Failing(usize);

    impl Read for Failing {
        fn read(&mut self, room: &mut [u8]) -> io::Result<usize> {
            match (self.0, room.first_mut()) {
                (0, _) | (_, None) => Err(io::Error::other("gone")),
                (_, Some(byte)) => {
                    *byte = b'x';
                    self.0 -= 1;
                    Ok(1)
                }
            }
        }
    }

    #[test]
    fn takes_no_more_than_asked_for() {
        let mut input = Failing(5);
        assert_eq!(up_to(3, &mut input), b"xxx");
        assert_eq!(up_to(0, &mut input), b"");
        assert_eq!(input.0, 2);
    }

    #[test]
    fn a_failing_read_is_the_end() {
        assert_eq!(up_to(9, &mut Failing(5)), b"xxxxx");
    }
}
