//! The two programs: all of standard input in, a listing or a file out, or the line of the refusal.

use crate::input;
use crate::output::Filling;
use crate::refusal::{Number, Refusal};
use std::io::{self, Read, Write};

/// Bytes of input that a program takes.
const MOST_INPUT: usize = 32_768;
/// Bytes of output that a program has room for.
const OUTPUT_ROOM: usize = 65_536;

/// Reads the input to its end and answers it by the call.
pub fn run(call: Filling, mut input: impl Read, mut output: impl Write) -> io::Result<()> {
    let bytes = input::up_to(MOST_INPUT + 1, &mut input);
    // Whoever writes to this program may finish even when it has seen enough; a failing read is the end.
    let _ = io::copy(&mut input, &mut io::sink());
    output.write_all(&answer(call, &bytes))?;
    output.flush()
}

fn answer(call: Filling, bytes: &[u8]) -> Vec<u8> {
    match outcome(call, bytes) {
        Ok(written) => written,
        Err(refusal) => format!("{}\t{}\n", refusal.code(), refusal.place).into_bytes(),
    }
}

fn outcome(call: Filling, bytes: &[u8]) -> Result<Vec<u8>, Refusal> {
    if bytes.len() > MOST_INPUT {
        return Err(Number::InputTooLong.at(MOST_INPUT));
    }
    let mut room = vec![0; OUTPUT_ROOM];
    let length = call(bytes, &mut room)?;
    room.truncate(length);
    Ok(room)
}

#[cfg(test)]
mod tests {
    use super::*;
    use crate::compose::compose;
    use crate::listing::list;
    use crate::samples::{self, m, m_listing, Pieces, A_LINE, C_LINE};

    fn printed(call: Filling, input: &[u8]) -> Vec<u8> {
        let mut output = Vec::new();
        let done = run(call, Pieces::of(input, 1000), &mut output);
        assert!(done.is_ok());
        output
    }

    /// A listing of payments with so many parts each.
    fn listing(payments: usize, parts: usize) -> Vec<u8> {
        let cells: String = samples::parts(parts)
            .iter()
            .map(|(mark, _)| format!("\t{mark}\t"))
            .collect();
        let line = C_LINE.replace("\t02\tKUNDE 4", &cells);
        // Short texts, since the input is limited too.
        let line = line.replace("MEIER KG\tMUSTER GMBH\tRECHNUNG 17", "M\tM\t");
        [A_LINE, &line.repeat(payments)].concat().into_bytes()
    }

    #[test]
    fn m_goes_both_ways() {
        assert_eq!(printed(list, &m()), m_listing().as_bytes());
        assert_eq!(printed(compose, m_listing().as_bytes()), m());
    }

    #[test]
    fn a_refusal_is_one_line() {
        assert_eq!(printed(list, b""), b"1\t0\n");
        assert_eq!(printed(compose, b""), b"18\t0\n");
        let damaged = samples::changed(m(), 394, b"0000002");
        assert_eq!(printed(list, &damaged), b"14\t394\n");
        let mistyped = samples::changed(m(), 174, b"051");
        assert_eq!(printed(list, &mistyped), b"21\t174\n");
        let mistyped = m_listing().replace("\t000\t", "\t051\t");
        assert_eq!(printed(compose, mistyped.as_bytes()), b"21\t113\n");
        let early = samples::changed(m(), 95, b"14032004");
        assert_eq!(printed(list, &early), b"22\t95\n");
        let late = m_listing().replacen("\t\n", "\t31032004\n", 1);
        assert_eq!(printed(compose, late.as_bytes()), b"23\t64\n");
    }

    #[test]
    fn input_of_exactly_the_limit_is_taken() {
        let payments = vec![samples::payment(1, &[]); 126];
        let file = samples::file(&payments);
        assert_eq!(file.len(), 32_512);
        let file = samples::file(&[&payments[..], &payments[..1]].concat());
        assert_eq!(file.len(), 32_768);
        let lines = printed(list, &file);
        assert_eq!(String::from_utf8_lossy(&lines).lines().count(), 128);
        assert_eq!(printed(compose, &lines), file);
    }

    #[test]
    fn one_byte_more_is_20_before_all_else() {
        for call in [list as Filling, compose] {
            assert_eq!(printed(call, &vec![b'x'; 32_769]), b"20\t32768\n");
            assert_eq!(printed(call, &vec![b'x'; 100_000]), b"20\t32768\n");
            assert_ne!(printed(call, &vec![b'x'; 32_768]), b"20\t32768\n");
        }
    }

    #[test]
    fn output_of_exactly_the_room_is_written() {
        for (payments, parts) in [(255, 0), (255, 2), (85, 15)] {
            let file = printed(compose, &listing(payments, parts));
            assert_eq!(file.len(), 65_536, "{parts} parts");
            // Too long for the other program, though it is a good file.
            assert_eq!(printed(list, &file), b"20\t32768\n");
        }
    }

    #[test]
    fn a_file_longer_than_the_room_is_16() {
        for (payments, parts) in [(256, 0), (256, 1), (86, 15)] {
            assert_eq!(printed(compose, &listing(payments, parts)), b"16\t0\n");
        }
    }
}
