//! What the probe answers, and when.

use super::*;
use crate::samples::{self, m, m_listing, Pieces};
use std::cell::RefCell;
use std::rc::Rc;

mod medium;

/// A request: head line, input, lent content.
fn request(letter: char, numbers: [usize; 4], input: &[u8], content: &[u8]) -> Vec<u8> {
    let numbers: String = numbers.map(|number| format!(" {number:06}")).concat();
    let head = format!("{letter} {:06}{numbers}\n", input.len());
    [head.as_bytes(), input, content].concat()
}

fn check_m() -> Vec<u8> {
    request('C', [0; 4], &m(), b"")
}

/// The answers to what comes in, in pieces of several lengths.
fn answers(input: &[u8]) -> String {
    let answered = |longest| {
        let mut output = Vec::new();
        assert!(serve(Pieces::of(input, longest), &mut output).is_ok());
        output
    };
    let whole = answered(usize::MAX);
    assert_eq!(answered(7), whole);
    assert_eq!(answered(100), whole);
    String::from_utf8_lossy(&whole).into_owned()
}

const CHECKED_M: &str = "0\t0\t1\t7654321\t30050020\t12345\n";

#[test]
fn nothing_in_nothing_out() {
    assert_eq!(answers(b""), "");
}

#[test]
fn checks_are_answered_in_order() {
    let input = [check_m(), request('C', [0; 4], b"", b""), check_m()].concat();
    let expected = format!("{CHECKED_M}1\t0\t0\t0\t0\t0\n{CHECKED_M}");
    assert_eq!(answers(&input), expected);
}

#[test]
fn columns_come_back_as_they_are_after_the_call() {
    let rows =
        |values: &[u64]| -> String { values.iter().map(|value| format!("{value:017}")).collect() };
    let content = rows(&[1]) + &rows(&[2, 3]) + &rows(&[4, 5]) + "0000000000000000X";
    let loaded = request('L', [1, 2, 2, 1], &m(), content.as_bytes());
    let expected = format!("{CHECKED_M}30050020 \n7654321 3 \n12345 5 \n128 \n");
    assert_eq!(answers(&loaded), expected);
    let short = request(
        'L',
        [1, 0, 1, 1],
        &m(),
        (rows(&[1, 2]) + "a".repeat(17).as_str()).as_bytes(),
    );
    assert_eq!(answers(&short), "16\t0\t0\t0\t0\t0\n1 \n\n2 \n0 \n");
    let refused = request('L', [1, 0, 0, 0], b"", rows(&[9]).as_bytes());
    assert_eq!(answers(&refused), "1\t0\t0\t0\t0\t0\n9 \n\n\n\n");
}

#[test]
fn outputs_come_back_whole() {
    let listed = request('P', [195, 0, 0, 0], &m(), &[b'.'; 195]);
    assert_eq!(answers(&listed), format!("0\t0\t193\n{}..\n", m_listing()));
    let short = request('P', [3, 0, 0, 0], &m(), b"abc");
    assert_eq!(answers(&short), "16\t0\t0\nabc\n");
    let made = request('M', [513, 0, 0, 0], m_listing().as_bytes(), &[b'.'; 513]);
    let file = String::from_utf8_lossy(&m()).into_owned();
    assert_eq!(answers(&made), format!("0\t0\t512\n{file}.\n"));
    let refused = request('M', [0; 4], b"", b"");
    assert_eq!(answers(&refused), "18\t0\t0\n\n");
}

/// Every call over the file refuses it so and leaves what it was lent.
fn all_refuse(file: &[u8], refusal: &str) {
    let checked = request('C', [0; 4], file, b"");
    assert_eq!(answers(&checked), format!("{refusal}\t0\t0\t0\t0\n"));
    let loaded = request('L', [1, 0, 0, 0], file, b"00000000000000009");
    let expected = format!("{refusal}\t0\t0\t0\t0\n9 \n\n\n\n");
    assert_eq!(answers(&loaded), expected);
    medium::is_refused(file, refusal);
    let listed = request('P', [3, 0, 0, 0], file, b"abc");
    assert_eq!(answers(&listed), format!("{refusal}\t0\nabc\n"));
    let nothing = format!("{refusal}\t0\t0\n");
    assert_eq!(viewed('F', [0, 0, 0], file), nothing);
    assert_eq!(viewed('H', [128, 14, 0], file), nothing);
    assert_eq!(viewed('V', [0, 14, 0], file), format!("{refusal}\t0\n\n"));
}

/// Composing refuses the listing so and leaves what it was lent.
fn composing_refuses(listing: &str, refusal: &str) {
    let made = request('M', [3, 0, 0, 0], listing.as_bytes(), b"abc");
    assert_eq!(answers(&made), format!("{refusal}\t0\nabc\n"));
}

#[test]
fn a_supplement_that_its_key_lacks_is_21_in_every_call() {
    all_refuse(&samples::changed(m(), 174, b"051"), "21\t174");
    let listing = m_listing().replace("\t000\t", "\t051\t");
    composing_refuses(&listing, "21\t113");
}

#[test]
fn every_call_tells_what_is_wrong_with_a_date() {
    for (date, number) in [("29022003", 10), ("14032004", 22), ("31032004", 23)] {
        let file = samples::changed(m(), 95, date.as_bytes());
        all_refuse(&file, &format!("{number}\t95"));
        let listing = m_listing().replacen("\t\n", &format!("\t{date}\n"), 1);
        composing_refuses(&listing, &format!("{number}\t64"));
    }
    all_refuse(&samples::changed(m(), 50, b"290203"), "10\t50");
    composing_refuses(&m_listing().replace("150304", "290203"), "10\t35");
}

/// The answer to a call of the view: `numbers` are a payment or a start, a field and a part.
fn viewed(letter: char, [which, field, part]: [usize; 3], input: &[u8]) -> String {
    // Whatever the last number is, nothing is lent.
    answers(&request(letter, [which, field, part, 7], input, b""))
}

#[test]
fn a_view_is_found_by_the_number_of_its_payment() {
    assert_eq!(viewed('F', [0, 3, 5], &m()), "0\t0\t128\t512\n");
    let payments = [2, 0, 15].map(|parts| samples::payment(7, &samples::parts(parts)));
    let file = samples::file(&payments);
    let starts = ["128\t1536", "384\t1536", "640\t1536"];
    for (n, figures) in starts.iter().enumerate() {
        assert_eq!(viewed('F', [n, 0, 0], &file), format!("0\t0\t{figures}\n"));
    }
    for n in [3, 4, 640, 999_998, 999_999] {
        assert_eq!(viewed('F', [n, 0, 0], &file), "19\t0\t0\t0\n");
    }
}

#[test]
fn hand_outs_are_told_by_their_borders() {
    // The part is looked at only where no field is named.
    let texts = [
        ([128, 14, 0], "221\t248"),
        ([128, 15, 999_999], "256\t283"),
        ([128, 16, 2], "283\t310"),
        ([128, 0, 1], "317\t344"),
        ([128, 17, 1], "317\t344"),
        ([128, 999_999, 1], "317\t344"),
    ];
    for (numbers, borders) in texts {
        assert_eq!(viewed('H', numbers, &m()), format!("0\t0\t{borders}\n"));
    }
    for start in [0, 127, 129, 256, 384, 512, 513, 999_998, 999_999] {
        assert_eq!(viewed('H', [start, 14, 1], &m()), "19\t0\t0\t0\n");
    }
    for part in [0, 2, 15, 16, 999_998, 999_999] {
        assert_eq!(viewed('H', [128, 0, part], &m()), "19\t0\t0\t0\n");
    }
}

#[test]
fn texts_are_answered_whole() {
    let texts = [
        ([0, 14, 0], "MEIER KG"),
        ([0, 15, 999_999], "MUSTER GMBH"),
        ([0, 16, 2], "RECHNUNG 17"),
        ([0, 0, 1], "KUNDE 4"),
    ];
    for (numbers, text) in texts {
        let expected = format!("0\t0\t27\n{text:27}\n");
        assert_eq!(viewed('V', numbers, &m()), expected);
    }
    for numbers in [[1, 14, 0], [128, 15, 0], [999_999, 16, 0], [1, 0, 1]] {
        assert_eq!(viewed('V', numbers, &m()), "19\t0\t0\n\n");
    }
    for part in [0, 2, 15, 16, 999_998, 999_999] {
        assert_eq!(viewed('V', [0, 0, part], &m()), "19\t0\t0\n\n");
    }
}

#[test]
fn a_files_refusal_comes_before_19() {
    let wrong_count = samples::changed(m(), 394, b"0000002");
    let files = [
        (&b""[..], "1\t0"),
        (&m()[..130], "1\t128"),
        (&wrong_count, "14\t394"),
    ];
    for (file, refusal) in files {
        for which in [0, 1, 128, 999_999] {
            for part in [0, 1, 2] {
                let numbers = [which, 0, part];
                assert_eq!(viewed('F', numbers, file), format!("{refusal}\t0\t0\n"));
                assert_eq!(viewed('H', numbers, file), format!("{refusal}\t0\t0\n"));
                assert_eq!(viewed('V', numbers, file), format!("{refusal}\t0\n\n"));
            }
        }
    }
}

#[test]
fn calls_of_the_view_stand_among_others() {
    let requests = [
        request('F', [0; 4], &m(), b""),
        check_m(),
        request('H', [128, 14, 0, 0], &m(), b""),
        check_m(),
        request('V', [0, 14, 0, 0], &m(), b""),
        check_m(),
    ];
    let expected = [
        "0\t0\t128\t512\n",
        CHECKED_M,
        "0\t0\t221\t248\n",
        CHECKED_M,
        "0\t0\t27\nMEIER KG                   \n",
        CHECKED_M,
    ];
    assert_eq!(answers(&requests.concat()), expected.concat());
}

#[test]
fn a_bad_head_ends_the_program() {
    let heads = [
        "X 000000 000000 000000 000000 000000\n",
        "C 00000X 000000 000000 000000 000000\n",
        "P 000000 065537 000000 000000 000000\n",
        "F 065537 000000 000000 000000 000000\n",
        "H 000000 00000X 000000 000000 000000\n",
        "V 000000 000000 000000 000000 00000X\n",
    ];
    for head in heads {
        let input = [&check_m(), head.as_bytes(), &check_m()].concat();
        assert_eq!(
            answers(&input),
            format!("{CHECKED_M}bad request\n"),
            "{head}"
        );
    }
}

#[test]
fn the_largest_requests_are_answered() {
    let largest = request(
        'M',
        [65_536, 0, 0, 0],
        &vec![b'\n'; 65_536],
        &vec![b'.'; 65_536],
    );
    assert_eq!(
        answers(&largest),
        format!("17\t0\t0\n{}\n", ".".repeat(65_536))
    );
    let content = "0".repeat(4 * 256 * 17);
    let largest = request('L', [256; 4], &m(), content.as_bytes());
    assert!(answers(&largest).starts_with(CHECKED_M));
}

#[test]
fn the_largest_file_is_viewed_to_its_last_payment() {
    let file = samples::file(&vec![samples::payment(1, &[]); 255]);
    assert_eq!(file.len(), 65_536);
    assert_eq!(viewed('F', [254, 0, 0], &file), "0\t0\t65152\t65536\n");
    let borders = format!("0\t0\t{}\t{}\n", 65_152 + 155, 65_152 + 182);
    assert_eq!(viewed('H', [65_152, 16, 0], &file), borders);
    let text = format!("0\t0\t27\n{:27}\n", "RECHNUNG 17");
    assert_eq!(viewed('V', [254, 16, 0], &file), text);
    assert_eq!(viewed('F', [255, 0, 0], &file), "19\t0\t0\t0\n");
    assert_eq!(viewed('H', [65_408, 16, 0], &file), "19\t0\t0\t0\n");
    assert_eq!(viewed('V', [255, 16, 0], &file), "19\t0\t0\n\n");
}

#[test]
fn the_library_has_no_limit_of_input() {
    let payments = vec![samples::payment(1, &[]); 200];
    let long = request('C', [0; 4], &samples::file(&payments), b"");
    assert_eq!(answers(&long), "0\t0\t200\t1530864200\t6010004000\t200\n");
}

#[test]
fn a_request_cut_anywhere_is_bad() {
    let mut requests = vec![request('L', [1, 0, 0, 1], &m(), &[b'0'; 34])];
    requests.extend(['F', 'H', 'V'].map(|letter| request(letter, [128, 14, 1, 9], &m(), b"")));
    requests.extend(medium::requests());
    for whole in requests {
        for bytes in 1..whole.len() {
            let mut output = Vec::new();
            assert!(serve(&whole[..bytes], &mut output).is_ok());
            assert_eq!(output, b"bad request\n", "{bytes} bytes");
        }
    }
}

/// An output that others may look at.
#[derive(Clone, Default)]
struct Shared(Rc<RefCell<Vec<u8>>>);

impl Write for Shared {
    fn write(&mut self, bytes: &[u8]) -> io::Result<usize> {
        self.0.borrow_mut().write(bytes)
    }

    fn flush(&mut self) -> io::Result<()> {
        Ok(())
    }
}

/// Gives each piece only when all answers due before it are out.
struct Waiting {
    pieces: Vec<(usize, Vec<u8>)>,
    output: Shared,
}

impl Read for Waiting {
    fn read(&mut self, room: &mut [u8]) -> io::Result<usize> {
        if self.pieces.is_empty() {
            return Ok(0);
        }
        let (due, piece) = self.pieces.remove(0);
        assert_eq!(self.output.0.borrow().len(), due);
        room[..piece.len()].copy_from_slice(&piece);
        Ok(piece.len())
    }
}

#[test]
fn answers_go_out_before_the_program_waits() {
    let (first, second) = (check_m(), check_m());
    // The second request comes in three pieces, the first of them in one go with the first request.
    let pieces = vec![
        (0, [&first, &second[..20]].concat()),
        (CHECKED_M.len(), second[20..300].to_vec()),
        (CHECKED_M.len(), second[300..].to_vec()),
    ];
    let output = Shared::default();
    let input = Waiting {
        pieces,
        output: output.clone(),
    };
    assert!(serve(input, output.clone()).is_ok());
    assert_eq!(output.0.borrow().as_slice(), CHECKED_M.repeat(2).as_bytes());
}
