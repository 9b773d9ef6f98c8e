//! The program as a process: its arguments, its exit status, and input that comes slowly.

use std::io::{self, Write};
use std::process::{Command, Output, Stdio};
use std::thread::sleep;
use std::time::Duration;

/// The listing of the whole case M.
const M_LISTING: &str = "A\tGK\t20050010\t00000000\tMUSTER GMBH\t150304\t0001234567\t0000000000\t
C\t00000000\t30050020\t0007654321\t0000000000000\t51\t000\t20050010\t0001234567\t00000012345\tMEIER KG\tMUSTER GMBH\tRECHNUNG 17\t02\tKUNDE 4
";

/// Runs the program and gives it the input piece by piece.
fn run(arguments: &[&str], pieces: &[&[u8]]) -> io::Result<Output> {
    let mut child = Command::new(env!("CARGO_BIN_EXE_second"))
        .args(arguments)
        .stdin(Stdio::piped())
        .stdout(Stdio::piped())
        .stderr(Stdio::piped())
        .spawn()?;
    if let Some(mut input) = child.stdin.take() {
        for piece in pieces {
            // Refused arguments end the program before it reads.
            let _ = input.write_all(piece);
            sleep(Duration::from_millis(10));
        }
    }
    child.wait_with_output()
}

#[test]
fn m_goes_both_ways() -> io::Result<()> {
    let made = run(&["make"], &[M_LISTING.as_bytes()])?;
    assert_eq!(made.status.code(), Some(0));
    assert_eq!(made.stdout.len(), 512);
    let listed = run(&["list"], &[&made.stdout])?;
    assert_eq!(listed.status.code(), Some(0));
    assert_eq!(listed.stdout, M_LISTING.as_bytes());
    assert!(made.stderr.is_empty() && listed.stderr.is_empty());
    Ok(())
}

#[test]
fn slow_input_is_read_to_its_end() -> io::Result<()> {
    let pieces: Vec<&[u8]> = M_LISTING.as_bytes().chunks(50).collect();
    let made = run(&["make"], &pieces)?;
    assert_eq!(made.stdout.len(), 512);
    let pieces: Vec<&[u8]> = made.stdout.chunks(100).collect();
    assert_eq!(run(&["list"], &pieces)?.stdout, M_LISTING.as_bytes());
    Ok(())
}

#[test]
fn a_refusal_ends_with_status_0() -> io::Result<()> {
    let refused = run(&["list"], &[b"0128A"])?;
    assert_eq!(refused.status.code(), Some(0));
    assert_eq!(refused.stdout, b"1\t5\n");
    let too_long = run(&["make"], &[&vec![b'x'; 200_000]])?;
    assert_eq!(too_long.stdout, b"20\t32768\n");
    Ok(())
}

#[test]
fn a_probe_answers_and_ends() -> io::Result<()> {
    let head = b"C 000004 000000 000000 000000 000000\n";
    let probed = run(&["probe"], &[head, b"wxyz", head, b"xyz"])?;
    assert_eq!(probed.status.code(), Some(0));
    assert_eq!(probed.stdout, b"2\t0\t0\t0\t0\t0\nbad request\n");
    Ok(())
}

#[test]
fn a_probe_answers_about_media_among_others() -> io::Result<()> {
    let check = b"C 000004 000000 000000 000000 000000\n";
    let medium = format!("N 000004{}\n", " 000000".repeat(11)).into_bytes();
    let requests: [&[u8]; 6] = [check, b"wxyz", &medium, b"wxyz", check, b"xyz"];
    let probed = run(&["probe"], &requests)?;
    assert_eq!(probed.status.code(), Some(0));
    let answers = b"2\t0\t0\t0\t0\t0\n2\t0\t0\t0\nbad request\n";
    assert_eq!(probed.stdout, answers);
    Ok(())
}

#[test]
fn any_other_argument_is_a_usage_error() -> io::Result<()> {
    let wrong: [&[&str]; 4] = [&[], &["check"], &["list", "make"], &["List"]];
    for arguments in wrong {
        let answer = run(arguments, &[])?;
        assert_eq!(answer.status.code(), Some(2), "{arguments:?}");
        assert!(answer.stdout.is_empty());
        let message = String::from_utf8_lossy(&answer.stderr).into_owned();
        assert!(message.starts_with("usage: ") && message.lines().count() == 1);
    }
    Ok(())
}
