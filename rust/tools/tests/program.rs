//! The program `capital` over a socket that keeps each write apart: its text must come
//! whole in one, and be what the second calculation says.

use books::generate::{book, Shape};
use books::{damage::damage, Random};
use std::io::Write;
use std::os::fd::OwnedFd;
use std::os::unix::net::UnixDatagram;
use std::process::{Command, Stdio};
use std::time::Duration;

const PROGRAM: &str = concat!(env!("CARGO_MANIFEST_DIR"), "/../../target/bin/capital");

/// What the program writes of an input, write by write.
fn writes(input: &[u8]) -> Vec<String> {
    let (here, there) = UnixDatagram::pair().unwrap();
    here.set_read_timeout(Some(Duration::from_millis(20)))
        .unwrap();
    let mut program = Command::new(PROGRAM)
        .stdin(Stdio::piped())
        .stdout(OwnedFd::from(there))
        .spawn()
        .expect("`scripts/program` makes the program");
    // It reads no more than 64,009 bytes, so that a longer input may not go through.
    let _ = program.stdin.take().unwrap().write_all(input);
    let (mut found, mut bytes) = (Vec::new(), [0; 1024]);
    loop {
        let ended = program.try_wait().unwrap().is_some();
        match here.recv(&mut bytes) {
            Ok(length) if length > 0 => {
                found.push(String::from_utf8_lossy(&bytes[..length]).into_owned())
            }
            _ if ended => return found,
            _ => (),
        }
    }
}

/// The text of a book by the second calculation.
fn text(input: &[u8]) -> String {
    let report = second::charge(input, &second::table());
    if !report.refusal.accepted() {
        return format!(
            "refused {} row {}\n",
            report.refusal.number, report.refusal.row
        );
    }
    let lines = [
        ("interest-specific", report.interest_specific),
        ("interest-general", report.interest_general),
        ("equity-specific", report.equity_specific),
        ("equity-general", report.equity_general),
        ("fx", report.exchange),
        ("commodity", report.commodity),
        ("total", report.total),
    ];
    lines
        .map(|(name, mils)| format!("{name} {mils}\n"))
        .concat()
}

/// Catches a text that is written in pieces: where a pipe fills up or breaks, a reader
/// could get a later piece without an earlier one.
#[test]
fn the_text_is_one_write() {
    for input in [&[0; 8][..], &[0; 7], &[255; 64_100]] {
        assert_eq!(writes(input), [text(input)]);
    }
}

/// Catches a name or a number that is not the report's.
#[test]
fn the_text_is_the_report() {
    let mut refused = 0;
    for case in 0..40 {
        let mut random = Random::of_case(12, case);
        let shape = Shape::new(&mut random, 300);
        let mut input = book(&mut random, &shape).encode().unwrap();
        if case % 2 == 1 {
            damage(&mut random, &mut input);
        }
        let text = text(&input);
        refused += u64::from(text.starts_with("refused"));
        assert_eq!(writes(&input), [text], "case {case}");
    }
    assert!((5..35).contains(&refused), "{refused}");
}
