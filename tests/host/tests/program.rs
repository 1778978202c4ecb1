//! The program itself, as it is linked: texts of every kind, and of the lengths about the most that it reads, against the model. That it
//! reads one byte more than it takes is in no contract, so it is seen here.

use host::model::report::{report, LONGEST};
use host::random::{cases, Random};
use host::tally::Tally;
use host::texts;
use std::io::{ErrorKind, Write};
use std::os::fd::OwnedFd;
use std::os::unix::net::UnixDatagram;
use std::process::{ChildStdin, Command, Stdio};
use std::time::Duration;

const PROGRAM: &str = concat!(env!("CARGO_MANIFEST_DIR"), "/../../crates/plan/out/plan");

const LENGTHS: [usize; 5] = [0, LONGEST - 1, LONGEST, LONGEST + 1, 100_000];

fn main() {
    let mut runs = Tally::default();
    for length in LENGTHS {
        cases("lengths", 8, |random| one_length(random, length, &mut runs));
    }
    for length in [LONGEST, LONGEST + 1] {
        cases("messages", 8, |random| one_message(random, length, &mut runs));
    }
    cases("runs on accepted texts", 200, |random| {
        agree(&texts::accepted(random, 15), AT_ONCE, &mut runs);
    });
    cases("runs on misstated texts", 300, |random| {
        agree(&texts::misstated(random, 6), AT_ONCE, &mut runs);
    });
    cases("runs on mangled texts", 200, |random| {
        agree(&texts::mangled(random, 6), AT_ONCE, &mut runs);
    });
    runs.report(
        "runs of the program",
        &[0, 1, 2, 3, 11, 12, 13, 14, 15, 16],
        1,
    );
}

/// Texts of one length: accepted, accepted up to the last byte, misstated, and any bytes.
fn one_length(random: &mut Random, length: usize, runs: &mut Tally) {
    let accepted = texts::accepted_of_length(random, 11, length);
    let is_planned = (1..=LONGEST).contains(&length);
    assert_eq!(agree(&accepted, AT_ONCE, runs) == 0, is_planned);
    agree(&accepted, IN_PIECES, runs);
    let mut followed = texts::accepted_of_length(random, 11, length.saturating_sub(1));
    followed.resize(length, b'1');
    agree(&followed, AT_ONCE, runs);
    let misstated = texts::misstated_of_length(random, 11, length);
    agree(&misstated, AT_ONCE, runs);
    let any_bytes: Vec<u8> = (0..length).map(|_| random.bits() as u8).collect();
    agree(&any_bytes, AT_ONCE, runs);
}

/// A text of one length that is accepted up to the last byte, as one message of a datagram socket: what is not asked for when it is read is
/// lost.
fn one_message(random: &mut Random, length: usize, runs: &mut Tally) {
    let mut text = texts::accepted_of_length(random, 11, LONGEST);
    text.resize(length, b'1');
    let expected = report(&text);
    assert_eq!(run_on(message(&text)), expected.text.as_bytes());
    runs.count(expected.number);
}

/// An empty message ends the input.
fn message(text: &[u8]) -> Stdio {
    let (ours, theirs) = UnixDatagram::pair().expect("a pair of sockets");
    for part in [text, &[]] {
        ours.send(part).expect("a message is sent whole");
    }
    Stdio::from(OwnedFd::from(theirs))
}

fn run_on(input: Stdio) -> Vec<u8> {
    let output = Command::new(PROGRAM)
        .stdin(input)
        .output()
        .expect("crates/plan/out/plan is built by rt run");
    assert!(output.status.success(), "{}", output.status);
    output.stdout
}

/// How many bytes are written at a time. A pipe hands over what has come so far.
const AT_ONCE: usize = usize::MAX;
const IN_PIECES: usize = 1_000;

/// Every byte that is printed is the model's.
fn agree(text: &[u8], piece: usize, runs: &mut Tally) -> u32 {
    let expected = report(text);
    let found = run(text, piece);
    assert_eq!(
        String::from_utf8_lossy(&found),
        expected.text,
        "what is printed for {} bytes: {:?}",
        text.len(),
        String::from_utf8_lossy(text)
    );
    runs.count(expected.number);
    expected.number
}

fn run(text: &[u8], piece: usize) -> Vec<u8> {
    let mut program = Command::new(PROGRAM)
        .stdin(Stdio::piped())
        .stdout(Stdio::piped())
        .spawn()
        .expect("crates/plan/out/plan is built by rt run");
    let input = program.stdin.take().expect("its input is a pipe");
    hand_over(input, text, piece);
    let output = program.wait_with_output().expect("it ends");
    assert!(output.status.success(), "{}", output.status);
    output.stdout
}

/// A program that has read enough ends, and what is written after that goes nowhere.
fn hand_over(mut input: ChildStdin, text: &[u8], piece: usize) {
    for (at, bytes) in text.chunks(piece).enumerate() {
        if at > 0 {
            std::thread::sleep(Duration::from_millis(1));
        }
        match input.write_all(bytes) {
            Err(error) if error.kind() == ErrorKind::BrokenPipe => {
                assert!(text.len() > LONGEST, "it ended before its input");
                return;
            }
            written => written.expect("the program reads"),
        }
    }
}
