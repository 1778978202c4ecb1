//! Texts of every kind through the reader of figures files, against the model.

use host::model::file::{self, HEADING};
use host::random::cases;
use host::tally::Tally;
use host::{exports, texts};

fn main() {
    let mut reads = Tally::default();
    cases("accepted texts", 20_000, |random| {
        let text = texts::accepted(random, 15);
        assert_eq!(
            agree(&text, &mut reads),
            0,
            "the text is meant to be accepted"
        );
    });
    cases("misstated texts", 60_000, |random| {
        agree(&texts::misstated(random, 15), &mut reads);
    });
    cases("mangled texts", 120_000, |random| {
        agree(&texts::mangled(random, 6), &mut reads);
    });
    cases("texts cut short", 200, |random| {
        let text = texts::accepted(random, 5);
        for length in 0..=text.len() {
            agree(&text[..length], &mut reads);
        }
    });
    cases("garbage", 20_000, |random| {
        agree(&texts::garbage(random, 100), &mut reads);
    });
    cases("long garbage", 20, |random| {
        agree(&texts::garbage(random, 1_000_000), &mut reads);
    });
    long_lines(&mut reads);
    reads.report("texts read", &[0, 1, 2, 3, 11, 12, 13, 14, 15], 100);
}

/// The number, the place, n and every figure are the model's.
fn agree(text: &[u8], reads: &mut Tally) -> u32 {
    let (found, expected) = (exports::read(text), file::read(text));
    assert_eq!(
        found,
        expected,
        "what is read of {:?}",
        String::from_utf8_lossy(text)
    );
    reads.count(found.number);
    found.number
}

/// Lines and numbers of a million bytes.
fn long_lines(reads: &mut Tally) {
    let digits = "9".repeat(1_000_000);
    let zeros = "0".repeat(1_000_000);
    let comments = "%\n".repeat(500_000);
    let sound = "1 1 1\n1 1 5\n";
    for (rest, number) in [
        (format!("%{digits}\n{sound}"), 0),
        (format!("{comments}{sound}"), 0),
        (format!("{digits} 1 1\n1 1 5\n"), 15),
        (format!("1 1 1\n1 1 {digits}\n"), 15),
        (format!("1 1 1\n1 1 0{digits}\n"), 11),
        (format!("1 1 1\n1 1 {zeros}\n"), 11),
        (format!("1 1 1\n1 1 {digits}"), 11),
        (format!("{sound}{digits}"), 11),
    ] {
        let text = [HEADING, b"\n", rest.as_bytes()].concat();
        assert_eq!(agree(&text, reads), number);
    }
}
