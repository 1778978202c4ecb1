//! Document 01, "Figures file": a judge of lines.

use super::{is_count_of_relations, number_of_pairs, place_of_pair};
use std::collections::BTreeMap;

pub const HEADING: &[u8] = b"%%MatrixMarket matrix coordinate integer symmetric";

/// What is read. Where the text is refused "every figure and n are zero"; where it is accepted the number and the place are.
#[derive(Clone, Debug, PartialEq)]
pub struct Reading {
    pub number: u32,
    pub place: usize,
    pub n: u32,
    pub counts: [u32; 15],
    pub divisors: [u32; 105],
}

struct Refused {
    number: u32,
    place: usize,
}

pub fn read(text: &[u8]) -> Reading {
    let mut reading = Reading {
        number: 0,
        place: 0,
        n: 0,
        counts: [0; 15],
        divisors: [0; 105],
    };
    match judge(text) {
        Ok((n, entries)) => tell(n, &entries, &mut reading),
        Err(refused) => {
            reading.number = refused.number;
            reading.place = refused.place;
        }
    }
    reading
}

type Entries = BTreeMap<(u32, u32), u32>;

/// The figures that the entries say, into a reading of zeros: "an absent entry off the diagonal means d = 1, never 0".
fn tell(n: u32, entries: &Entries, reading: &mut Reading) {
    reading.n = n;
    reading.divisors[..number_of_pairs(n)].fill(1);
    for (&(i, j), &value) in entries {
        if i == j {
            reading.counts[i as usize - 1] = value;
        } else {
            reading.divisors[place_of_pair(i, j)] = value;
        }
    }
}

/// "Lines are judged from the top."
fn judge(text: &[u8]) -> Result<(u32, Entries), Refused> {
    let mut lines = Lines { text, at: 0 };
    let first = lines.next_line()?;
    if first.bytes != HEADING {
        return Err(first.refused(11));
    }
    let size = after_comments(&mut lines)?;
    let [n, also_n, m] = size.numbers()?;
    if n != also_n {
        return Err(size.refused(2));
    }
    if !is_count_of_relations(n) {
        return Err(size.refused(1));
    }
    let mut entries = Entries::new();
    for _ in 0..m {
        judge_entry(n, &lines.next_line()?, &mut entries)?;
    }
    judge_end(n, &lines, &entries)?;
    Ok((n, entries))
}

/// "Then any number of lines beginning %": the first line that does not.
fn after_comments<'a>(lines: &mut Lines<'a>) -> Result<Line<'a>, Refused> {
    loop {
        let line = lines.next_line()?;
        if !line.bytes.starts_with(b"%") {
            return Ok(line);
        }
    }
}

/// "Place not in the lower triangle of n by n (14), a place given twice (13), d of 0 (3)."
fn judge_entry(n: u32, line: &Line, entries: &mut Entries) -> Result<(), Refused> {
    let [i, j, value] = line.numbers()?;
    if !(1 <= j && j <= i && i <= n) {
        return Err(line.refused(14));
    }
    if entries.contains_key(&(i, j)) {
        return Err(line.refused(13));
    }
    if i != j && value == 0 {
        return Err(line.refused(3));
    }
    entries.insert((i, j), value);
    Ok(())
}

/// "After the last line: extra bytes (11), then a missing diagonal (12)."
fn judge_end(n: u32, lines: &Lines, entries: &Entries) -> Result<(), Refused> {
    let place = lines.at;
    if place < lines.text.len() {
        return Err(Refused { number: 11, place });
    }
    if (1..=n).any(|k| !entries.contains_key(&(k, k))) {
        return Err(Refused { number: 12, place });
    }
    Ok(())
}

struct Lines<'a> {
    text: &'a [u8],
    at: usize,
}

struct Line<'a> {
    start: usize,
    bytes: &'a [u8],
}

impl<'a> Lines<'a> {
    /// "A line that is missing altogether is 11, and so is a last line without its feed." Both are at the place reached: the first has the
    /// text's length, the second its own start.
    fn next_line(&mut self) -> Result<Line<'a>, Refused> {
        let start = self.at;
        let rest = &self.text[start..];
        match rest.iter().position(|&byte| byte == b'\n') {
            Some(length) => {
                self.at = start + length + 1;
                Ok(Line {
                    start,
                    bytes: &rest[..length],
                })
            }
            None => Err(Refused {
                number: 11,
                place: start,
            }),
        }
    }
}

impl Line<'_> {
    fn refused(&self, number: u32) -> Refused {
        Refused {
            number,
            place: self.start,
        }
    }

    /// "On one line: shape (11), number above 4,294,967,295 (15)."
    fn numbers(&self) -> Result<[u32; 3], Refused> {
        let words: Vec<&[u8]> = self.bytes.split(|&byte| byte == b' ').collect();
        if words.len() != 3 || !words.iter().all(|word| is_number(word)) {
            return Err(self.refused(11));
        }
        let mut numbers = [0; 3];
        for (number, word) in numbers.iter_mut().zip(words) {
            let digits = std::str::from_utf8(word).expect("digits are text");
            *number = digits.parse().map_err(|_| self.refused(15))?;
        }
        Ok(numbers)
    }
}

/// "Numbers are decimal without sign or leading zeros (0 is "0")."
fn is_number(word: &[u8]) -> bool {
    let has_leading_zero = word.len() > 1 && word[0] == b'0';
    !word.is_empty() && word.iter().all(u8::is_ascii_digit) && !has_leading_zero
}
