//! Random texts of figures files: accepted ones, and such as have a fault in what they say or in their bytes.

use crate::model::file::HEADING;
use crate::model::MOST;
use crate::random::Random;

/// A text before it is written: the numbers of its lines, which a fault may make any.
struct Draft {
    comments: Vec<Vec<u8>>,
    size: [u64; 3],
    entries: Vec<[u64; 3]>,
}

/// A text that is accepted, of 1 to `most` relations: comments, entries in any order, and pairs that are absent.
pub fn accepted(random: &mut Random, most: u32) -> Vec<u8> {
    write(&draft(random, most))
}

/// A text whose lines have their shape, and whose numbers have a fault or several.
pub fn misstated(random: &mut Random, most: u32) -> Vec<u8> {
    let mut draft = draft(random, most);
    for _ in 0..1 + random.below(2) {
        misstate(random, &mut draft);
    }
    write(&draft)
}

/// A text whose bytes have a fault or several.
pub fn mangled(random: &mut Random, most: u32) -> Vec<u8> {
    let mut text = if random.one_in(4) {
        misstated(random, most)
    } else {
        accepted(random, most)
    };
    for _ in 0..1 + random.below(3) {
        mangle(random, &mut text);
    }
    text
}

/// An accepted text of 0 bytes, which is cut to that, or of far more than its entries take, by comments.
pub fn accepted_of_length(random: &mut Random, most: u32, length: usize) -> Vec<u8> {
    let draft = draft(random, most);
    write_to_length(random, draft, length)
}

/// A misstated text in the same way.
pub fn misstated_of_length(random: &mut Random, most: u32, length: usize) -> Vec<u8> {
    let mut draft = draft(random, most);
    misstate(random, &mut draft);
    write_to_length(random, draft, length)
}

/// Bytes of any kind, after line 1 or not.
pub fn garbage(random: &mut Random, length: usize) -> Vec<u8> {
    let mut text = Vec::new();
    if random.one_in(2) {
        text.extend_from_slice(HEADING);
        text.push(b'\n');
    }
    let is_telling = random.one_in(2);
    for _ in 0..random.below(length + 1) {
        text.push(if is_telling {
            telling_byte(random)
        } else {
            random.bits() as u8
        });
    }
    text
}

// ---- drafts

fn draft(random: &mut Random, most: u32) -> Draft {
    let n = random.within(1..=most);
    let mut entries = Vec::new();
    for i in 1..=n {
        entries.push([i.into(), i.into(), random.number().into()]);
        for j in 1..i {
            if random.one_in(2) {
                entries.push([i.into(), j.into(), random.number().max(1).into()]);
            }
        }
    }
    random.shuffle(&mut entries);
    Draft {
        comments: (0..random.below(4)).map(|_| comment(random)).collect(),
        size: [n.into(), n.into(), entries.len() as u64],
        entries,
    }
}

/// The bytes of a comment after its sign: any but a line feed. Some are longer than the 8,192 bytes that the program takes, which bind
/// neither the reader nor the C call.
fn comment(random: &mut Random) -> Vec<u8> {
    let most = if random.one_in(200) { 10_000 } else { 20 };
    (0..random.below(most))
        .map(|_| random.bits() as u8)
        .filter(|&byte| byte != b'\n')
        .collect()
}

fn write(draft: &Draft) -> Vec<u8> {
    let mut text = HEADING.to_vec();
    text.push(b'\n');
    for comment in &draft.comments {
        text.push(b'%');
        text.extend_from_slice(comment);
        text.push(b'\n');
    }
    for [a, b, c] in std::iter::once(&draft.size).chain(&draft.entries) {
        text.extend_from_slice(format!("{a} {b} {c}\n").as_bytes());
    }
    text
}

fn write_to_length(random: &mut Random, mut draft: Draft, length: usize) -> Vec<u8> {
    draft.comments.clear();
    let mut missing = length.saturating_sub(write(&draft).len());
    // A comment takes two bytes with its sign and its feed, so no byte may be left alone.
    while missing > 0 {
        let bytes = random.pick(&[2, 3, 80, 10_000]).min(missing);
        let bytes = bytes + usize::from(missing - bytes == 1);
        draft.comments.push(vec![b'%'; bytes - 2]);
        missing -= bytes;
    }
    let mut text = write(&draft);
    text.truncate(length);
    text
}

fn misstate(random: &mut Random, draft: &mut Draft) {
    let at = random.below(draft.entries.len().max(1));
    let other = random.below(draft.entries.len().max(1));
    let lines = draft.entries.len() as u64;
    match random.below(10) {
        0 => draft.size[random.below(2)] = telling_number(random),
        1 => {
            let n = telling_number(random);
            draft.size = [n, n, draft.size[2]];
        }
        2 => draft.size[2] = random.pick(&[0, lines + 1, lines.saturating_sub(1)]),
        3 => draft.size[2] = telling_number(random),
        _ if draft.entries.is_empty() => {}
        // An entry is dropped, with its line in the size line or without.
        4 => {
            draft.entries.remove(at);
            draft.size[2] = lines - random.bits() % 2;
        }
        // A place is given twice.
        5 => {
            let [i, j, value] = draft.entries[other];
            draft
                .entries
                .insert(at, [i, j, random.pick(&[value, 0, 7])]);
            draft.size[2] = lines + 1;
        }
        // A place above the diagonal.
        6 => draft.entries[at].swap(0, 1),
        7 => {
            let n = draft.size[0];
            draft.entries[at][random.below(2)] = random.pick(&[0, n, n.wrapping_add(1)]);
        }
        8 => draft.entries[at][2] = random.pick(&[0, u64::from(u32::MAX) + 1]),
        _ => draft.entries[at][random.below(3)] = telling_number(random),
    }
}

/// A number at an edge: of what a relation, n or a figure may be, and of the widths that a reader may use.
fn telling_number(random: &mut Random) -> u64 {
    let most = u64::from(MOST);
    random.pick(&[
        0,
        1,
        2,
        most,
        most + 1,
        256 + 1,
        (1 << 16) + 1,
        (1 << 32) - 1,
        1 << 32,
        (1 << 32) + 1,
        1 << 63,
        u64::MAX,
    ])
}

// ---- bytes

fn telling_byte(random: &mut Random) -> u8 {
    random.pick(b"0011223459  \n\n\n%%\r\t\0+-.,ex\x0b\x0c\x1a\xff")
}

/// A place to change: seldom in line 1, where every fault is the same.
fn place(random: &mut Random, text: &[u8]) -> usize {
    let start = HEADING.len() + 1;
    if text.len() > start && !random.one_in(12) {
        return start + random.below(text.len() - start);
    }
    random.below(text.len())
}

fn mangle(random: &mut Random, text: &mut Vec<u8>) {
    if text.is_empty() {
        return;
    }
    let at = place(random, text);
    match random.below(12) {
        0 => text[at] = telling_byte(random),
        1 => text[at] = random.bits() as u8,
        2 => drop(text.remove(at)),
        3 => text.insert(at, text[at]),
        4 => text.insert(at, telling_byte(random)),
        5 if at > 0 => text.swap(at - 1, at),
        6 => text.truncate(at),
        7 => text.push(telling_byte(random)),
        8 => mangle_number(random, text, at),
        9 => *text = end_lines_by_cr_lf(text),
        _ => mangle_lines(random, text),
    }
}

/// The number at or after a place gets a leading zero or a sign, is made huge, or is exchanged.
fn mangle_number(random: &mut Random, text: &mut Vec<u8>, at: usize) {
    let is_digit = |byte: &u8| byte.is_ascii_digit();
    let Some(start) = text[at..]
        .iter()
        .position(is_digit)
        .map(|skipped| at + skipped)
    else {
        return;
    };
    let end = start
        + text[start..]
            .iter()
            .take_while(|byte| is_digit(byte))
            .count();
    let word = text[start..end].to_vec();
    let changed = match random.below(8) {
        0 => [b"0", &word[..]].concat(),
        1 => [b"+", &word[..]].concat(),
        2 => [b"-", &word[..]].concat(),
        3 => [&word[..], b".0"].concat(),
        4 => b"4294967296".to_vec(),
        5 => b"18446744073709551617".to_vec(),
        6 => vec![b'9'; 1 + random.below(300)],
        _ => random.number().to_string().into_bytes(),
    };
    text.splice(start..end, changed);
}

fn end_lines_by_cr_lf(text: &[u8]) -> Vec<u8> {
    let lines: Vec<&[u8]> = text.split(|&byte| byte == b'\n').collect();
    lines.join(&b"\r\n"[..])
}

/// A line is dropped, doubled, exchanged with another, or joined by one of garbage.
fn mangle_lines(random: &mut Random, text: &mut Vec<u8>) {
    let mut lines: Vec<Vec<u8>> = text
        .split_inclusive(|&byte| byte == b'\n')
        .map(<[u8]>::to_vec)
        .collect();
    // Line 1 stays, mostly: without it nothing else is judged.
    let first = usize::from(lines.len() > 1 && !random.one_in(12));
    let at = first + random.below(lines.len() - first);
    let other = first + random.below(lines.len() - first);
    match random.below(5) {
        0 => drop(lines.remove(at)),
        1 => lines.insert(other, lines[at].clone()),
        2 => lines.swap(at, other),
        3 => lines.insert(at, b"\n".to_vec()),
        _ => lines.insert(at, [&comment(random)[..], b"\n"].concat()),
    }
    *text = lines.concat();
}
