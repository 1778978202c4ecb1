//! Document 01, "Printing the tree".

use super::{is_count_of_relations, members, set_of_all, NO_PLAN};

#[derive(Clone, Copy, Debug, PartialEq)]
pub struct Printed {
    pub number: u32,
    pub length: usize,
}

/// "The digits of the numbers 1 to n, plus 3(n-1), plus 1."
pub fn needed(n: u32) -> usize {
    let digits: usize = (1..=n).map(|k| k.to_string().len()).sum();
    digits + 3 * (n as usize - 1) + 1
}

/// Print: what it answers, with the room for the text as it leaves it.
pub fn print(n: u32, costs: &[u64], lefts: &[u16], room: &mut [u8]) -> Printed {
    match text(n, costs, lefts, room.len()) {
        Ok(text) => {
            room[..text.len()].copy_from_slice(text.as_bytes());
            Printed {
                number: 0,
                length: text.len(),
            }
        }
        Err(number) => Printed { number, length: 0 },
    }
}

/// The text or the refusal: "1, 6, 9, then 7 when the full row's cost is 2^64-1, then 10".
fn text(n: u32, costs: &[u64], lefts: &[u16], room: usize) -> Result<String, u32> {
    if !is_count_of_relations(n) {
        return Err(1);
    }
    if costs.len() < 1 << n || lefts.len() < 1 << n {
        return Err(6);
    }
    if room < needed(n) {
        return Err(9);
    }
    let all = set_of_all(n);
    if costs[all] == NO_PLAN {
        return Err(7);
    }
    match subtree(lefts, all) {
        Some(tree) => Ok(tree + ";"),
        None => Err(10),
    }
}

/// "A relation is its number in decimal; a join is "(", left part, ",", right part, ")"". There is none where the walk meets a set of two
/// or more "whose left part is empty, the whole set, or not inside it".
fn subtree(lefts: &[u16], set: usize) -> Option<String> {
    if set.count_ones() == 1 {
        return members(set).next().map(|k| k.to_string());
    }
    let left = usize::from(lefts[set]);
    if left == 0 || left == set || left & set != left {
        return None;
    }
    let (left, right) = (subtree(lefts, left)?, subtree(lefts, set - left)?);
    Some(format!("({left},{right})"))
}
