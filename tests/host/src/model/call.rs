//! Document 01: "the C host hands over the file text, a model, a limit and room for the tree; it gets 1,000 plus the text's length, or the
//! refusal number".

use super::file::Reading;
use super::table::{plan, Columns, Figures, Job, Planned, Request};
use super::{charges, file, number_of_pairs, tree, HIGHEST_LIMIT};

/// "More than 11 relations in the program or C call" is 16.
pub const MOST_IN_A_CALL: u32 = 11;

/// The C call: what it answers, with the room for the tree as it leaves it.
pub fn plan_text(text: &[u8], model: u32, limit: u64, room: &mut [u8]) -> u32 {
    let read = file::read(text);
    if let Some(number) = refusal(&read, model, limit, room.len()) {
        return number;
    }
    let (planned, table) = fill(&read, model, limit);
    if planned.number != 0 {
        return planned.number;
    }
    let printed = tree::print(read.n, &table.costs, &table.lefts, room);
    assert_eq!(printed.number, 0, "a filled table holds a tree");
    1_000 + printed.length as u32
}

/// A fill of the figures that were read.
pub fn fill(read: &Reading, model: u32, limit: u64) -> (Planned, Columns) {
    let n = read.n;
    let mut figures = Figures {
        counts: read.counts[..n as usize].to_vec(),
        divisors: read.divisors[..number_of_pairs(n)].to_vec(),
    };
    let mut table = Columns::zeros(n);
    let job = Job { n, model, limit };
    let planned = plan(Request::Fill, job, &mut figures, &mut table);
    (planned, table)
}

/// "Order there: reader, 16, 4, 5, 9, 7", up to the work.
fn refusal(read: &Reading, model: u32, limit: u64, room: usize) -> Option<u32> {
    if read.number != 0 {
        return Some(read.number);
    }
    if read.n > MOST_IN_A_CALL {
        return Some(16);
    }
    if !charges::is_model(model) {
        return Some(4);
    }
    if limit > HIGHEST_LIMIT {
        return Some(5);
    }
    if room < tree::needed(read.n) {
        return Some(9);
    }
    None
}
