//! Document 01: what the program prints.

use super::call::{fill, MOST_IN_A_CALL};
use super::{charges, file, tree, HIGHEST_LIMIT};

/// "The program reads standard input, at most 8,192 bytes."
pub const LONGEST: usize = 8_192;

/// The number of the refusal, 0 where there are plans, and all that is printed.
pub struct Report {
    pub number: u32,
    pub text: String,
}

/// "More: 11 at place 8,192, before anything else"; "after the reader's answers comes 16, at place 0".
pub fn report(input: &[u8]) -> Report {
    if input.len() > LONGEST {
        return refused(11, LONGEST);
    }
    let read = file::read(input);
    if read.number != 0 {
        return refused(read.number, read.place);
    }
    if read.n > MOST_IN_A_CALL {
        return refused(16, 0);
    }
    let models = (0..).take_while(|&model| charges::is_model(model));
    Report {
        number: 0,
        text: models.map(|model| line(&read, model)).collect(),
    }
}

/// "A refusal prints the one line `refused N at P`; every printed line ends in a line feed."
fn refused(number: u32, place: usize) -> Report {
    Report {
        number,
        text: format!("refused {number} at {place}\n"),
    }
}

/// "Model, cost, size and tree, a line for each model", under the limit 2^60.
fn line(read: &file::Reading, model: u32) -> String {
    let (planned, table) = fill(read, model, HIGHEST_LIMIT);
    assert_eq!(planned.number, 0, "under the highest limit there is a plan");
    let mut room = vec![0; tree::needed(read.n)];
    let printed = tree::print(read.n, &table.costs, &table.lefts, &mut room);
    assert_eq!((printed.number, printed.length), (0, room.len()));
    let tree = String::from_utf8(room).expect("the tree is text");
    format!("{model} {} {} {tree}\n", planned.cost, planned.size)
}
