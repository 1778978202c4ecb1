//! The C call against the model: texts of every kind, models, limits and rooms.

use host::lent::Lent;
use host::model::call::{self, MOST_IN_A_CALL};
use host::model::file::{self, Reading};
use host::model::{charges, tree, HIGHEST_LIMIT, NO_PLAN};
use host::random::{cases, Random};
use host::tally::Tally;
use host::texts;

#[link(name = "host", kind = "static")]
extern "C" {
    fn buffermoss_plan(
        text: *const u8,
        length: usize,
        model: u32,
        limit: u64,
        tree: *mut u8,
        room: usize,
    ) -> u32;
}

fn main() {
    let mut calls = Tally::default();
    cases("calls with accepted texts", 20_000, |random| {
        let text = texts::accepted(random, 7);
        one_call(random, &text, &mut calls);
    });
    cases("calls with texts of up to 15 relations", 300, |random| {
        let text = texts::accepted(random, 15);
        one_call(random, &text, &mut calls);
    });
    cases("calls with misstated texts", 20_000, |random| {
        let text = texts::misstated(random, 6);
        one_call(random, &text, &mut calls);
    });
    cases("calls with mangled texts", 20_000, |random| {
        let text = texts::mangled(random, 6);
        one_call(random, &text, &mut calls);
    });
    cases("calls with garbage", 2_000, |random| {
        let text = texts::garbage(random, 10_000);
        one_call(random, &text, &mut calls);
    });
    let numbers = [0, 1, 2, 3, 4, 5, 7, 9, 11, 12, 13, 14, 15, 16];
    calls.report("C calls", &numbers, 20);
}

/// A call that asks for something on an edge of what the text's figures allow, or past it.
fn one_call(random: &mut Random, text: &[u8], calls: &mut Tally) {
    let read = file::read(text);
    let model = if random.one_in(12) {
        random.pick(&[3, 4, 256, u32::MAX])
    } else {
        random.within(0..=2)
    };
    let limit = limit(random, &read, model);
    let room = if read.n == 0 || random.one_in(4) {
        random.below(70)
    } else {
        tree::needed(read.n) - 1 + random.below(4)
    };
    agree(text, model, limit, room, calls);
}

fn limit(random: &mut Random, read: &Reading, model: u32) -> u64 {
    let has_plan = (1..=MOST_IN_A_CALL).contains(&read.n) && charges::is_model(model);
    match random.below(10) {
        0 => random.pick(&[HIGHEST_LIMIT + 1, NO_PLAN]),
        1 => 0,
        2 => random.bits() >> random.within(4..=63),
        3..=5 if has_plan => {
            let (planned, _) = call::fill(read, model, HIGHEST_LIMIT);
            planned.cost.saturating_sub(1) + random.bits() % 3
        }
        _ => HIGHEST_LIMIT,
    }
}

/// The answer and every byte of the room are the model's. The text is lent to read only, and must come back as it was.
fn agree(text: &[u8], model: u32, limit: u64, room: usize, calls: &mut Tally) {
    let mut expected_room = vec![b'.'; room];
    let expected = call::plan_text(text, model, limit, &mut expected_room);
    let lent_text = Lent::new(text);
    let mut tree = Lent::new(&vec![b'.'; room]);
    // Each pointer is to as many bytes as the length beside it says, and they do not overlap.
    let found = unsafe {
        buffermoss_plan(
            lent_text.pointer(),
            lent_text.length(),
            model,
            limit,
            tree.pointer_to_write(),
            tree.length(),
        )
    };
    let asked = format!(
        "model {model}, limit {limit}, text {:?}",
        String::from_utf8_lossy(text)
    );
    assert_eq!(found, expected, "the answer to {asked}");
    assert_eq!(tree.taken_back(), expected_room, "the room after {asked}");
    assert_eq!(lent_text.taken_back(), text, "the text after {asked}");
    calls.count(if found > 1_000 { 0 } else { found });
}
