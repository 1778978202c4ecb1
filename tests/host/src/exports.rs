//! The compiled functions, with the signatures of the model. Everything that is lent, to read or to write, is guarded, and is taken back as
//! the call left it.

use crate::lent::Lent;
use crate::model::file::Reading;
use crate::model::table::{Columns, Figures, Job, Planned, Request};
use crate::model::tree::Printed;

mod c {
    #[link(name = "exports", kind = "static")]
    extern "C" {
        pub fn buffermoss_test_fill(
            n: u32,
            counts: *const u32,
            counts_length: usize,
            divisors: *const u32,
            divisors_length: usize,
            model: u32,
            limit: u64,
            sizes: *mut u32,
            sizes_length: usize,
            costs: *mut u64,
            costs_length: usize,
            lefts: *mut u16,
            lefts_length: usize,
            cost: *mut u64,
            size: *mut u32,
        ) -> u32;

        pub fn buffermoss_test_edit_count(
            n: u32,
            counts: *mut u32,
            counts_length: usize,
            divisors: *const u32,
            divisors_length: usize,
            model: u32,
            limit: u64,
            sizes: *mut u32,
            sizes_length: usize,
            costs: *mut u64,
            costs_length: usize,
            lefts: *mut u16,
            lefts_length: usize,
            k: u32,
            value: u32,
            cost: *mut u64,
            size: *mut u32,
        ) -> u32;

        pub fn buffermoss_test_edit_pair(
            n: u32,
            counts: *const u32,
            counts_length: usize,
            divisors: *mut u32,
            divisors_length: usize,
            model: u32,
            limit: u64,
            sizes: *mut u32,
            sizes_length: usize,
            costs: *mut u64,
            costs_length: usize,
            lefts: *mut u16,
            lefts_length: usize,
            i: u32,
            j: u32,
            value: u32,
            cost: *mut u64,
            size: *mut u32,
        ) -> u32;

        pub fn buffermoss_test_print(
            n: u32,
            costs: *const u64,
            costs_length: usize,
            lefts: *const u16,
            lefts_length: usize,
            text: *mut u8,
            text_length: usize,
            length: *mut usize,
        ) -> u32;

        pub fn buffermoss_test_read(
            text: *const u8,
            text_length: usize,
            place: *mut usize,
            n: *mut u32,
            counts: *mut u32,
            divisors: *mut u32,
        ) -> u32;
    }
}

/// A fill or an edit.
pub fn plan(request: Request, job: Job, figures: &mut Figures, table: &mut Columns) -> Planned {
    let mut call = Call {
        job,
        counts: Lent::new(&figures.counts),
        divisors: Lent::new(&figures.divisors),
        sizes: Lent::new(&table.sizes),
        costs: Lent::new(&table.costs),
        lefts: Lent::new(&table.lefts),
        cost: Lent::unset(),
        size: Lent::unset(),
    };
    let number = match request {
        Request::Fill => call.fill(),
        Request::EditCount { k, value } => call.edit_count(k, value),
        Request::EditPair { i, j, value } => call.edit_pair(i, j, value),
    };
    figures.counts = call.counts.taken_back().to_vec();
    figures.divisors = call.divisors.taken_back().to_vec();
    table.sizes = call.sizes.taken_back().to_vec();
    table.costs = call.costs.taken_back().to_vec();
    table.lefts = call.lefts.taken_back().to_vec();
    Planned {
        number,
        cost: call.cost.taken_back()[0],
        size: call.size.taken_back()[0],
    }
}

/// All that a fill or an edit is lent.
struct Call {
    job: Job,
    counts: Lent<u32>,
    divisors: Lent<u32>,
    sizes: Lent<u32>,
    costs: Lent<u64>,
    lefts: Lent<u16>,
    cost: Lent<u64>,
    size: Lent<u32>,
}

// Each call is sound: every pointer is to as many elements as the length beside it says, to one, or to the fixed number that the function
// takes, and no two of them overlap.
impl Call {
    fn fill(&mut self) -> u32 {
        unsafe {
            c::buffermoss_test_fill(
                self.job.n,
                self.counts.pointer(),
                self.counts.length(),
                self.divisors.pointer(),
                self.divisors.length(),
                self.job.model,
                self.job.limit,
                self.sizes.pointer_to_write(),
                self.sizes.length(),
                self.costs.pointer_to_write(),
                self.costs.length(),
                self.lefts.pointer_to_write(),
                self.lefts.length(),
                self.cost.pointer_to_write(),
                self.size.pointer_to_write(),
            )
        }
    }

    fn edit_count(&mut self, k: u32, value: u32) -> u32 {
        unsafe {
            c::buffermoss_test_edit_count(
                self.job.n,
                self.counts.pointer_to_write(),
                self.counts.length(),
                self.divisors.pointer(),
                self.divisors.length(),
                self.job.model,
                self.job.limit,
                self.sizes.pointer_to_write(),
                self.sizes.length(),
                self.costs.pointer_to_write(),
                self.costs.length(),
                self.lefts.pointer_to_write(),
                self.lefts.length(),
                k,
                value,
                self.cost.pointer_to_write(),
                self.size.pointer_to_write(),
            )
        }
    }

    fn edit_pair(&mut self, i: u32, j: u32, value: u32) -> u32 {
        unsafe {
            c::buffermoss_test_edit_pair(
                self.job.n,
                self.counts.pointer(),
                self.counts.length(),
                self.divisors.pointer_to_write(),
                self.divisors.length(),
                self.job.model,
                self.job.limit,
                self.sizes.pointer_to_write(),
                self.sizes.length(),
                self.costs.pointer_to_write(),
                self.costs.length(),
                self.lefts.pointer_to_write(),
                self.lefts.length(),
                i,
                j,
                value,
                self.cost.pointer_to_write(),
                self.size.pointer_to_write(),
            )
        }
    }
}

/// Print. Its columns are lent to read only, and must come back as they were.
pub fn print(n: u32, costs: &[u64], lefts: &[u16], room: &mut [u8]) -> Printed {
    let (lent_costs, lent_lefts) = (Lent::new(costs), Lent::new(lefts));
    let mut text = Lent::new(room);
    let mut length = Lent::unset();
    let number = unsafe {
        c::buffermoss_test_print(
            n,
            lent_costs.pointer(),
            lent_costs.length(),
            lent_lefts.pointer(),
            lent_lefts.length(),
            text.pointer_to_write(),
            text.length(),
            length.pointer_to_write(),
        )
    };
    assert_eq!(lent_costs.taken_back(), costs);
    assert_eq!(lent_lefts.taken_back(), lefts);
    room.copy_from_slice(text.taken_back());
    Printed {
        number,
        length: length.taken_back()[0],
    }
}

/// Read. The text is lent to read only, and must come back as it was.
pub fn read(text: &[u8]) -> Reading {
    let lent_text = Lent::new(text);
    let (mut place, mut n) = (Lent::unset(), Lent::unset());
    let (mut counts, mut divisors) = (Lent::new(&[1; 15]), Lent::new(&[1; 105]));
    let number = unsafe {
        c::buffermoss_test_read(
            lent_text.pointer(),
            lent_text.length(),
            place.pointer_to_write(),
            n.pointer_to_write(),
            counts.pointer_to_write(),
            divisors.pointer_to_write(),
        )
    };
    assert_eq!(lent_text.taken_back(), text);
    Reading {
        number,
        place: place.taken_back()[0],
        n: n.taken_back()[0],
        counts: counts.taken_back().try_into().expect("15 counts"),
        divisors: divisors.taken_back().try_into().expect("105 divisors"),
    }
}
