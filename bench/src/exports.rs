//! The compiled functions, through the exports made for tests and benchmarks.

use crate::job::{Job, LIMIT};

mod c {
    #[link(name = "exports", kind = "static")]
    extern "C" {
        pub fn buffermoss_test_fill(
            n: u32,
            counts: *const u32,
            counts_length: usize,
            divisors: *const u32,
            divisors_length: usize,
            model: u32,
            limit: u64,
            sizes: *mut u32,
            sizes_length: usize,
            costs: *mut u64,
            costs_length: usize,
            lefts: *mut u16,
            lefts_length: usize,
            cost: *mut u64,
            size: *mut u32,
        ) -> u32;

        pub fn buffermoss_test_edit_count(
            n: u32,
            counts: *mut u32,
            counts_length: usize,
            divisors: *const u32,
            divisors_length: usize,
            model: u32,
            limit: u64,
            sizes: *mut u32,
            sizes_length: usize,
            costs: *mut u64,
            costs_length: usize,
            lefts: *mut u16,
            lefts_length: usize,
            k: u32,
            value: u32,
            cost: *mut u64,
            size: *mut u32,
        ) -> u32;

        pub fn buffermoss_test_edit_pair(
            n: u32,
            counts: *const u32,
            counts_length: usize,
            divisors: *mut u32,
            divisors_length: usize,
            model: u32,
            limit: u64,
            sizes: *mut u32,
            sizes_length: usize,
            costs: *mut u64,
            costs_length: usize,
            lefts: *mut u16,
            lefts_length: usize,
            i: u32,
            j: u32,
            value: u32,
            cost: *mut u64,
            size: *mut u32,
        ) -> u32;

        pub fn buffermoss_test_print(
            n: u32,
            costs: *const u64,
            costs_length: usize,
            lefts: *const u16,
            lefts_length: usize,
            text: *mut u8,
            text_length: usize,
            length: *mut usize,
        ) -> u32;
    }
}

/// A refused call does no work, so its time would say nothing.
fn done(number: u32) {
    assert_eq!(number, 0, "the call was refused");
}

// Each call is sound: every pointer is to as many elements as the length beside it says, or to one, and no two of them overlap.

pub fn fill(job: &mut Job) {
    let (figures, columns) = (&job.figures, &mut job.columns);
    let (mut cost, mut size) = (0, 0);
    done(unsafe {
        c::buffermoss_test_fill(
            job.n,
            figures.counts.as_ptr(),
            figures.counts.len(),
            figures.divisors.as_ptr(),
            figures.divisors.len(),
            job.model,
            LIMIT,
            columns.sizes.as_mut_ptr(),
            columns.sizes.len(),
            columns.costs.as_mut_ptr(),
            columns.costs.len(),
            columns.lefts.as_mut_ptr(),
            columns.lefts.len(),
            &mut cost,
            &mut size,
        )
    });
}

pub fn edit_count(job: &mut Job, k: u32, value: u32) {
    let (figures, columns) = (&mut job.figures, &mut job.columns);
    let (mut cost, mut size) = (0, 0);
    done(unsafe {
        c::buffermoss_test_edit_count(
            job.n,
            figures.counts.as_mut_ptr(),
            figures.counts.len(),
            figures.divisors.as_ptr(),
            figures.divisors.len(),
            job.model,
            LIMIT,
            columns.sizes.as_mut_ptr(),
            columns.sizes.len(),
            columns.costs.as_mut_ptr(),
            columns.costs.len(),
            columns.lefts.as_mut_ptr(),
            columns.lefts.len(),
            k,
            value,
            &mut cost,
            &mut size,
        )
    });
}

pub fn edit_pair(job: &mut Job, i: u32, j: u32, value: u32) {
    let (figures, columns) = (&mut job.figures, &mut job.columns);
    let (mut cost, mut size) = (0, 0);
    done(unsafe {
        c::buffermoss_test_edit_pair(
            job.n,
            figures.counts.as_ptr(),
            figures.counts.len(),
            figures.divisors.as_mut_ptr(),
            figures.divisors.len(),
            job.model,
            LIMIT,
            columns.sizes.as_mut_ptr(),
            columns.sizes.len(),
            columns.costs.as_mut_ptr(),
            columns.costs.len(),
            columns.lefts.as_mut_ptr(),
            columns.lefts.len(),
            i,
            j,
            value,
            &mut cost,
            &mut size,
        )
    });
}

pub fn print(job: &mut Job) {
    let mut length = 0;
    done(unsafe {
        c::buffermoss_test_print(
            job.n,
            job.columns.costs.as_ptr(),
            job.columns.costs.len(),
            job.columns.lefts.as_ptr(),
            job.columns.lefts.len(),
            job.text.as_mut_ptr(),
            job.text.len(),
            &mut length,
        )
    });
}
