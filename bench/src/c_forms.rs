//! The C forms, as each compiler made them.

use crate::job::{Job, LIMIT};
use std::ffi::{c_char, CStr};

type Count = unsafe extern "C" fn() -> u32;
type Name = unsafe extern "C" fn(u32) -> *const c_char;
type Fill = unsafe extern "C" fn(
    form: u32,
    n: u32,
    counts: *const u32,
    divisors: *const u32,
    model: u32,
    limit: u64,
    sizes: *mut u32,
    costs: *mut u64,
    lefts: *mut u16,
);

pub struct Compiler {
    pub name: &'static str,
    count: Count,
    form_name: Name,
    form_fill: Fill,
}

/// The exported functions of `bench/c/forms.c` under one compiler's names.
macro_rules! compiled_by {
    ($compiler:ident, $library:literal, $count:ident, $name:ident, $fill:ident) => {
        mod $compiler {
            use std::ffi::c_char;
            #[link(name = $library, kind = "static")]
            extern "C" {
                fn $count() -> u32;
                fn $name(form: u32) -> *const c_char;
                fn $fill(
                    form: u32,
                    n: u32,
                    counts: *const u32,
                    divisors: *const u32,
                    model: u32,
                    limit: u64,
                    sizes: *mut u32,
                    costs: *mut u64,
                    lefts: *mut u16,
                );
            }
            pub const COMPILER: super::Compiler = super::Compiler {
                name: stringify!($compiler),
                count: $count,
                form_name: $name,
                form_fill: $fill,
            };
        }
    };
}

compiled_by!(gcc, "forms_gcc", gcc_forms, gcc_form_name, gcc_form_fill);
#[cfg(with_clang)]
compiled_by!(
    clang,
    "forms_clang",
    clang_forms,
    clang_form_name,
    clang_form_fill
);

pub fn compilers() -> Vec<Compiler> {
    vec![
        gcc::COMPILER,
        #[cfg(with_clang)]
        clang::COMPILER,
    ]
}

impl Compiler {
    /// The number and the name of each form.
    pub fn forms(&self) -> Vec<(u32, String)> {
        let count = unsafe { (self.count)() };
        (0..count).map(|form| (form, self.form(form))).collect()
    }

    fn form(&self, form: u32) -> String {
        // Sound: the number is below the count, and each name is a literal of C.
        let name = unsafe { CStr::from_ptr((self.form_name)(form)) };
        name.to_str().expect("a plain name").to_string()
    }

    /// The fill, as a function of the job.
    pub fn fill(&self, form: u32) -> impl Fn(&mut Job) {
        let fill = self.form_fill;
        move |job| {
            let (n, rows) = (job.n as usize, 1 << job.n);
            assert!(job.figures.counts.len() == n && job.figures.divisors.len() == n * (n - 1) / 2);
            assert!(
                job.columns.sizes.len() == rows
                    && job.columns.costs.len() == rows
                    && job.columns.lefts.len() == rows
            );
            // Sound: the lengths are those that n needs, the columns are apart, and the model is one of the three.
            unsafe {
                fill(
                    form,
                    job.n,
                    job.figures.counts.as_ptr(),
                    job.figures.divisors.as_ptr(),
                    job.model,
                    LIMIT,
                    job.columns.sizes.as_mut_ptr(),
                    job.columns.costs.as_mut_ptr(),
                    job.columns.lefts.as_mut_ptr(),
                )
            }
        }
    }
}
