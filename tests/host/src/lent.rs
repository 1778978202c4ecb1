//! Memory lent to a call. It stands in a larger allocation, between guards that no call may touch.

use std::fmt::Debug;

/// How many guards stand on each side.
const GUARDS: usize = 16;

/// A type that is lent, with a value that guards it: one that no call has a reason to write.
pub trait Guarded: Copy + Debug + PartialEq {
    const GUARD: Self;
}

impl Guarded for u8 {
    const GUARD: u8 = 0xa7;
}

impl Guarded for u16 {
    const GUARD: u16 = 0xa7c5;
}

impl Guarded for u32 {
    const GUARD: u32 = 0xa7c5_93e1;
}

impl Guarded for u64 {
    const GUARD: u64 = 0xa7c5_93e1_d2b4_86f9;
}

impl Guarded for usize {
    const GUARD: usize = u64::GUARD as usize;
}

pub struct Lent<T> {
    all: Vec<T>,
    length: usize,
}

impl<T: Guarded> Lent<T> {
    pub fn new(contents: &[T]) -> Lent<T> {
        let mut all = vec![T::GUARD; GUARDS];
        all.extend_from_slice(contents);
        all.extend_from_slice(&[T::GUARD; GUARDS]);
        Lent {
            all,
            length: contents.len(),
        }
    }

    /// Room for one value, which a call must set: what stands there before is a guard.
    pub fn unset() -> Lent<T> {
        Lent::new(&[T::GUARD])
    }

    pub fn length(&self) -> usize {
        self.length
    }

    pub fn pointer(&self) -> *const T {
        self.all[GUARDS..].as_ptr()
    }

    pub fn pointer_to_write(&mut self) -> *mut T {
        self.all[GUARDS..].as_mut_ptr()
    }

    /// What the call left, once its guards are seen to be whole.
    pub fn taken_back(&self) -> &[T] {
        let (before, rest) = self.all.split_at(GUARDS);
        let (contents, after) = rest.split_at(self.length);
        assert_eq!(before, [T::GUARD; GUARDS], "written before lent memory");
        assert_eq!(after, [T::GUARD; GUARDS], "written past lent memory");
        contents
    }
}
