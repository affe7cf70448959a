//! The numbers of calls: which of them can be done, and how many fields each has.

/// The calls that can be done: all of them.
pub fn stage(number: u8) -> bool {
    number < 16
}

/// How many fields each call has; the recipe is a case of its own.
pub const FIELDS: [usize; 16] = [3, 3, 2, 2, 3, 2, 1, 1, 0, 2, 2, 1, 1, 1, 1, 2];

pub const RECIPE: u8 = 8;
