//! What books are opened with.

#[derive(Clone, Debug)]
pub struct Limits {
    pub items: u64,
    pub orders: u64,
    pub lots: u64,
    pub parts: u64,
    pub entries: u64,
}

/// The most that books can be opened with.
pub const FULL: Limits = limits(4096, 65_536, 65_536, 65_536, 1_000_000);

pub const fn limits(items: u64, orders: u64, lots: u64, parts: u64, entries: u64) -> Limits {
    Limits { items, orders, lots, parts, entries }
}

impl Limits {
    pub fn words(&self) -> [u64; 5] {
        [self.items, self.orders, self.lots, self.parts, self.entries]
    }

    /// How many bytes the longest answer can take.
    pub fn answer(&self) -> usize {
        32 * self.lots as usize + 8208
    }
}
