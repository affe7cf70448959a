//! Calls by chance, from a fixed seed.

use crate::calls::{Call, bytes};
use bench::limits::Limits;

pub struct Chance(u64);

impl Chance {
    pub fn new(seed: u64) -> Chance {
        Chance(seed | 1)
    }

    pub fn next(&mut self) -> u64 {
        self.0 ^= self.0 << 13;
        self.0 ^= self.0 >> 7;
        self.0 ^= self.0 << 17;
        self.0
    }

    pub fn below(&mut self, n: u64) -> u64 {
        self.next() % n.max(1)
    }

    fn one_in(&mut self, n: u64) -> bool {
        self.below(n) == 0
    }

    // Mostly below n; now and then at or far beyond it.
    fn about(&mut self, n: u64) -> u64 {
        match self.below(24) {
            0 => n,
            1 => n.wrapping_add(self.below(3)),
            2 => self.next(),
            _ => self.below(n),
        }
    }

    fn pieces(&mut self, most: u64) -> u64 {
        match self.below(24) {
            0 => 0,
            1 => 1_000_000 + self.below(2),
            2 => self.next(),
            _ => 1 + self.below(most),
        }
    }

    // Mostly below n; now and then at the most that a field can be, or next to it.
    fn up_to(&mut self, n: u64, most: u64) -> u64 {
        match self.below(24) {
            0 => most - 1 + self.below(3),
            1 => self.next(),
            _ => self.below(n),
        }
    }
}

// Mostly a few parts; now and then as many as a recipe can have, or one more.
fn recipe(c: &mut Chance, item: u64) -> Call {
    let many = if c.one_in(12) { 15 + c.below(3) } else { c.below(4) };
    let parts =
        (0..many).map(|_| (c.below(4), if c.one_in(24) { c.up_to(2, 1_000) } else { 1 + c.below(3) }));
    Call::Recipe(item, parts.collect())
}

/// A row of bytes: mostly a call that the stage can do, now and then another one or a damaged one.
pub fn any_call(c: &mut Chance, limits: &Limits, orders: u64, stage: fn(u8) -> bool) -> Vec<u8> {
    let mut row = call_row(c, limits, orders);
    while !stage(row[0]) && !c.one_in(12) {
        row = call_row(c, limits, orders);
    }
    damaged(c, row)
}

fn call_row(c: &mut Chance, limits: &Limits, orders: u64) -> Vec<u8> {
    let item = |c: &mut Chance| c.about(limits.items);
    let order = |c: &mut Chance| c.about(orders + 1);
    let call = match c.below(22) {
        0..=3 => {
            let price = if c.one_in(12) { 1_000_000 + c.below(2) } else { c.below(500) };
            Call::Plain(u8::from(c.one_in(3)), vec![item(c), c.pieces(200), price])
        }
        4..=9 => Call::Plain(2, vec![order(c), c.pieces(60)]),
        10 | 11 => Call::Plain(3, vec![order(c), c.pieces(60)]),
        12 => {
            let sum = c.up_to(20_000, 1_000_000_000_000);
            Call::Plain(4, vec![order(c), c.pieces(30), sum])
        }
        13 => Call::Plain(5, vec![order(c), c.pieces(30)]),
        14 => {
            let amount = c.up_to(5_000, 1_000_000_000_000);
            Call::Plain(6 + c.below(2) as u8, vec![amount])
        }
        15 => {
            let item = item(c);
            recipe(c, item)
        }
        16 if c.one_in(2) => Call::Plain(9, vec![item(c), c.pieces(20)]),
        16 => Call::Plain(10, vec![item(c), c.up_to(40, 1_000_000_000)]),
        17 => Call::Plain(11, vec![item(c)]),
        18 => Call::Plain(12, vec![c.about(9)]),
        19 => Call::Plain(13, vec![order(c)]),
        20 => Call::Plain(14, vec![item(c)]),
        _ => {
            let from = c.about(200);
            Call::Plain(15, vec![from, c.about(256)])
        }
    };
    bytes(&call)
}

// Now and then cut short, made too long, or with another first byte.
fn damaged(c: &mut Chance, mut row: Vec<u8>) -> Vec<u8> {
    match c.below(40) {
        0 => row.truncate(c.below(row.len() as u64 + 1) as usize),
        1 => row.extend((0..1 + c.below(9)).map(|k| k as u8)),
        2 => row[0] = c.next() as u8,
        _ => {}
    }
    row
}
