//! The text of a trading day, by chance from a fixed seed: lines that are calls, and some few that are not.

use crate::generate::Chance;
use bench::limits::Limits;
use bench::numbers::stage;
use std::io::Write;

/// The calls with their words, where `#` stands for a number.
const FORMS: [&str; 16] = [
    "buys # # #",
    "sells # # #",
    "comes # #",
    "goes # #",
    "billed by # # #",
    "bills # #",
    "pays out #",
    "pays in #",
    "made of #: item #, # each, item #, # each",
    "makes # #",
    "counted # #",
    "stock of #",
    "account #",
    "order #",
    "lots of #",
    "entries from # #",
];

/// Lines that get no answer.
const QUIET: [&str; 3] = ["# a remark\n", "\n", " \t\r\n"];

struct Day<'a> {
    chance: Chance,
    limits: &'a Limits,
    // the orders to buy, and their items
    bought: Vec<(u64, u64)>,
    // the items of what came
    came: Vec<u64>,
    // the orders to sell
    sold: Vec<u64>,
    gone: u64,
    text: Vec<u8>,
}

/// So many lines, for books of these limits.
pub fn day(lines: usize, limits: &Limits, seed: u64) -> Vec<u8> {
    let chance = Chance::new(seed);
    let mut day = Day { chance, limits, bought: vec![], came: vec![], sold: vec![], gone: 0, text: vec![] };
    for _ in 0..lines {
        day.line();
    }
    day.text
}

impl Day<'_> {
    fn line(&mut self) {
        match self.chance.below(900) {
            0 => self.text.extend_from_slice(QUIET[self.chance.below(3) as usize].as_bytes()),
            1 => self.put_any(false),
            2 => self.put_any(true),
            3..=301 => self.document(),
            _ => self.question(),
        }
    }

    fn put(&mut self, number: usize, fields: &[u64]) {
        let mut fields = fields.iter();
        for part in FORMS[number].split_inclusive('#') {
            let words = part.trim_end_matches('#');
            self.text.extend_from_slice(words.as_bytes());
            if words.len() < part.len() {
                write!(self.text, "{}", fields.next().expect("too few fields")).expect("a vector takes all");
            }
        }
        self.text.push(b'\n');
    }

    // Any call with numbers of any size that are no items; as it is, or damaged by one byte more.
    fn put_any(&mut self, damaged: bool) {
        let start = self.text.len();
        let mut field = |_| self.chance.next() >> self.chance.below(64) | self.limits.items;
        let fields: [u64; 5] = std::array::from_fn(&mut field);
        let number = self.chance.below(16) as usize;
        self.put(number, &fields);
        if damaged {
            let at = start + self.chance.below((self.text.len() - start) as u64) as usize;
            self.text.insert(at, b" \t07x:,#\r"[self.chance.below(9) as usize]);
        }
    }

    fn document(&mut self) {
        let selling = stage(3);
        let orders = if selling { self.limits.orders / 2 } else { self.limits.orders };
        let kind = self.chance.below(if selling { 4 } else { 2 });
        match kind {
            0 if (self.bought.len() as u64) < orders => self.buys(),
            1 if (self.came.len() as u64) < self.limits.lots && !self.bought.is_empty() => self.comes(),
            2 if (self.sold.len() as u64) < orders && !self.came.is_empty() => self.sells(),
            3 if self.gone < self.limits.lots && !self.sold.is_empty() => self.goes(),
            _ => self.question(),
        }
    }

    // The next order's number.
    fn orders(&self) -> u64 {
        (self.bought.len() + self.sold.len()) as u64
    }

    fn buys(&mut self) {
        let item = self.chance.below(self.limits.items);
        self.bought.push((self.orders(), item));
        let price = 1 + self.chance.below(90);
        self.put(0, &[item, 1000, price]);
    }

    // Now and then more than was ordered.
    fn comes(&mut self) {
        let (order, item) = self.bought[self.chance.below(self.bought.len() as u64) as usize];
        if self.chance.below(100) == 0 {
            return self.put(2, &[order, 1001]);
        }
        self.came.push(item);
        let pieces = 1 + self.chance.below(40);
        self.put(2, &[order, pieces]);
    }

    fn sells(&mut self) {
        let item = self.came[self.chance.below(self.came.len() as u64) as usize];
        self.sold.push(self.orders());
        let price = 1 + self.chance.below(200);
        self.put(1, &[item, 1000, price]);
    }

    // More than is on hand, where chance has it.
    fn goes(&mut self) {
        let order = self.sold[self.chance.below(self.sold.len() as u64) as usize];
        let pieces = 1 + self.chance.below(4);
        self.gone += 1;
        self.put(3, &[order, pieces]);
    }

    // Now and then for all lots of an item, or for an order that is not there.
    fn question(&mut self) {
        let item = self.chance.below(self.limits.items);
        let account = self.chance.below(9);
        let order = self.chance.below(self.orders() + 1);
        match self.chance.below(192) {
            0 => self.put(14, &[item]),
            1..=64 => self.put(11, &[item]),
            65..=128 => self.put(12, &[account]),
            _ => self.put(13, &[order]),
        }
    }
}
