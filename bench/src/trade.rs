//! The lists of calls that are timed, for books of full limits. All of them are taken.

use crate::calls::{Call, bytes};
use crate::generate::Chance;
use bench::limits::FULL;

pub type Row = Vec<u8>;

fn row<const N: usize>(number: u8, fields: [u64; N]) -> Row {
    bytes(&Call::Plain(number, fields.to_vec()))
}

fn buys(c: &mut Chance) -> Row {
    row(0, [c.below(FULL.items), 1000, 1 + c.below(90)])
}

// For one of so many orders.
fn comes(c: &mut Chance, orders: u64) -> Row {
    row(2, [c.below(orders), 1 + c.below(9)])
}

fn question(c: &mut Chance, orders: u64) -> Row {
    match c.below(3) {
        0 => row(11, [c.below(FULL.items)]),
        1 => row(12, [c.below(9)]),
        _ => row(13, [c.below(orders)]),
    }
}

/// Orders to buy, and then goods that come, in scattered order of items and orders.
pub fn documents(many: usize, seed: u64) -> (Vec<Row>, Vec<Row>) {
    let mut c = Chance::new(seed);
    let orders = many / 2;
    let bought = (0..orders).map(|_| buys(&mut c)).collect();
    (bought, (orders..many).map(|_| comes(&mut c, orders as u64)).collect())
}

/// For stock, accounts and orders, of which there are so many.
pub fn questions(many: usize, orders: u64, seed: u64) -> Vec<Row> {
    let mut c = Chance::new(seed);
    (0..many).map(|_| question(&mut c, orders)).collect()
}

/// So many documents, and a question after each.
pub fn mixed(documents: usize, seed: u64) -> Vec<Row> {
    let mut c = Chance::new(seed);
    let mut rows = Vec::with_capacity(2 * documents);
    for orders in 1..=documents as u64 / 2 {
        rows.push(buys(&mut c));
        rows.push(question(&mut c, orders));
        rows.push(comes(&mut c, orders));
        rows.push(question(&mut c, orders));
    }
    rows
}

/// Four items with as many lots of two pieces as the limits allow; and sales of seven pieces, until the lots are used up.
pub fn small_lots() -> (Vec<Row>, Vec<Row>) {
    const ITEMS: u64 = 4;
    let mut stocked = Vec::new();
    stocked.extend((0..ITEMS).map(|item| row(0, [item, 1_000_000, 11 + item])));
    stocked.extend((0..ITEMS).map(|item| row(1, [item, 1_000_000, 30])));
    stocked.extend((0..FULL.lots).map(|k| row(2, [k % ITEMS, 2])));
    let sales = FULL.lots * 2 / 7 / ITEMS * ITEMS;
    (stocked, (0..sales).map(|k| row(3, [ITEMS + k % ITEMS, 7])).collect())
}

/// One lot of as many pieces and as much cost as there can be; and sales of one piece each.
pub fn large_lot() -> (Vec<Row>, Vec<Row>) {
    let stocked = vec![row(0, [0, 1_000_000, 1_000_000]), row(1, [0, 1_000_000, 30]), row(2, [0, 1_000_000])];
    (stocked, (0..100_000).map(|_| row(3, [1, 1])).collect())
}
