//! The engine against plain Rust, call by call.

use crate::engine::Engine;
use crate::trade::{Row, documents, large_lot, mixed, questions, small_lots};
use bench::limits::FULL;
use bench::numbers::stage;
use bench::plain::Plain;
use bench::rows;
use std::hint::black_box;
use std::time::Instant;

const RUNS: usize = 9;
const SIZES: [(&str, usize); 4] =
    [("1,000", 1_000), ("10,000", 10_000), ("100,000", 100_000), ("full limits", 131_072)];

// Nanoseconds a call.
#[derive(Clone)]
struct Times {
    engine: f64,
    plain: f64,
}

// That both take all calls and answer alike.
fn check(lists: &[&[Row]]) {
    let mut engine = Engine::new(&FULL);
    let mut plain = Plain::new(FULL, stage);
    let mut answer = vec![0; FULL.answer()];
    for row in lists.iter().copied().flatten() {
        let len = rows::answer(&mut plain, row, &mut answer);
        assert_eq!(engine.call(row), &answer[..len], "the answers to {row:?} differ");
        assert_ne!(answer[0], 0, "{row:?} is refused");
    }
}

// Nanoseconds a call for each of the lists, one after the other.
fn pass(lists: &[&[Row]], mut call: impl FnMut(&[u8]) -> usize) -> Vec<f64> {
    let mut time = |list: &&[Row]| {
        let start = Instant::now();
        black_box(list.iter().map(|row| call(row)).sum::<usize>());
        start.elapsed().as_nanos() as f64 / list.len() as f64
    };
    lists.iter().map(&mut time).collect()
}

// The best of several runs of both, by turns and each from new books, for each of the lists.
fn time_lists(lists: &[&[Row]]) -> Vec<Times> {
    check(lists);
    let mut engine = Engine::new(&FULL);
    let mut answer = vec![0; FULL.answer()];
    let mut best = vec![Times { engine: f64::MAX, plain: f64::MAX }; lists.len()];
    for _ in 0..RUNS {
        engine.open(&FULL);
        let by_engine = pass(lists, |row| engine.call(row).len());
        let mut plain = Plain::new(FULL, stage);
        let by_plain = pass(lists, |row| rows::answer(&mut plain, row, &mut answer));
        for (best, (engine, plain)) in best.iter_mut().zip(by_engine.iter().zip(by_plain)) {
            best.engine = best.engine.min(*engine);
            best.plain = best.plain.min(plain);
        }
    }
    best
}

fn show(books: &str, calls: &str, Times { engine, plain }: &Times) {
    println!("{books:<14} {calls:<14} {engine:>12.1} {plain:>12.1} {:>8.2}", plain / engine);
}

// Times books of so many documents; gives what a question takes.
fn time_size(name: &str, size: usize) -> Times {
    let (bought, came) = documents(size, 7);
    let asked = questions(20_000, bought.len() as u64, 9);
    let times = time_lists(&[&bought, &came, &asked]);
    for (calls, times) in ["buys", "comes", "questions"].iter().zip(&times) {
        show(name, calls, times);
    }
    show(name, "half questions", &time_lists(&[&mixed(size, 8)])[0]);
    times[2].clone()
}

fn time_selling() {
    for (name, (stocked, sales)) in [("small lots", small_lots()), ("one large lot", large_lot())] {
        show(name, "goes", &time_lists(&[&stocked, &sales])[1]);
    }
}

pub fn time() {
    println!("{:<14} {:<14} {:>12} {:>12} {:>8}", "books", "calls", "engine ns", "plain ns", "ratio");
    let questions = SIZES.map(|(name, size)| time_size(name, size));
    if stage(3) {
        time_selling();
    }
    let (few, full) = (&questions[0], &questions[SIZES.len() - 1]);
    println!(
        "a question at full limits takes {:.2} times what it takes at 1,000 documents (plain: {:.2} times)",
        full.engine / few.engine,
        full.plain / few.plain
    );
}
