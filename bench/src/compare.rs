//! The answers of the engine and of plain Rust against those of plain lists.

use crate::calls::{Answer, answer_bytes, read};
use crate::engine::Engine;
use crate::generate::{Chance, any_call};
use crate::model::Model;
use bench::limits::{Limits, limits};
use bench::numbers::stage;
use bench::plain::Plain;
use bench::rows;

// Lists of each shape: small books many times, large ones less often.
const SMALL_LISTS: u64 = 2_500;
const LARGE_LISTS: u64 = 60;

// The engine, and its memory as it was before a call.
struct Watched {
    engine: Engine,
    wide: Vec<u64>,
    narrow: Vec<u32>,
}

impl Watched {
    fn new(limits: &Limits) -> Watched {
        let engine = Engine::new(limits);
        let (wide, narrow) = engine.memory();
        Watched { wide: wide.to_vec(), narrow: narrow.to_vec(), engine }
    }

    // Makes a call, and says whether the answer is another one, or a refusal that changes memory.
    fn check(&mut self, row: &[u8], wanted: &[u8], refused: bool) -> Result<(), String> {
        let (wide, narrow) = self.engine.memory();
        self.wide.copy_from_slice(wide);
        self.narrow.copy_from_slice(narrow);
        let got = self.engine.call(row);
        if got != wanted {
            return Err(format!("the engine answers {got:?}"));
        }
        if refused && self.engine.memory() != (&self.wide, &self.narrow) {
            return Err("the engine refuses, and memory is not as it was".to_string());
        }
        Ok(())
    }
}

fn check_plain(plain: &mut Plain, row: &[u8], wanted: &[u8], answer: &mut [u8]) -> Result<(), String> {
    let len = rows::answer(plain, row, answer);
    let got = &answer[..len];
    if got == wanted { Ok(()) } else { Err(format!("plain Rust answers {got:?}")) }
}

// How often a call of each kind was taken, and how often one was refused by each number.
#[derive(Default)]
struct Seen {
    taken: [u64; 16],
    refused: [u64; 10],
}

impl Seen {
    fn note(&mut self, row: &[u8], answer: &Answer) {
        match answer {
            Answer::Refused(by, _) => self.refused[*by as usize] += 1,
            _ => self.taken[usize::from(row[0])] += 1,
        }
    }

    // Whether every kind of call was taken, and one refused by every number that a call can be refused by.
    fn check(&self) -> Result<(), String> {
        if let Some(kind) = self.taken.iter().position(|n| *n == 0) {
            return Err(format!("no call {kind} was taken"));
        }
        match [1, 2, 4, 5, 6, 7, 8, 9].iter().find(|by| self.refused[**by] == 0) {
            Some(by) => Err(format!("no call was refused by {by}")),
            None => Ok(()),
        }
    }
}

// One list of calls.
fn compare_list(seed: u64, limits: &Limits, seen: &mut Seen) -> Result<(), String> {
    let mut engine = Watched::new(limits);
    let mut chance = Chance::new(seed);
    let mut model = Model::new(limits.clone(), stage);
    let mut plain = Plain::new(limits.clone(), stage);
    let mut answer = vec![0; limits.answer()];
    for k in 0..many(limits) {
        let row = any_call(&mut chance, limits, model.orders(), stage);
        let wanted = model.call(&read(&row));
        let bytes = answer_bytes(&wanted);
        let refused = matches!(wanted, Answer::Refused(..));
        let place = |e| format!("seed {seed}, call {k} {row:?}, wanted {wanted:?}: {e}");
        engine.check(&row, &bytes, refused).map_err(place)?;
        check_plain(&mut plain, &row, &bytes, &mut answer).map_err(place)?;
        seen.note(&row, &wanted);
    }
    Ok(())
}

fn many(limits: &Limits) -> usize {
    200 + limits.lots as usize
}

pub fn compare() -> Result<(), String> {
    let shapes = [
        (limits(0, 0, 0, 0, 0), SMALL_LISTS),
        (limits(1, 1, 1, 1, 1), SMALL_LISTS),
        (limits(4, 20, 30, 12, 15), SMALL_LISTS),
        (limits(32, 64, 128, 32, 256), SMALL_LISTS),
        (limits(12, 300, 400, 60, 500), LARGE_LISTS),
        (limits(40, 2000, 2500, 60, 3000), LARGE_LISTS),
    ];
    let mut seen = Seen::default();
    for (shape, lists) in &shapes {
        for seed in 1..=*lists {
            compare_list(seed, shape, &mut seen)?;
        }
    }
    seen.check()?;
    let lists: u64 = shapes.iter().map(|(_, lists)| lists).sum();
    let (taken, refused): (u64, u64) = (seen.taken.iter().sum(), seen.refused.iter().sum());
    println!("compare: {} calls in {lists} lists answered alike, {refused} of them refused", taken + refused);
    println!("compare: taken of each kind, from 0 on: {:?}", seen.taken);
    Ok(())
}
