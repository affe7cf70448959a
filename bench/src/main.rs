//! `bench compare`: every answer of the engine and of plain Rust against plain lists, over calls by chance.
//! `bench time`: the engine against plain Rust, in one run, as a ratio.
//! `bench text [LINES [RUNS]]`: the program `books` against `plain_books`, over one file of calls.
//! `bench journal [EACH [TOGETHER [RUNS]]]`: the program `books` with a journal beside the program `sqlite3`.

mod calls;
mod compare;
mod day;
mod engine;
mod generate;
mod journal;
mod model;
mod text;
mod time;
mod trade;

// The number that an argument writes, or another one where there is none.
fn number(word: Option<&String>, otherwise: usize) -> Result<usize, String> {
    word.map_or(Ok(otherwise), |word| word.parse().map_err(|_| format!("{word}: not a number")))
}

fn run(words: &[String]) -> Result<(), String> {
    match words.first().map(String::as_str) {
        Some("compare") => compare::compare(),
        Some("time") => {
            time::time();
            Ok(())
        }
        Some("text") => text::text(number(words.get(1), 1_000_000)?, number(words.get(2), 5)?.max(1)),
        Some("journal") => {
            let (each, together) = (number(words.get(1), 2_000)?, number(words.get(2), 100_000)?);
            journal::journal(each, together, number(words.get(3), 3)?.max(1))
        }
        _ => Err("usage: bench compare | time | text [LINES [RUNS]] | journal [EACH [TOGETHER [RUNS]]]"
            .to_string()),
    }
}

fn main() {
    let words: Vec<String> = std::env::args().skip(1).collect();
    if let Err(e) = run(&words) {
        eprintln!("bench: {e}");
        std::process::exit(1);
    }
}
