//! `plain_books [--items N] [--orders N] [--lots N] [--parts N] [--entries N] [FILE]`: what the program `books` does, in plain
//! Rust. Answers the calls of a file, or of standard input, a line each.

use bench::answer_lines;
use bench::call_lines::{self, Call};
use bench::limits::{FULL, Limits, limits};
use bench::numbers::stage;
use bench::plain::{Answer, Plain};
use std::io::{Read, Write};

struct Request {
    limits: Limits,
    file: Option<String>,
}

fn request(mut words: impl Iterator<Item = String>) -> Result<Request, String> {
    let mut request = Request { limits: limits(32, 64, 128, 32, 256), file: None };
    while let Some(word) = words.next() {
        let asked = &mut request.limits;
        let (limit, most) = match word.as_str() {
            "--items" => (&mut asked.items, FULL.items),
            "--orders" => (&mut asked.orders, FULL.orders),
            "--lots" => (&mut asked.lots, FULL.lots),
            "--parts" => (&mut asked.parts, FULL.parts),
            "--entries" => (&mut asked.entries, FULL.entries),
            option if option.starts_with('-') => return Err(format!("{option}: no such option")),
            _ if request.file.is_some() => return Err(format!("{word}: a second file")),
            _ => {
                request.file = Some(word);
                continue;
            }
        };
        let number = words.next().and_then(|n| n.parse().ok()).filter(|n| *n <= most);
        *limit = number.ok_or(format!("{word}: not a number from 0 to {most}"))?;
    }
    Ok(request)
}

fn input(file: Option<String>) -> Result<Vec<u8>, String> {
    match file {
        Some(name) => std::fs::read(&name).map_err(|e| format!("{name}: {e}")),
        None => {
            let mut text = Vec::new();
            let read = std::io::stdin().read_to_end(&mut text);
            read.map(|_| text).map_err(|e| format!("standard input: {e}"))
        }
    }
}

fn run(limits: Limits, text: &[u8]) -> Vec<u8> {
    let mut books = Plain::new(limits, stage);
    let mut out = Vec::new();
    for line in call_lines::heard(text) {
        let answer = match call_lines::read(line) {
            Ok(Call::Short(number, fields)) => books.call(number, fields),
            Ok(Call::Recipe(item, parts)) => books.made_of(item, &parts),
            Err(place) => Answer::Refused(1, place as u64),
        };
        answer_lines::put(&mut out, &answer);
    }
    out
}

fn main_or_error() -> Result<(), String> {
    let request = request(std::env::args().skip(1))?;
    let text = input(request.file)?;
    let answers = run(request.limits, &text);
    std::io::stdout().lock().write_all(&answers).map_err(|e| format!("standard output: {e}"))
}

fn main() {
    if let Err(e) = main_or_error() {
        eprintln!("plain_books: {e}");
        std::process::exit(1);
    }
}
