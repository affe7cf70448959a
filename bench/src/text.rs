//! The program `books` against `plain_books`: one file of calls through both, and their answers byte for byte.

use crate::day::day;
use bench::limits::{FULL, Limits};
use std::fs::File;
use std::path::{Path, PathBuf};
use std::process::Command;
use std::time::Instant;

struct Program {
    name: &'static str,
    path: PathBuf,
    best: f64,
    answers: Vec<u8>,
}

fn options(limits: &Limits) -> Vec<String> {
    let names = ["--items", "--orders", "--lots", "--parts", "--entries"];
    names.iter().zip(limits.words()).flat_map(|(name, n)| [name.to_string(), n.to_string()]).collect()
}

impl Program {
    fn new(name: &'static str, path: PathBuf) -> Program {
        Program { name, path, best: f64::MAX, answers: Vec::new() }
    }

    // Runs it from start to end, and keeps its answers and its best time.
    fn run(&mut self, calls: &Path) -> Result<(), String> {
        let failed = |e: &dyn std::fmt::Display| format!("{}: {e}", self.path.display());
        let written = calls.with_file_name(format!("{}.out", self.name));
        let out = File::create(&written).map_err(|e| failed(&e))?;
        let mut command = Command::new(&self.path);
        command.args(options(&FULL)).arg(calls).stdout(out);
        let start = Instant::now();
        let status = command.status().map_err(|e| failed(&e))?;
        let seconds = start.elapsed().as_secs_f64();
        if !status.success() {
            return Err(failed(&status));
        }
        self.answers = std::fs::read(&written).map_err(|e| failed(&e))?;
        self.best = self.best.min(seconds);
        Ok(())
    }

    fn show(&self, lines: usize) {
        let (millis, rate) = (1e3 * self.best, lines as f64 / self.best);
        println!("{:<12} {millis:>10.1} ms {rate:>12.0} lines a second", self.name);
    }
}

fn show_answers(lines: usize, answers: &[u8]) {
    let told = answers.split_inclusive(|byte| *byte == b'\n');
    let (refused, taken): (Vec<_>, Vec<_>) = told.partition(|line| line.starts_with(b"refused"));
    let (taken, refused) = (taken.len(), refused.len());
    println!("text: {lines} lines, {taken} taken and {refused} refused; the rest are blank or remarks");
}

/// The best of so many runs of both programs over so many lines.
pub fn text(lines: usize, runs: usize) -> Result<(), String> {
    let root = Path::new(env!("CARGO_MANIFEST_DIR"));
    let folder = root.join("target").join("text");
    let calls = folder.join("calls");
    let made = std::fs::create_dir_all(&folder).and_then(|_| std::fs::write(&calls, day(lines, &FULL, 7)));
    made.map_err(|e| format!("{}: {e}", calls.display()))?;
    let here = std::env::current_exe().map_err(|e| e.to_string())?;
    let mut engine = Program::new("books", root.join("../crates/books/out/books"));
    let mut plain = Program::new("plain_books", here.with_file_name("plain_books"));
    for _ in 0..runs {
        engine.run(&calls)?;
        plain.run(&calls)?;
        if engine.answers != plain.answers {
            return Err(format!("text: the answers in {} differ", folder.display()));
        }
    }
    show_answers(lines, &engine.answers);
    engine.show(lines);
    plain.show(lines);
    println!("ratio {:.3} (above 1: books is faster); the answers are the same", plain.best / engine.best);
    Ok(())
}
