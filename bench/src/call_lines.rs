//! Calls as lines of text.

use crate::numbers::{FIELDS, RECIPE};
use crate::plain::Part;
use crate::words::Words;

const MOST_PARTS: usize = 255;

/// The lines of a text that are answered: those that are neither blank nor a remark, without a carriage return at the end.
pub fn heard(text: &[u8]) -> impl Iterator<Item = &[u8]> {
    let lines = text.split(|byte| *byte == b'\n').map(|line| line.strip_suffix(b"\r").unwrap_or(line));
    lines.filter(|line| {
        let start = Words::new(line).next_at();
        line.get(start).is_some_and(|byte| *byte != b'#')
    })
}

/// The call that a line is: its number and fields, or a recipe.
pub enum Call {
    Short(u8, [u64; 3]),
    Recipe(u64, Vec<Part>),
}

/// The call that a line is, or where it ceases to be one.
pub fn read(line: &[u8]) -> Result<Call, usize> {
    let mut words = Words::new(line);
    let number = opening(&mut words)?;
    let mut fields = [0; 3];
    if number == RECIPE {
        return recipe(&mut words);
    }
    for field in &mut fields[..FIELDS[usize::from(number)]] {
        *field = words.number()?;
    }
    words.end()?;
    Ok(Call::Short(number, fields))
}

// The number of the call that a line begins.
fn opening(words: &mut Words) -> Result<u8, usize> {
    let start = words.next_at();
    let (number, second) = match words.word() {
        b"buys" => (0, None),
        b"sells" => (1, None),
        b"comes" => (2, None),
        b"goes" => (3, None),
        b"billed" => (4, Some("by")),
        b"bills" => (5, None),
        b"pays" => return paying(words),
        b"made" => (8, Some("of")),
        b"makes" => (9, None),
        b"counted" => (10, None),
        b"stock" => (11, Some("of")),
        b"account" => (12, None),
        b"order" => (13, None),
        b"lots" => (14, Some("of")),
        b"entries" => (15, Some("from")),
        _ => return Err(start),
    };
    if let Some(second) = second {
        words.keyword(second.as_bytes())?;
    }
    Ok(number)
}

fn paying(words: &mut Words) -> Result<u8, usize> {
    let start = words.next_at();
    match words.word() {
        b"out" => Ok(6),
        b"in" => Ok(7),
        _ => Err(start),
    }
}

// `3: item 0, 3 each, item 1, 2 each`, up to the line's end.
fn recipe(words: &mut Words) -> Result<Call, usize> {
    let made = words.number()?;
    words.mark(b':')?;
    let mut parts = Vec::new();
    for part in 0..MOST_PARTS {
        if words.end().is_ok() {
            break;
        }
        if part > 0 {
            words.mark(b',')?;
        }
        words.keyword(b"item")?;
        let item = words.number()?;
        words.mark(b',')?;
        let each = words.number()?;
        words.keyword(b"each")?;
        parts.push(Part { item, each });
    }
    words.end()?;
    Ok(Call::Recipe(made, parts))
}
