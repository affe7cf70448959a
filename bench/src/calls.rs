//! Calls and answers as bytes, written from the description of the format alone.

use bench::numbers::{FIELDS, RECIPE};

/// A call by its number and fields.
#[derive(Clone, Debug, PartialEq, Eq)]
pub enum Call {
    /// Number and fields of a call that is no recipe.
    Plain(u8, Vec<u64>),
    /// A recipe: item and parts.
    Recipe(u64, Vec<(u64, u64)>),
    /// Bytes that are no call, and the place of the first that does not fit.
    Garbled(u64),
}

#[derive(Clone, Debug, PartialEq, Eq)]
pub enum Answer {
    Refused(u64, u64),
    Number(u64),
    Two(u64, u64),
    Lots(Vec<[u64; 4]>),
    Entries(Vec<[u64; 4]>),
}

fn field(bytes: &[u8], at: usize) -> u64 {
    u64::from_le_bytes(bytes[at..at + 8].try_into().unwrap())
}

pub fn read(bytes: &[u8]) -> Call {
    let Some(&number) = bytes.first() else {
        return Call::Garbled(0);
    };
    if usize::from(number) >= FIELDS.len() {
        return Call::Garbled(0);
    }
    let wanted = if number != RECIPE {
        1 + 8 * FIELDS[usize::from(number)]
    } else if bytes.len() < 10 {
        return Call::Garbled(bytes.len() as u64);
    } else {
        10 + 16 * usize::from(bytes[9])
    };
    if bytes.len() != wanted {
        return Call::Garbled(bytes.len().min(wanted) as u64);
    }
    if number == RECIPE {
        let parts = (0..usize::from(bytes[9]))
            .map(|k| (field(bytes, 10 + 16 * k), field(bytes, 18 + 16 * k)))
            .collect();
        Call::Recipe(field(bytes, 1), parts)
    } else {
        Call::Plain(number, (0..FIELDS[usize::from(number)]).map(|k| field(bytes, 1 + 8 * k)).collect())
    }
}

/// The bytes of a call.
pub fn bytes(call: &Call) -> Vec<u8> {
    let mut out = Vec::new();
    match call {
        Call::Plain(number, fields) => {
            out.push(*number);
            fields.iter().for_each(|f| out.extend(f.to_le_bytes()));
        }
        Call::Recipe(item, parts) => {
            out.push(RECIPE);
            out.extend(item.to_le_bytes());
            out.push(parts.len() as u8);
            for (part, each) in parts {
                out.extend(part.to_le_bytes());
                out.extend(each.to_le_bytes());
            }
        }
        Call::Garbled(_) => {}
    }
    out
}

/// The bytes of an answer.
pub fn answer_bytes(answer: &Answer) -> Vec<u8> {
    let mut out = Vec::new();
    let mut put = |kind: u8, numbers: &[u64]| {
        out.push(kind);
        numbers.iter().for_each(|n| out.extend(n.to_le_bytes()));
    };
    match answer {
        Answer::Refused(by, place) => put(0, &[*by, *place]),
        Answer::Number(n) => put(1, &[*n]),
        Answer::Two(a, b) => put(2, &[*a, *b]),
        Answer::Lots(rows) | Answer::Entries(rows) => {
            put(if matches!(answer, Answer::Lots(_)) { 3 } else { 4 }, &[rows.len() as u64]);
            rows.iter().flatten().for_each(|n| out.extend(n.to_le_bytes()));
        }
    }
    out
}
