//! Calls and answers of the plain books as bytes.

use crate::numbers::{FIELDS, RECIPE};
use crate::plain::{Answer, Part, Plain};

/// Does the call that a row of bytes is, and writes its answer; gives the answer's length.
pub fn answer(books: &mut Plain, row: &[u8], out: &mut [u8]) -> usize {
    match read(row) {
        Ok((RECIPE, _)) => write(&books.made_of(field(row, 1), &parts(row)), out),
        Ok((number, fields)) => write(&books.call(number, fields), out),
        Err(place) => write(&Answer::Refused(1, place), out),
    }
}

fn field(row: &[u8], at: usize) -> u64 {
    u64::from_le_bytes(row[at..at + 8].try_into().unwrap())
}

// The number and the fields of a call, or where the row ceases to be one. A recipe has none: see `parts`.
fn read(row: &[u8]) -> Result<(u8, [u64; 3]), u64> {
    let number = *row.first().ok_or(0u64)?;
    let count = *FIELDS.get(usize::from(number)).ok_or(0u64)?;
    let size = if number == RECIPE { recipe_size(row) } else { 1 + 8 * count };
    if row.len() != size {
        return Err(row.len().min(size) as u64);
    }
    let fields = match count {
        0 => [0; 3],
        1 => [field(row, 1), 0, 0],
        2 => [field(row, 1), field(row, 9), 0],
        _ => [field(row, 1), field(row, 9), field(row, 17)],
    };
    Ok((number, fields))
}

// A number, an item, a count of parts, and two fields for each part.
fn recipe_size(row: &[u8]) -> usize {
    row.get(9).map_or(10, |count| 10 + 16 * usize::from(*count))
}

// The parts of a row that is a recipe.
fn parts(row: &[u8]) -> Vec<Part> {
    row[10..].chunks_exact(16).map(|part| Part { item: field(part, 0), each: field(part, 8) }).collect()
}

fn write(answer: &Answer, out: &mut [u8]) -> usize {
    match answer {
        Answer::Refused(by, place) => put(out, 0, [*by, *place]),
        Answer::Number(n) => put(out, 1, [*n]),
        Answer::Two(a, b) => put(out, 2, [*a, *b]),
        Answer::Lots(item, (front, back)) => {
            let count = front.len() + back.len();
            let start = put(out, 3, [count as u64]);
            for (lot, line) in front.iter().chain(*back).zip(out[start..].chunks_exact_mut(32)) {
                put_fields(line, [*item, u64::from(lot.pieces), lot.cost, lot.document]);
            }
            start + 32 * count
        }
        Answer::WentIn(lots) => {
            let start = put(out, 3, [lots.len() as u64]);
            for ((item, lot), line) in lots.iter().zip(out[start..].chunks_exact_mut(32)) {
                put_fields(line, [*item, u64::from(lot.pieces), lot.cost, lot.document]);
            }
            start + 32 * lots.len()
        }
        Answer::Entries(entries) => {
            let start = put(out, 4, [entries.len() as u64]);
            for (e, line) in entries.iter().zip(out[start..].chunks_exact_mut(32)) {
                put_fields(line, [u64::from(e.left), u64::from(e.right), e.amount, e.document]);
            }
            start + 32 * entries.len()
        }
    }
}

fn put<const N: usize>(out: &mut [u8], kind: u8, numbers: [u64; N]) -> usize {
    out[0] = kind;
    put_fields(&mut out[1..], numbers);
    1 + 8 * N
}

fn put_fields<const N: usize>(out: &mut [u8], numbers: [u64; N]) {
    let out = &mut out[..8 * N];
    for (n, eight) in numbers.iter().zip(out.chunks_exact_mut(8)) {
        eight.copy_from_slice(&n.to_le_bytes());
    }
}
