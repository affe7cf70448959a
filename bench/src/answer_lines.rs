//! Answers as lines of text.

use crate::plain::Answer;

/// Appends an answer and a line feed.
pub fn put(out: &mut Vec<u8>, answer: &Answer) {
    match answer {
        Answer::Refused(by, place) => {
            out.extend_from_slice(b"refused ");
            put_number(out, *by);
            out.extend_from_slice(b" at ");
            put_number(out, *place);
        }
        Answer::Number(n) => put_number(out, *n),
        Answer::Two(a, b) => put_numbers(out, &[*a, *b]),
        Answer::Lots(_, ([], [])) => out.extend_from_slice(b"none"),
        Answer::Lots(item, (front, back)) => {
            for (k, lot) in front.iter().chain(*back).enumerate() {
                if k > 0 {
                    out.extend_from_slice(b", ");
                }
                put_numbers(out, &[*item, u64::from(lot.pieces), lot.cost, lot.document]);
            }
        }
        Answer::WentIn(lots) => {
            for (k, (item, lot)) in lots.iter().enumerate() {
                if k > 0 {
                    out.extend_from_slice(b", ");
                }
                put_numbers(out, &[*item, u64::from(lot.pieces), lot.cost, lot.document]);
            }
        }
        Answer::Entries([]) => out.extend_from_slice(b"none"),
        Answer::Entries(entries) => {
            for (k, e) in entries.iter().enumerate() {
                if k > 0 {
                    out.extend_from_slice(b", ");
                }
                put_numbers(out, &[u64::from(e.left), u64::from(e.right), e.amount, e.document]);
            }
        }
    }
    out.push(b'\n');
}

// With spaces between.
fn put_numbers(out: &mut Vec<u8>, numbers: &[u64]) {
    for (k, n) in numbers.iter().enumerate() {
        if k > 0 {
            out.push(b' ');
        }
        put_number(out, *n);
    }
}

fn put_number(out: &mut Vec<u8>, mut n: u64) {
    let mut digits = [0; 20];
    let mut start = digits.len();
    loop {
        start -= 1;
        digits[start] = b'0' + (n % 10) as u8;
        n /= 10;
        if n == 0 {
            break;
        }
    }
    out.extend_from_slice(&digits[start..]);
}
