//! The words of a line, read one after the other. What does not fit is told by its offset in the line.

pub struct Words<'a> {
    line: &'a [u8],
    at: usize,
}

fn is_blank(byte: u8) -> bool {
    byte == b' ' || byte == b'\t'
}

fn is_gap(byte: u8) -> bool {
    is_blank(byte) || byte == b':' || byte == b','
}

fn value(word: &[u8]) -> Option<u64> {
    if word.is_empty() {
        return None;
    }
    word.iter().try_fold(0u64, |n, byte| {
        let digit = byte.wrapping_sub(b'0');
        if digit > 9 { None } else { n.checked_mul(10)?.checked_add(u64::from(digit)) }
    })
}

impl<'a> Words<'a> {
    pub fn new(line: &'a [u8]) -> Words<'a> {
        Words { line, at: 0 }
    }

    /// Where the next word or mark begins, or the line ends.
    pub fn next_at(&mut self) -> usize {
        while self.at < self.line.len() && is_blank(self.line[self.at]) {
            self.at += 1;
        }
        self.at
    }

    /// The next word; it is empty where a mark comes next, or nothing.
    pub fn word(&mut self) -> &'a [u8] {
        let start = self.next_at();
        while self.at < self.line.len() && !is_gap(self.line[self.at]) {
            self.at += 1;
        }
        &self.line[start..self.at]
    }

    pub fn number(&mut self) -> Result<u64, usize> {
        let start = self.next_at();
        value(self.word()).ok_or(start)
    }

    pub fn keyword(&mut self, wanted: &[u8]) -> Result<(), usize> {
        let start = self.next_at();
        if self.word() == wanted { Ok(()) } else { Err(start) }
    }

    /// A colon or a comma.
    pub fn mark(&mut self, wanted: u8) -> Result<(), usize> {
        let start = self.next_at();
        if self.line.get(start) != Some(&wanted) {
            return Err(start);
        }
        self.at += 1;
        Ok(())
    }

    pub fn end(&mut self) -> Result<(), usize> {
        let start = self.next_at();
        if start == self.line.len() { Ok(()) } else { Err(start) }
    }
}
