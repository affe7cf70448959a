//! The proved engine, through the functions that it exports to C.

use bench::limits::Limits;

#[link(name = "session", kind = "static")]
unsafe extern "C" {
    fn books_wide(limits: *const u64, limits_len: usize) -> i64;
    fn books_narrow(limits: *const u64, limits_len: usize) -> i64;
    fn books_answer(limits: *const u64, limits_len: usize) -> i64;
    fn books_open(
        wide: *mut u64,
        wide_len: usize,
        narrow: *mut u32,
        narrow_len: usize,
        limits: *const u64,
        limits_len: usize,
    ) -> i64;
    fn books_call(
        wide: *mut u64,
        wide_len: usize,
        narrow: *mut u32,
        narrow_len: usize,
        call: *const u8,
        call_len: usize,
        answer: *mut u8,
        answer_len: usize,
    ) -> i64;
}

pub struct Engine {
    wide: Vec<u64>,
    narrow: Vec<u32>,
    answer: Vec<u8>,
}

impl Engine {
    /// Opens books in memory of just the size that the limits ask for.
    pub fn new(limits: &Limits) -> Engine {
        let words = limits.words();
        let need = |f: unsafe extern "C" fn(*const u64, usize) -> i64| {
            let n = unsafe { f(words.as_ptr(), words.len()) };
            usize::try_from(n).expect("limits out of range")
        };
        let mut engine = Engine {
            wide: vec![0; need(books_wide)],
            narrow: vec![0; need(books_narrow)],
            answer: vec![0; need(books_answer)],
        };
        engine.open(limits);
        engine
    }

    /// Opens new books in the same memory, which suffices for the limits.
    pub fn open(&mut self, limits: &Limits) {
        let words = limits.words();
        let (wide, narrow) = (&mut self.wide, &mut self.narrow);
        let opened = unsafe {
            books_open(wide.as_mut_ptr(), wide.len(), narrow.as_mut_ptr(), narrow.len(), words.as_ptr(), words.len())
        };
        assert_eq!(opened, 0, "books could not be opened");
    }

    /// The bytes of the answer to a call.
    pub fn call(&mut self, call: &[u8]) -> &[u8] {
        let len = unsafe {
            books_call(
                self.wide.as_mut_ptr(),
                self.wide.len(),
                self.narrow.as_mut_ptr(),
                self.narrow.len(),
                call.as_ptr(),
                call.len(),
                self.answer.as_mut_ptr(),
                self.answer.len(),
            )
        };
        &self.answer[..usize::try_from(len).expect("refused at the boundary")]
    }

    /// All words of memory.
    pub fn memory(&self) -> (&[u64], &[u32]) {
        (&self.wide, &self.narrow)
    }
}
