//! The library's calls. This file has all unsafe code of the crate: each pointer goes with the length of the slice or array that it is
//! taken from, and no two that are written to overlap, as they come from exclusive borrows.

const WORDS: usize = 4096;
pub const ROW: usize = 64;
pub const VARIABLES: usize = 64;
pub const LOG: usize = 385;
pub const RECORDS: usize = 160;
pub const HELD: usize = 2048;
pub const ANSWER: usize = 3;
pub const SHEET: usize = 8192;
pub const MODEL: usize = 6949;
pub const FILE: usize = 13934;

/// The distance table of the largest model has as many words.
pub type Words = [u64; WORDS];

/// Made on the heap, as a caller may have little stack.
pub fn no_words() -> Box<Words> {
    vec![0; WORDS].into_boxed_slice().try_into().expect("as many words as were made")
}

/// The buffers of a state, each as long as the library asks, and of the values that are held.
#[derive(Clone, Debug, PartialEq, Eq)]
pub struct Kept {
    pub variables: [u32; VARIABLES],
    pub log: [u64; LOG],
    pub records: [u64; RECORDS],
    pub held: [u32; HELD],
}

impl Kept {
    pub fn zero() -> Kept {
        Kept { variables: [0; VARIABLES], log: [0; LOG], records: [0; RECORDS], held: [0; HELD] }
    }

    pub fn lent(&mut self) -> Lent<'_> {
        Lent { variables: &mut self.variables, log: &mut self.log, records: &mut self.records, held: &mut self.held }
    }
}

/// The same buffers, of any length.
pub struct Lent<'a> {
    pub variables: &'a mut [u32],
    pub log: &'a mut [u64],
    pub records: &'a mut [u64],
    pub held: &'a mut [u32],
}

// Pointer, then count, as bindings/c/teaselauger.h has them.
#[rustfmt::skip]
mod c {
    extern "C" {
        pub fn teaselauger_read(file: *const u8, n: usize) -> u8;
        pub fn teaselauger_load(file: *const u8, n: usize, words: *mut u64, w: usize) -> u8;
        pub fn teaselauger_sheet(file: *const u8, n: usize, budget: u64, out: *mut u8, o: usize) -> usize;
        pub fn teaselauger_fresh(
            file: *const u8, n: usize, variables: *mut u32, v: usize, log: *mut u64, l: usize, records: *mut u64, r: usize,
        ) -> u8;
        pub fn teaselauger_request(
            file: *const u8, n: usize, words: *const u64, w: usize, variables: *mut u32, v: usize, log: *mut u64, l: usize,
            records: *mut u64, r: usize, thread: u8, answer: *mut u64, a: usize,
        ) -> u8;
        pub fn teaselauger_load_by_rows(file: *const u8, n: usize, row: *const u64, w: usize) -> u8;
        pub fn teaselauger_request_by_rows(
            file: *const u8, n: usize, row: *mut u64, w: usize, variables: *mut u32, v: usize, log: *mut u64, l: usize,
            records: *mut u64, r: usize, thread: u8, answer: *mut u64, a: usize,
        ) -> u8;
        pub fn teaselauger_grant(
            file: *const u8, n: usize, words: *const u64, w: usize, held: *mut u32, h: usize, variables: *mut u32, v: usize,
            log: *mut u64, l: usize, records: *mut u64, r: usize, thread: u8, answer: *mut u64, a: usize,
        ) -> u8;
        pub fn teaselauger_finish(
            file: *const u8, n: usize, words: *const u64, w: usize, held: *mut u32, h: usize, variables: *mut u32, v: usize,
            log: *mut u64, l: usize, records: *mut u64, r: usize, thread: u8, answer: *mut u64, a: usize,
        ) -> u8;
        pub fn teaselauger_grant_by_rows(
            file: *const u8, n: usize, row: *mut u64, w: usize, held: *mut u32, h: usize, variables: *mut u32, v: usize,
            log: *mut u64, l: usize, records: *mut u64, r: usize, thread: u8, answer: *mut u64, a: usize,
        ) -> u8;
        pub fn teaselauger_finish_by_rows(
            file: *const u8, n: usize, row: *mut u64, w: usize, held: *mut u32, h: usize, variables: *mut u32, v: usize,
            log: *mut u64, l: usize, records: *mut u64, r: usize, thread: u8, answer: *mut u64, a: usize,
        ) -> u8;
        pub fn teaselauger_replay(
            file: *const u8, n: usize, words: *mut u64, w: usize, held: *mut u32, h: usize, calls: *const u16, c: usize,
            answers: *mut u64, a: usize, variables: *mut u32, v: usize, log: *mut u64, l: usize, records: *mut u64, r: usize,
        ) -> u8;
        pub fn teaselauger_replay_by_rows(
            file: *const u8, n: usize, row: *mut u64, w: usize, held: *mut u32, h: usize, calls: *const u16, c: usize,
            answers: *mut u64, a: usize, variables: *mut u32, v: usize, log: *mut u64, l: usize, records: *mut u64, r: usize,
        ) -> u8;
        pub fn teaselauger_model(file: *const u8, n: usize, numbers: *mut u32, m: usize) -> u8;
        pub fn teaselauger_write(
            numbers: *const u32, m: usize, out: *mut u8, o: usize, length: *mut u64, l: usize,
        ) -> u8;
    }
}

pub fn read(file: &[u8]) -> u8 {
    unsafe { c::teaselauger_read(file.as_ptr(), file.len()) }
}

pub fn model(file: &[u8], numbers: &mut [u32]) -> u8 {
    unsafe { c::teaselauger_model(file.as_ptr(), file.len(), numbers.as_mut_ptr(), numbers.len()) }
}

/// With the length, where the number is 0.
pub fn write(numbers: &[u32], out: &mut [u8]) -> (u8, u64) {
    let mut length = [0; 1];
    let number = unsafe {
        c::teaselauger_write(numbers.as_ptr(), numbers.len(), out.as_mut_ptr(), out.len(), length.as_mut_ptr(), length.len())
    };
    (number, length[0])
}

pub fn load(file: &[u8], words: &mut Words) -> u8 {
    unsafe { c::teaselauger_load(file.as_ptr(), file.len(), words.as_mut_ptr(), words.len()) }
}

pub fn sheet(file: &[u8], budget: u64, out: &mut [u8; SHEET]) -> usize {
    unsafe { c::teaselauger_sheet(file.as_ptr(), file.len(), budget, out.as_mut_ptr(), out.len()) }
}

#[rustfmt::skip]
pub fn fresh(file: &[u8], kept: &mut Kept) -> u8 {
    let Kept { variables, log, records, .. } = kept;
    unsafe {
        c::teaselauger_fresh(
            file.as_ptr(), file.len(), variables.as_mut_ptr(), variables.len(), log.as_mut_ptr(), log.len(),
            records.as_mut_ptr(), records.len(),
        )
    }
}

#[rustfmt::skip]
pub fn request(file: &[u8], words: &Words, kept: &mut Kept, thread: u8, answer: &mut [u64; ANSWER]) -> u8 {
    let Kept { variables, log, records, .. } = kept;
    unsafe {
        c::teaselauger_request(
            file.as_ptr(), file.len(), words.as_ptr(), words.len(), variables.as_mut_ptr(), variables.len(),
            log.as_mut_ptr(), log.len(), records.as_mut_ptr(), records.len(), thread, answer.as_mut_ptr(), answer.len(),
        )
    }
}

pub fn load_by_rows(file: &[u8], row: &[u64]) -> u8 {
    unsafe { c::teaselauger_load_by_rows(file.as_ptr(), file.len(), row.as_ptr(), row.len()) }
}

/// A row of any length is taken here, as are the buffers of the state: a short one is refused.
#[rustfmt::skip]
pub fn request_by_rows(file: &[u8], row: &mut [u64], lent: Lent, thread: u8, answer: &mut [u64; ANSWER]) -> u8 {
    let Lent { variables, log, records, .. } = lent;
    unsafe {
        c::teaselauger_request_by_rows(
            file.as_ptr(), file.len(), row.as_mut_ptr(), row.len(), variables.as_mut_ptr(), variables.len(),
            log.as_mut_ptr(), log.len(), records.as_mut_ptr(), records.len(), thread, answer.as_mut_ptr(), answer.len(),
        )
    }
}

/// Buffers of any length are taken here too.
#[rustfmt::skip]
pub fn grant(file: &[u8], words: &Words, lent: Lent, thread: u8, answer: &mut [u64; ANSWER]) -> u8 {
    let Lent { variables, log, records, held } = lent;
    unsafe {
        c::teaselauger_grant(
            file.as_ptr(), file.len(), words.as_ptr(), words.len(), held.as_mut_ptr(), held.len(), variables.as_mut_ptr(), variables.len(),
            log.as_mut_ptr(), log.len(), records.as_mut_ptr(), records.len(), thread, answer.as_mut_ptr(), answer.len(),
        )
    }
}

#[rustfmt::skip]
pub fn finish(file: &[u8], words: &Words, lent: Lent, thread: u8, answer: &mut [u64; ANSWER]) -> u8 {
    let Lent { variables, log, records, held } = lent;
    unsafe {
        c::teaselauger_finish(
            file.as_ptr(), file.len(), words.as_ptr(), words.len(), held.as_mut_ptr(), held.len(), variables.as_mut_ptr(), variables.len(),
            log.as_mut_ptr(), log.len(), records.as_mut_ptr(), records.len(), thread, answer.as_mut_ptr(), answer.len(),
        )
    }
}

#[rustfmt::skip]
pub fn grant_by_rows(file: &[u8], row: &mut [u64], lent: Lent, thread: u8, answer: &mut [u64; ANSWER]) -> u8 {
    let Lent { variables, log, records, held } = lent;
    unsafe {
        c::teaselauger_grant_by_rows(
            file.as_ptr(), file.len(), row.as_mut_ptr(), row.len(), held.as_mut_ptr(), held.len(), variables.as_mut_ptr(), variables.len(),
            log.as_mut_ptr(), log.len(), records.as_mut_ptr(), records.len(), thread, answer.as_mut_ptr(), answer.len(),
        )
    }
}

#[rustfmt::skip]
pub fn finish_by_rows(file: &[u8], row: &mut [u64], lent: Lent, thread: u8, answer: &mut [u64; ANSWER]) -> u8 {
    let Lent { variables, log, records, held } = lent;
    unsafe {
        c::teaselauger_finish_by_rows(
            file.as_ptr(), file.len(), row.as_mut_ptr(), row.len(), held.as_mut_ptr(), held.len(), variables.as_mut_ptr(), variables.len(),
            log.as_mut_ptr(), log.len(), records.as_mut_ptr(), records.len(), thread, answer.as_mut_ptr(), answer.len(),
        )
    }
}

/// With the answers, five words for each call.
#[rustfmt::skip]
pub fn replay(file: &[u8], words: &mut Words, calls: &[u16], lent: Lent) -> (u8, Vec<u64>) {
    let Lent { variables, log, records, held } = lent;
    let mut answers = vec![0; 5 * calls.len()];
    let number = unsafe {
        c::teaselauger_replay(
            file.as_ptr(), file.len(), words.as_mut_ptr(), words.len(), held.as_mut_ptr(), held.len(), calls.as_ptr(), calls.len(),
            answers.as_mut_ptr(), answers.len(), variables.as_mut_ptr(), variables.len(), log.as_mut_ptr(), log.len(),
            records.as_mut_ptr(), records.len(),
        )
    };
    (number, answers)
}

/// With the answers, as `replay`.
#[rustfmt::skip]
pub fn replay_by_rows(file: &[u8], row: &mut [u64], calls: &[u16], lent: Lent) -> (u8, Vec<u64>) {
    let Lent { variables, log, records, held } = lent;
    let mut answers = vec![0; 5 * calls.len()];
    let number = unsafe {
        c::teaselauger_replay_by_rows(
            file.as_ptr(), file.len(), row.as_mut_ptr(), row.len(), held.as_mut_ptr(), held.len(), calls.as_ptr(), calls.len(),
            answers.as_mut_ptr(), answers.len(), variables.as_mut_ptr(), variables.len(), log.as_mut_ptr(), log.len(),
            records.as_mut_ptr(), records.len(),
        )
    };
    (number, answers)
}
