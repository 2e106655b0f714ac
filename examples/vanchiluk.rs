//! The five calls for Rust, as safe functions over slices: a slice is never null, and what is lent as `&mut` overlaps nothing
//! else, which is all that the calls ask. Take it into a program by `mod vanchiluk;`, and give rustc
//! `--edition 2021 -L crates/calls/out`.
#![allow(dead_code)]

/// "an answer is one of Done, Next, Finished or Refused"
#[derive(Clone, Copy, Debug, PartialEq, Eq)]
pub enum Answer {
    Done { length: usize },
    Next { target: usize, tokens: usize, rules: usize },
    Finished,
    Refused { number: u64, place: usize },
}

/// The most words of a table (include/vanchiluk.h).
pub const MOST_TABLE: usize = 896;

/// As the archive has them (include/vanchiluk.h).
pub mod linked {
    #[link(name = "calls", kind = "static")]
    extern "C" {
        pub fn vanchiluk_unpack(file: *const u8, octets: usize, words: *mut u16, room: usize, answer: *mut [u64; 4]);
        pub fn vanchiluk_pack(words: *const u16, count: usize, file: *mut u8, room: usize, answer: *mut [u64; 4]);
        pub fn vanchiluk_tables(words: *const u16, count: usize, table: *mut u16, room: usize, answer: *mut [u64; 4]);
        pub fn vanchiluk_next(
            words: *const u16,
            words_count: usize,
            table: *const u16,
            table_count: usize,
            marks: *mut u8,
            marks_count: usize,
            sentence: *mut u16,
            sentence_room: usize,
            derivation: *mut u16,
            derivation_room: usize,
            answer: *mut [u64; 4],
        );
        pub fn vanchiluk_replay(
            words: *const u16,
            words_count: usize,
            list: *const u16,
            list_count: usize,
            sentence: *mut u16,
            sentence_room: usize,
            answer: *mut [u64; 4],
        );
    }
}

fn answer(numbers: [u64; 4]) -> Answer {
    let [kind, first, second, third] = numbers;
    match kind {
        0 => Answer::Done { length: first as usize },
        1 => Answer::Next { target: first as usize, tokens: second as usize, rules: third as usize },
        2 => Answer::Finished,
        _ => Answer::Refused { number: first, place: second as usize },
    }
}

/// File to words.
pub fn unpack(file: &[u8], words: &mut [u16]) -> Answer {
    let mut numbers = [0; 4];
    unsafe { linked::vanchiluk_unpack(file.as_ptr(), file.len(), words.as_mut_ptr(), words.len(), &mut numbers) };
    answer(numbers)
}

/// Words to file.
pub fn pack(words: &[u16], file: &mut [u8]) -> Answer {
    let mut numbers = [0; 4];
    unsafe { linked::vanchiluk_pack(words.as_ptr(), words.len(), file.as_mut_ptr(), file.len(), &mut numbers) };
    answer(numbers)
}

/// Words to table.
pub fn tables(words: &[u16], table: &mut [u16]) -> Answer {
    let mut numbers = [0; 4];
    unsafe { linked::vanchiluk_tables(words.as_ptr(), words.len(), table.as_mut_ptr(), table.len(), &mut numbers) };
    answer(numbers)
}

/// The sentence of the lowest unused rule and its derivation, and the marks.
pub fn next(words: &[u16], table: &[u16], marks: &mut [u8], sentence: &mut [u16], derivation: &mut [u16]) -> Answer {
    let mut numbers = [0; 4];
    unsafe {
        linked::vanchiluk_next(
            words.as_ptr(),
            words.len(),
            table.as_ptr(),
            table.len(),
            marks.as_mut_ptr(),
            marks.len(),
            sentence.as_mut_ptr(),
            sentence.len(),
            derivation.as_mut_ptr(),
            derivation.len(),
            &mut numbers,
        )
    };
    answer(numbers)
}

/// Rule numbers to the sentence of that leftmost derivation.
pub fn replay(words: &[u16], list: &[u16], sentence: &mut [u16]) -> Answer {
    let mut numbers = [0; 4];
    unsafe {
        linked::vanchiluk_replay(
            words.as_ptr(),
            words.len(),
            list.as_ptr(),
            list.len(),
            sentence.as_mut_ptr(),
            sentence.len(),
            &mut numbers,
        )
    };
    answer(numbers)
}
