//! The sides: the five calls of the archive, and those of the reference. All are called in the same way, through a function that is
//! not inlined, and answer four numbers. The reference is there twice, as bench/run has it compiled in two ways, of which now one
//! and now the other is faster.
use std::mem::MaybeUninit;

#[path = "../examples/vanchiluk.rs"]
mod vanchiluk;
pub use vanchiluk::linked::*;
pub use vanchiluk::MOST_TABLE;

pub const DONE: u64 = 0;
pub const NEXT: u64 = 1;

pub trait Side {
    fn unpack(&mut self, file: &[u8], words: &mut [u16]) -> [u64; 4];
    fn pack(&mut self, words: &[u16], file: &mut [u8]) -> [u64; 4];
    fn tables(&mut self, words: &[u16], table: &mut [u16]) -> [u64; 4];
    fn next(&mut self, words: &[u16], table: &[u16], marks: &mut [u8], sentence: &mut [u16], derivation: &mut [u16]) -> [u64; 4];
    fn replay(&mut self, words: &[u16], list: &[u16], sentence: &mut [u16]) -> [u64; 4];
}

/// The archive, by include/vanchiluk.h.
pub struct Proved;

impl Side for Proved {
    #[inline(never)]
    fn unpack(&mut self, file: &[u8], words: &mut [u16]) -> [u64; 4] {
        let mut answer = MaybeUninit::uninit();
        unsafe { vanchiluk_unpack(file.as_ptr(), file.len(), words.as_mut_ptr(), words.len(), answer.as_mut_ptr()) };
        // the call writes its answer straight into the caller's place, as the reference's is returned
        unsafe { answer.assume_init() }
    }
    #[inline(never)]
    fn pack(&mut self, words: &[u16], file: &mut [u8]) -> [u64; 4] {
        let mut answer = MaybeUninit::uninit();
        unsafe { vanchiluk_pack(words.as_ptr(), words.len(), file.as_mut_ptr(), file.len(), answer.as_mut_ptr()) };
        unsafe { answer.assume_init() }
    }
    #[inline(never)]
    fn tables(&mut self, words: &[u16], table: &mut [u16]) -> [u64; 4] {
        let mut answer = MaybeUninit::uninit();
        unsafe { vanchiluk_tables(words.as_ptr(), words.len(), table.as_mut_ptr(), table.len(), answer.as_mut_ptr()) };
        unsafe { answer.assume_init() }
    }
    #[inline(never)]
    fn next(&mut self, words: &[u16], table: &[u16], marks: &mut [u8], sentence: &mut [u16], derivation: &mut [u16]) -> [u64; 4] {
        let mut answer = MaybeUninit::uninit();
        unsafe {
            vanchiluk_next(
                words.as_ptr(),
                words.len(),
                table.as_ptr(),
                table.len(),
                marks.as_mut_ptr(),
                marks.len(),
                sentence.as_mut_ptr(),
                sentence.len(),
                derivation.as_mut_ptr(),
                derivation.len(),
                answer.as_mut_ptr(),
            )
        };
        unsafe { answer.assume_init() }
    }
    #[inline(never)]
    fn replay(&mut self, words: &[u16], list: &[u16], sentence: &mut [u16]) -> [u64; 4] {
        let mut answer = MaybeUninit::uninit();
        unsafe {
            vanchiluk_replay(
                words.as_ptr(),
                words.len(),
                list.as_ptr(),
                list.len(),
                sentence.as_mut_ptr(),
                sentence.len(),
                answer.as_mut_ptr(),
            )
        };
        unsafe { answer.assume_init() }
    }
}

macro_rules! reference {
    ($compiled:ident) => {
        impl Side for $compiled::Workspace {
            #[inline(never)]
            fn unpack(&mut self, file: &[u8], words: &mut [u16]) -> [u64; 4] {
                $compiled::unpack(file, words).numbers()
            }
            #[inline(never)]
            fn pack(&mut self, words: &[u16], file: &mut [u8]) -> [u64; 4] {
                $compiled::pack(words, file).numbers()
            }
            #[inline(never)]
            fn tables(&mut self, words: &[u16], table: &mut [u16]) -> [u64; 4] {
                $compiled::Workspace::tables(self, words, table).numbers()
            }
            #[inline(never)]
            fn next(
                &mut self,
                words: &[u16],
                table: &[u16],
                marks: &mut [u8],
                sentence: &mut [u16],
                derivation: &mut [u16],
            ) -> [u64; 4] {
                $compiled::Workspace::next(self, words, table, marks, sentence, derivation).numbers()
            }
            #[inline(never)]
            fn replay(&mut self, words: &[u16], list: &[u16], sentence: &mut [u16]) -> [u64; 4] {
                $compiled::Workspace::replay(self, words, list, sentence).numbers()
            }
        }
    };
}

// in one unit, and in sixteen
reference!(in_one);
reference!(in_many);
