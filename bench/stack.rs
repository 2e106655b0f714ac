//! How much stack a call takes: the smallest stack in which it does what the reference does. The call runs in a child process on a
//! stack of its own, so many octets in front of memory that may not be touched. Nothing else is on that stack but 56 octets, in
//! which the call is entered: arguments that do not fit into registers, and the address to return to. They are counted.
//!
//!     stack DECKS
//!
//! prints a line for each case, its fields parted by tabs, for bench/run to lay out.
use std::arch::asm;
use std::ffi::c_void;
use std::path::Path;

#[allow(dead_code)]
mod cases;
#[allow(dead_code)]
mod sides;
#[allow(dead_code)]
mod works;

#[allow(dead_code)]
#[path = "../tests/programs/grammars.rs"]
mod grammars;

use cases::Order;
use sides::{Proved, Side, DONE, MOST_TABLE};
use works::{trace, Work};

extern "C" {
    fn mmap(at: *mut c_void, octets: usize, access: i32, kind: i32, file: i32, offset: i64) -> *mut c_void;
    fn mprotect(at: *mut c_void, octets: usize, access: i32) -> i32;
    fn fork() -> i32;
    fn waitpid(child: i32, status: *mut i32, options: i32) -> i32;
    fn _exit(status: i32) -> !;
}

const NO_ACCESS: i32 = 0;
const READ_AND_WRITE: i32 = 3;
const PRIVATE_AND_EMPTY: i32 = 0x22;

/// More than any call takes; the same again lies below it and may not be touched.
const ROOM: usize = 1 << 22;

/// A stack of so many octets for the proved calls.
struct Small {
    end: usize,
    octets: usize,
}

impl Small {
    fn new() -> Small {
        let low = unsafe { mmap(std::ptr::null_mut(), 2 * ROOM, NO_ACCESS, PRIVATE_AND_EMPTY, -1, 0) } as usize;
        let failed = unsafe { mprotect((low + ROOM) as *mut c_void, ROOM, READ_AND_WRITE) };
        assert!(low != usize::MAX && failed == 0, "no memory for a stack");
        Small { end: low + ROOM, octets: ROOM }
    }

    /// Calls a function of up to eleven arguments on this stack: six in registers, the others pushed.
    fn call(&self, function: usize, arguments: [usize; 11]) {
        unsafe {
            asm!(
                "mov r12, rsp",
                "mov rsp, r13",
                "sub rsp, 8",
                "push [r14 + 80]",
                "push [r14 + 72]",
                "push [r14 + 64]",
                "push [r14 + 56]",
                "push [r14 + 48]",
                "mov rdi, [r14]",
                "mov rsi, [r14 + 8]",
                "mov rdx, [r14 + 16]",
                "mov rcx, [r14 + 24]",
                "mov r8, [r14 + 32]",
                "mov r9, [r14 + 40]",
                "call r15",
                "mov rsp, r12",
                in("r13") self.end + self.octets,
                in("r14") arguments.as_ptr(),
                in("r15") function,
                out("r12") _,
                clobber_abi("C"),
            );
        }
    }
}

fn read<T>(slice: &[T]) -> [usize; 2] {
    [slice.as_ptr() as usize, slice.len()]
}

fn written<T>(slice: &mut [T]) -> [usize; 2] {
    [slice.as_mut_ptr() as usize, slice.len()]
}

impl Small {
    /// Calls with these slices, and gives the answer.
    fn answer(&self, function: usize, slices: &[[usize; 2]]) -> [u64; 4] {
        let mut answer = [0; 4];
        let mut arguments = [0; 11];
        for (at, slice) in slices.iter().enumerate() {
            arguments[2 * at..2 * at + 2].copy_from_slice(slice);
        }
        arguments[2 * slices.len()] = answer.as_mut_ptr() as usize;
        self.call(function, arguments);
        unsafe { std::ptr::read_volatile(&answer) }
    }
}

impl Side for &Small {
    fn unpack(&mut self, file: &[u8], words: &mut [u16]) -> [u64; 4] {
        self.answer(sides::vanchiluk_unpack as *const () as usize, &[read(file), written(words)])
    }
    fn pack(&mut self, words: &[u16], file: &mut [u8]) -> [u64; 4] {
        self.answer(sides::vanchiluk_pack as *const () as usize, &[read(words), written(file)])
    }
    fn tables(&mut self, words: &[u16], table: &mut [u16]) -> [u64; 4] {
        self.answer(sides::vanchiluk_tables as *const () as usize, &[read(words), written(table)])
    }
    fn next(&mut self, words: &[u16], table: &[u16], marks: &mut [u8], sentence: &mut [u16], derivation: &mut [u16]) -> [u64; 4] {
        let slices = [read(words), read(table), written(marks), written(sentence), written(derivation)];
        self.answer(sides::vanchiluk_next as *const () as usize, &slices)
    }
    fn replay(&mut self, words: &[u16], list: &[u16], sentence: &mut [u16]) -> [u64; 4] {
        self.answer(sides::vanchiluk_replay as *const () as usize, &[read(words), read(list), written(sentence)])
    }
}

/// Whether the work succeeds on this stack, in a child process.
fn succeeds(small: &Small, work: &Work, expected: &works::Trace) -> bool {
    let child = unsafe { fork() };
    assert!(child >= 0, "no child process");
    if child == 0 {
        let found = trace(&mut &*small, work);
        let same = found.numbers == expected.numbers && found.lent == expected.lent;
        unsafe { _exit(i32::from(!same)) };
    }
    let mut status = 0;
    unsafe { waitpid(child, &mut status, 0) };
    status == 0
}

/// The smallest stack, in steps of 16 octets, to which stacks are aligned.
fn smallest(small: &mut Small, work: &Work) -> usize {
    let expected = trace(&mut in_one::Workspace::new(), work);
    // fails with `low` times 16 octets, which is less than the 56 of the entry, and succeeds with `high` times 16
    let (mut low, mut high) = (3, ROOM / 16);
    while high - low > 1 {
        let middle = (low + high) / 2;
        small.octets = 16 * middle;
        if succeeds(small, work, &expected) {
            high = middle;
        } else {
            low = middle;
        }
    }
    16 * high
}

// ---------------------------------------------------------------- cases

fn packed(words: &[u16]) -> Vec<u8> {
    let mut file = vec![0; 17417];
    let answer = Proved.pack(words, &mut file);
    file.truncate(answer[1] as usize);
    file
}

fn words_of(path: &Path) -> Vec<u16> {
    let file = std::fs::read(path).expect("a packed file");
    let mut words = vec![0; 8707];
    let answer = Proved.unpack(&file, &mut words);
    assert!(answer[0] == DONE, "a deck is no packed file");
    words.truncate(answer[1] as usize);
    words
}

fn main() {
    let decks = std::env::args().nth(1).expect("the directory of the decks");
    let deck = |file: &str| words_of(&Path::new(&decks).join(file));
    let largest = deck("largest.packed");
    let mut small = Small::new();
    let mut show = |kind: &str, name: &str, work: Work| println!("{kind}\t{name}\t{}", smallest(&mut small, &work));
    for (name, words) in [
        ("D", deck("d.packed")),
        ("the deck grammar", deck("deck.packed")),
        ("8,707 words", largest.clone()),
        ("doubling, X10", cases::doubling(10)),
        ("chain, forward", cases::chain(128, Order::Forward)),
        ("chain, reverse", cases::chain(128, Order::Reverse)),
        ("chain, random", cases::chain(128, Order::Random)),
        ("largest output", cases::largest_output()),
        ("down the contexts, then the chosen rules; next link first", cases::round(0)),
        ("the same, next link in the middle", cases::round(2)),
        ("the same, next link last", cases::round(4)),
        ("chosen rules beside all contexts, left", cases::beside(true)),
        ("chosen rules beside all contexts, right", cases::beside(false)),
    ] {
        show("suite", name, Work::Suite(packed(&words)));
    }
    for (name, (words, list)) in [
        ("4,096 nested, left", cases::nested(true)),
        ("4,096 nested, right", cases::nested(false)),
        ("126,977 tokens", cases::longest_replay()),
    ] {
        show("replay", name, Work::Replay { words, list });
    }
    let random = cases::chain(128, Order::Random);
    show("unpack", "8,707 words", Work::Unpack(packed(&largest)));
    show("pack", "8,707 words", Work::Pack(largest.clone()));
    show("tables", "8,707 words", Work::Tables(largest.clone()));
    show("tables", "chain, random", Work::Tables(random.clone()));
    show("next, refused 8", "8,707 words", Work::Next { words: largest, table: vec![0; MOST_TABLE], marks: vec![0; 256] });
    show("next, refused 8", "chain, random", Work::Next { words: random, table: vec![0; 768], marks: vec![0; 128] });
}
