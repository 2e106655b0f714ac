//! What is timed: one call with its input, or a whole suite. It is done by either side, into buffers of its own, and leaves a
//! trace, by which the two are compared before a clock is started.
use crate::sides::{Side, DONE, MOST_TABLE, NEXT};
use std::hint::black_box;

pub enum Work {
    Unpack(Vec<u8>),
    Pack(Vec<u16>),
    Tables(Vec<u16>),
    /// The marks are set anew for each call: so many octets are copied, on both sides.
    Next {
        words: Vec<u16>,
        table: Vec<u16>,
        marks: Vec<u8>,
    },
    Replay {
        words: Vec<u16>,
        list: Vec<u16>,
    },
    /// Unpack, tables, then next from clear marks until it does not answer Next.
    Suite(Vec<u8>),
}

/// Room that is always enough, with noise in it.
#[derive(PartialEq)]
pub struct Lent {
    pub file: Vec<u8>,
    pub words: Vec<u16>,
    pub table: Vec<u16>,
    pub marks: Vec<u8>,
    pub sentence: Vec<u16>,
    pub derivation: Vec<u16>,
}

impl Lent {
    pub fn new() -> Lent {
        let noise = |room: usize| (0..room).map(|at| (at * 40503 % 65536) as u16).collect::<Vec<u16>>();
        let octets = |room: usize| (0..room).map(|at| (at * 157 % 256) as u8).collect::<Vec<u8>>();
        Lent {
            file: octets(17417),
            words: noise(8707),
            table: noise(MOST_TABLE),
            marks: octets(256),
            sentence: noise(131_072),
            derivation: noise(4096),
        }
    }
}

/// Does the suite of a file; `seen` gets each answer and the buffers as they then are.
fn suite<S: Side>(side: &mut S, file: &[u8], lent: &mut Lent, mut seen: impl FnMut([u64; 4], &Lent)) -> [u64; 4] {
    let unpacked = side.unpack(file, &mut lent.words);
    seen(unpacked, lent);
    if unpacked[0] != DONE {
        return unpacked;
    }
    let words = unpacked[1] as usize;
    let written = side.tables(&lent.words[..words], &mut lent.table);
    seen(written, lent);
    if written[0] != DONE {
        return written;
    }
    let table = written[1] as usize;
    let rules = table - 5 * usize::from(lent.words[0]);
    lent.marks[..rules].fill(0);
    loop {
        let answer = side.next(
            &lent.words[..words],
            &lent.table[..table],
            &mut lent.marks[..rules],
            &mut lent.sentence,
            &mut lent.derivation,
        );
        seen(answer, lent);
        if answer[0] != NEXT {
            return answer;
        }
    }
}

/// Does the work so many times.
#[inline(never)]
pub fn repeat<S: Side>(side: &mut S, work: &Work, lent: &mut Lent, times: usize) -> [u64; 4] {
    let mut answer = [0; 4];
    match work {
        Work::Unpack(file) => {
            for _ in 0..times {
                answer = black_box(side.unpack(black_box(file), &mut lent.words));
            }
        }
        Work::Pack(words) => {
            for _ in 0..times {
                answer = black_box(side.pack(black_box(words), &mut lent.file));
            }
        }
        Work::Tables(words) => {
            for _ in 0..times {
                answer = black_box(side.tables(black_box(words), &mut lent.table));
            }
        }
        Work::Next { words, table, marks } => {
            for _ in 0..times {
                let now = &mut lent.marks[..marks.len()];
                now.copy_from_slice(marks);
                answer = black_box(side.next(black_box(words), table, now, &mut lent.sentence, &mut lent.derivation));
            }
        }
        Work::Replay { words, list } => {
            for _ in 0..times {
                answer = black_box(side.replay(black_box(words), list, &mut lent.sentence));
            }
        }
        Work::Suite(file) => {
            for _ in 0..times {
                answer = black_box(suite(side, black_box(file), lent, |_, _| {}));
            }
        }
    }
    answer
}

/// What the work answers and writes, with how many sentences and numbers: of a suite call by call, the front of the buffers that
/// the answer speaks of, and in the end all of them, whole.
pub struct Trace {
    pub numbers: Vec<u64>,
    pub lent: Lent,
    pub answer: [u64; 4],
    pub sentences: usize,
    pub output: usize,
}

pub fn trace<S: Side>(side: &mut S, work: &Work) -> Trace {
    let mut lent = Lent::new();
    let (mut numbers, mut sentences, mut output) = (Vec::new(), 0, 0);
    let answer = match work {
        Work::Suite(file) => suite(side, file, &mut lent, |answer, lent| {
            numbers.extend(answer);
            if answer[0] == NEXT {
                sentences += 1;
                output += (answer[2] + answer[3]) as usize;
                numbers.extend(lent.sentence[..answer[2] as usize].iter().map(|&word| u64::from(word)));
                numbers.extend(lent.derivation[..answer[3] as usize].iter().map(|&word| u64::from(word)));
                numbers.extend(lent.marks.iter().map(|&mark| u64::from(mark)));
            }
        }),
        _ => repeat(side, work, &mut lent, 1),
    };
    if !matches!(work, Work::Suite(_)) {
        numbers.extend(answer);
        output = match answer[0] {
            DONE => answer[1] as usize,
            NEXT => (answer[2] + answer[3]) as usize,
            _ => 0,
        };
    }
    Trace { numbers, lent, answer, sentences, output }
}
