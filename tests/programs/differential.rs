//! The proved calls against the reference: both get the same input, and the four numbers of their answers and every lent buffer,
//! whole, must be the same, with guard words on both sides. What is only read is compared too.
//!
//!     differential CALLS [SEED [FAULT]]
//!
//! prints how often each answer was reached, and fails where one never was, or an edge. A fault is a changed copy of the reference
//! (see the test script); with it the program is expected to fail.
use std::process::exit;

mod grammars;
use grammars::{damaged, grammar, Grammar, Random};

#[allow(dead_code)]
#[path = "../reference/vanchiluk.rs"]
mod reference;

/// The calls of an implementation, each answering its four numbers.
trait Calls {
    fn unpack(&mut self, file: &[u8], words: &mut [u16]) -> [u64; 4];
    fn pack(&mut self, words: &[u16], file: &mut [u8]) -> [u64; 4];
    fn tables(&mut self, words: &[u16], table: &mut [u16]) -> [u64; 4];
    fn next(&mut self, words: &[u16], table: &[u16], marks: &mut [u8], sentence: &mut [u16], derivation: &mut [u16]) -> [u64; 4];
    fn replay(&mut self, words: &[u16], list: &[u16], sentence: &mut [u16]) -> [u64; 4];
}

macro_rules! calls_of {
    ($copy:ident) => {
        impl Calls for $copy::Workspace {
            fn unpack(&mut self, file: &[u8], words: &mut [u16]) -> [u64; 4] {
                $copy::unpack(file, words).numbers()
            }
            fn pack(&mut self, words: &[u16], file: &mut [u8]) -> [u64; 4] {
                $copy::pack(words, file).numbers()
            }
            fn tables(&mut self, words: &[u16], table: &mut [u16]) -> [u64; 4] {
                $copy::Workspace::tables(self, words, table).numbers()
            }
            fn next(
                &mut self,
                words: &[u16],
                table: &[u16],
                marks: &mut [u8],
                sentence: &mut [u16],
                derivation: &mut [u16],
            ) -> [u64; 4] {
                $copy::Workspace::next(self, words, table, marks, sentence, derivation).numbers()
            }
            fn replay(&mut self, words: &[u16], list: &[u16], sentence: &mut [u16]) -> [u64; 4] {
                $copy::Workspace::replay(self, words, list, sentence).numbers()
            }
        }
    };
}

calls_of!(reference);

// The script writes the changed copies, and a function `faulty` that gives one by its name.
#[cfg(faults)]
include!(env!("FAULTS"));

#[cfg(not(faults))]
fn faulty(_: &str) -> Option<Box<dyn Calls>> {
    None
}

#[path = "../../examples/vanchiluk.rs"]
mod vanchiluk;
use vanchiluk::linked::*;

// ---------------------------------------------------------------- what is lent

const GUARD: usize = 16;

/// A slice with guards on both sides, twice: for the proved calls and for the reference.
struct Lent<T> {
    proved: Vec<T>,
    reference: Vec<T>,
}

impl<T: Copy + PartialEq> Lent<T> {
    fn new() -> Lent<T> {
        Lent { proved: Vec::new(), reference: Vec::new() }
    }

    /// Lends this content, between guards of noise.
    fn set(&mut self, content: &[T], noise: &[T]) {
        self.proved.clear();
        self.proved.extend_from_slice(&noise[..GUARD]);
        self.proved.extend_from_slice(content);
        self.proved.extend_from_slice(&noise[GUARD..2 * GUARD]);
        self.reference.clear();
        self.reference.extend_from_slice(&self.proved);
    }

    fn length(&self) -> usize {
        self.proved.len() - 2 * GUARD
    }

    fn read(&self) -> *const T {
        self.proved[GUARD..].as_ptr()
    }

    fn write(&mut self) -> *mut T {
        self.proved[GUARD..].as_mut_ptr()
    }

    fn content(&self) -> &[T] {
        &self.reference[GUARD..self.reference.len() - GUARD]
    }

    fn content_mut(&mut self) -> &mut [T] {
        let end = self.reference.len() - GUARD;
        &mut self.reference[GUARD..end]
    }

    /// Where the two differ first, counted from the front of the slice.
    fn differs(&self) -> Option<isize> {
        if self.proved == self.reference {
            return None;
        }
        let at = self.proved.iter().zip(&self.reference).position(|(a, b)| a != b);
        at.map(|at| at as isize - GUARD as isize)
    }
}

// ---------------------------------------------------------------- counts

const CALLS: [&str; 5] = ["unpack", "pack", "tables", "next", "replay"];

const UNPACK: usize = 0;
const PACK: usize = 1;
const TABLES: usize = 2;
const NEXT: usize = 3;
const REPLAY: usize = 4;

/// The answers that each call can give, in document 01's order: 0 stands for Done or Next, 13 for Finished.
const FINISHED: usize = 13;
const ANSWERS: [&[usize]; 5] =
    [&[1, 2, 3, 0], &[2, 3, 0], &[4, 5, 6, 7, 3, 0], &[4, 5, 6, 7, 8, 9, FINISHED, 3, 10, 0], &[4, 12, 11, 3, 0]];

/// Limits that must be met, each from both sides where it has two.
const EDGES: [&str; 20] = [
    "4 at the nonterminals",
    "4 at the terminals",
    "4 at the start",
    "4 at the word count",
    "4 at a 257th rule",
    "a table of 128 nonterminals",
    "a table of 256 rules",
    "a table of 8,707 words",
    "a table whose largest total is 4,096",
    "7 where a total is 4,097",
    "unpack of 8,707 words",
    "pack of 8,707 words",
    "2 for 8,708 words",
    "a sentence and derivation of 4,096 numbers",
    "next in exact room",
    "3 of next, one word short",
    "10 of next, one word short",
    "replay of 4,096 numbers",
    "12 for 4,097 numbers",
    "replay of more than 65,535 tokens",
];

const DONE_KIND: u64 = 0;
const NEXT_KIND: u64 = 1;
const FINISHED_KIND: u64 = 2;

struct Test {
    reference: Box<dyn Calls>,
    random: Random,
    noise_words: Vec<u16>,
    noise_octets: Vec<u8>,
    calls: usize,
    counts: [[usize; 14]; 5],
    edges: [usize; EDGES.len()],
    words: Lent<u16>,
    file: Lent<u8>,
    table: Lent<u16>,
    marks: Lent<u8>,
    list: Lent<u16>,
    sentence: Lent<u16>,
    derivation: Lent<u16>,
    answer: Lent<u64>,
}

const NOISE: usize = 1 << 18;

impl Test {
    fn new(reference: Box<dyn Calls>, seed: u64) -> Test {
        let mut random = Random::new(seed);
        let noise_words = (0..NOISE).map(|_| random.bits() as u16).collect();
        let noise_octets = (0..NOISE).map(|_| random.bits() as u8).collect();
        Test {
            reference,
            random,
            noise_words,
            noise_octets,
            calls: 0,
            counts: [[0; 14]; 5],
            edges: [0; EDGES.len()],
            words: Lent::new(),
            file: Lent::new(),
            table: Lent::new(),
            marks: Lent::new(),
            list: Lent::new(),
            sentence: Lent::new(),
            derivation: Lent::new(),
            answer: Lent::new(),
        }
    }

    fn noise(&mut self, length: usize) -> usize {
        self.random.below(NOISE - length - 2 * GUARD)
    }

    fn met(&mut self, edge: &str, is: bool) {
        if is {
            let at = EDGES.iter().position(|&one| one == edge).expect("an edge of the list");
            self.edges[at] += 1;
        }
    }

    /// The room to lend where so much is needed: exactly that, one less, less, none, or more.
    fn room(&mut self, needed: usize) -> usize {
        match self.random.below(20) {
            0..=5 => needed,
            6..=8 => needed.saturating_sub(1),
            9..=10 => self.random.below(needed + 1),
            11 => 0,
            12..=15 => needed + 1,
            _ => needed + self.random.below(40),
        }
    }

    // ------------------------------------------------------------ lending

    fn lend_words(&mut self, words: &[u16]) {
        let at = self.noise(0);
        self.words.set(words, &self.noise_words[at..]);
    }

    fn lend_table(&mut self, table: &[u16]) {
        let at = self.noise(0);
        self.table.set(table, &self.noise_words[at..]);
    }

    fn lend_list(&mut self, list: &[u16]) {
        let at = self.noise(0);
        self.list.set(list, &self.noise_words[at..]);
    }

    fn lend_marks(&mut self, marks: &[u8]) {
        let at = self.noise(0);
        self.marks.set(marks, &self.noise_octets[at..]);
    }

    fn lend_file(&mut self, file: &[u8]) {
        let at = self.noise(0);
        self.file.set(file, &self.noise_octets[at..]);
    }

    /// Buffers to be written hold noise before.
    fn lend_room(&mut self, what: fn(&mut Test) -> &mut Lent<u16>, room: usize) {
        let at = self.noise(room + 2 * GUARD);
        let noise = std::mem::take(&mut self.noise_words);
        what(self).set(&noise[at..at + room], &noise[at + room..]);
        self.noise_words = noise;
    }

    fn lend_file_room(&mut self, room: usize) {
        let at = self.noise(room + 2 * GUARD);
        self.file.set(&self.noise_octets[at..at + room], &self.noise_octets[at + room..]);
    }

    fn lend_answer(&mut self) {
        let noise: Vec<u64> = (0..2 * GUARD + 4).map(|_| self.random.bits()).collect();
        self.answer.set(&noise[2 * GUARD..], &noise);
    }

    // ------------------------------------------------------------ calling

    /// Both have answered: they must agree. The answer is counted, and its numbers are given back.
    fn agree(&mut self, call: usize, numbers: [u64; 4]) -> [u64; 4] {
        self.answer.content_mut().copy_from_slice(&numbers);
        self.calls += 1;
        let differ = [
            ("the answer", self.answer.differs()),
            ("the words", self.words.differs()),
            ("the file", self.file.differs()),
            ("the table", self.table.differs()),
            ("the marks", self.marks.differs()),
            ("the list", self.list.differs()),
            ("the sentence", self.sentence.differs()),
            ("the derivation", self.derivation.differs()),
        ];
        if differ.iter().any(|(_, at)| at.is_some()) {
            println!("differential: {} differs in call {}", CALLS[call], self.calls);
            for (what, at) in differ.iter().filter_map(|(what, at)| at.map(|at| (what, at))) {
                println!("  {what}, first at {at}");
            }
            println!("  proved    {:?}", &self.answer.proved[GUARD..GUARD + 4]);
            println!("  reference {numbers:?}");
            println!("  words     {:?}", &self.words.content()[..self.words.length().min(80)]);
            exit(1);
        }
        let answer = match numbers[0] {
            DONE_KIND | NEXT_KIND => 0,
            FINISHED_KIND => FINISHED,
            _ => numbers[1] as usize,
        };
        self.counts[call][answer] += 1;
        numbers
    }

    fn unpack(&mut self) -> [u64; 4] {
        self.lend_answer();
        let (file, octets, room) = (self.file.read(), self.file.length(), self.words.length());
        unsafe { vanchiluk_unpack(file, octets, self.words.write(), room, self.answer.write().cast()) };
        let numbers = self.reference.unpack(self.file.content(), self.words.content_mut());
        self.agree(UNPACK, numbers)
    }

    fn pack(&mut self) -> [u64; 4] {
        self.lend_answer();
        let (words, count, room) = (self.words.read(), self.words.length(), self.file.length());
        unsafe { vanchiluk_pack(words, count, self.file.write(), room, self.answer.write().cast()) };
        let numbers = self.reference.pack(self.words.content(), self.file.content_mut());
        self.agree(PACK, numbers)
    }

    fn tables(&mut self) -> [u64; 4] {
        self.lend_answer();
        let (words, count, room) = (self.words.read(), self.words.length(), self.table.length());
        unsafe { vanchiluk_tables(words, count, self.table.write(), room, self.answer.write().cast()) };
        let numbers = self.reference.tables(self.words.content(), self.table.content_mut());
        self.judge_4(TABLES, numbers)
    }

    fn next(&mut self) -> [u64; 4] {
        self.lend_answer();
        let (words, words_count) = (self.words.read(), self.words.length());
        let (table, table_count) = (self.table.read(), self.table.length());
        let (marks_count, tokens, rules) = (self.marks.length(), self.sentence.length(), self.derivation.length());
        unsafe {
            vanchiluk_next(
                words,
                words_count,
                table,
                table_count,
                self.marks.write(),
                marks_count,
                self.sentence.write(),
                tokens,
                self.derivation.write(),
                rules,
                self.answer.write().cast(),
            )
        };
        let numbers = self.reference.next(
            self.words.content(),
            self.table.content(),
            self.marks.content_mut(),
            self.sentence.content_mut(),
            self.derivation.content_mut(),
        );
        let numbers = self.judge_4(NEXT, numbers);
        let [kind, first, second, third] = numbers.map(|number| number as usize);
        self.met("a sentence and derivation of 4,096 numbers", kind == 1 && second + third == 4096);
        self.met("next in exact room", kind == 1 && second == tokens && third == rules);
        self.met("3 of next, one word short", kind == 3 && first == 3 && second == tokens + 1);
        self.met("10 of next, one word short", kind == 3 && first == 10 && second == rules + 1);
        numbers
    }

    fn replay(&mut self) -> [u64; 4] {
        self.lend_answer();
        let (words, words_count) = (self.words.read(), self.words.length());
        let (list, list_count, room) = (self.list.read(), self.list.length(), self.sentence.length());
        unsafe { vanchiluk_replay(words, words_count, list, list_count, self.sentence.write(), room, self.answer.write().cast()) };
        let numbers = self.reference.replay(self.words.content(), self.list.content(), self.sentence.content_mut());
        let numbers = self.judge_4(REPLAY, numbers);
        let [kind, first, ..] = numbers;
        self.met("replay of 4,096 numbers", kind == 0 && list_count == 4096);
        self.met("12 for 4,097 numbers", kind == 3 && first == 12 && list_count == 4097);
        self.met("replay of more than 65,535 tokens", kind == 0 && first > 65535);
        numbers
    }

    /// As `agree`, with the edges of refusal 4.
    fn judge_4(&mut self, call: usize, numbers: [u64; 4]) -> [u64; 4] {
        let numbers = self.agree(call, numbers);
        if numbers[0] == 3 && numbers[1] == 4 {
            let place = numbers[2] as usize;
            let count = self.words.length();
            let starts = Grammar::rule_starts(self.words.content());
            self.met("4 at the nonterminals", place == 0 && count > 0);
            self.met("4 at the terminals", place == 1 && count > 1);
            self.met("4 at the start", place == 2 && count > 2);
            self.met("4 at the word count", place == count);
            self.met("4 at a 257th rule", starts.get(256) == Some(&place));
        }
        numbers
    }

    // ------------------------------------------------------------ a round

    /// One grammar, or words like one, through all five calls.
    fn round(&mut self) {
        let mut words = grammar(&mut self.random).words();
        if self.random.once_in(4) {
            words = damaged(&mut self.random, &words);
        }
        if self.random.once_in(3) {
            self.files(&words);
        }
        let table = self.tables_of(&words);
        match table {
            Some(table) => self.night(&words, &table),
            None => self.without_table(&words),
        }
        self.replays(&words);
        if self.random.once_in(50) {
            self.longest();
        }
    }

    /// Pack, and unpack of what was packed, whole and damaged.
    fn files(&mut self, words: &[u16]) {
        let mut words = words.to_vec();
        if self.random.once_in(40) {
            let length = self.random.pick(&[8706, 8707, 8707, 8708, 9000]);
            let at = self.noise(length);
            words = self.noise_words[at..at + length].to_vec();
        }
        let needed = 3 + 2 * words.len();
        let room = self.room(needed);
        self.lend_words(&words);
        self.lend_file_room(room);
        let [kind, first, ..] = self.pack();
        self.met("pack of 8,707 words", kind == 0 && words.len() == 8707);
        self.met("2 for 8,708 words", kind == 3 && first == 2 && words.len() == 8708);
        let mut file = vec![1];
        file.extend((2 * words.len().min(32767) as u16).to_be_bytes());
        file.extend(words.iter().flat_map(|word| word.to_be_bytes()));
        if self.random.once_in(2) {
            self.damage_file(&mut file);
        }
        let room = self.room(words.len());
        self.lend_file(&file);
        self.lend_room(|test| &mut test.words, room);
        let [kind, first, ..] = self.unpack();
        self.met("unpack of 8,707 words", kind == 0 && first == 8707);
    }

    fn damage_file(&mut self, file: &mut Vec<u8>) {
        match self.random.below(8) {
            0 => file.clear(),
            1 => file[0] = self.random.bits() as u8,
            2 => file.truncate(self.random.below(4)),
            3 => file.truncate(self.random.below(file.len())),
            4 => file.push(self.random.bits() as u8),
            5 => file[2] ^= 1,
            6 => {
                // a length that is odd, and is what follows
                file.push(0);
                let length = ((file.len() - 3).min(65535) as u16).to_be_bytes();
                file[1..3].copy_from_slice(&length);
            }
            _ => file[1] = self.random.bits() as u8,
        }
    }

    /// The table of the words, if they have one, after calls in various rooms.
    fn tables_of(&mut self, words: &[u16]) -> Option<Vec<u16>> {
        let rules = Grammar::rule_starts(words).len();
        let n = usize::from(*words.first().unwrap_or(&0));
        let needed = (5 * n + rules).min(2000);
        let room = self.room(needed);
        self.lend_words(words);
        self.lend_room(|test| &mut test.table, room);
        let mut numbers = self.tables();
        if numbers[0] == 3 && numbers[1] == 3 {
            self.lend_words(words);
            self.lend_room(|test| &mut test.table, numbers[2] as usize);
            numbers = self.tables();
        }
        if numbers[0] == 3 && numbers[1] == 7 {
            self.one_less(words, numbers[2] as usize);
        }
        if numbers[0] != DONE_KIND {
            return None;
        }
        let table = self.table.content()[..numbers[1] as usize].to_vec();
        self.met("a table of 128 nonterminals", n == 128);
        self.met("a table of 256 rules", rules == 256);
        self.met("a table of 8,707 words", words.len() == 8707);
        self.met("a table whose largest total is 4,096", table[5 * n..].iter().max() == Some(&4096));
        Some(table)
    }

    /// The refused rule without its last symbol: where it is accepted, and that symbol was a token, the total was 4,097.
    fn one_less(&mut self, words: &[u16], rule: usize) {
        let start = Grammar::rule_starts(words)[rule];
        let end = start + 2 + usize::from(words[start + 1]);
        let (n, t) = (words[0], words[1]);
        let Some(token) = (start + 2..end).find(|&at| (n..n + t).contains(&words[at])) else {
            return;
        };
        let mut less = words.to_vec();
        less.remove(token);
        less[start + 1] -= 1;
        self.lend_words(&less);
        self.lend_room(|test| &mut test.table, 900);
        let numbers = self.tables();
        let total = self.table.content()[5 * usize::from(n) + rule];
        self.met("7 where a total is 4,097", numbers[0] == DONE_KIND && total == 4096);
    }

    /// Next where the words have no table: 4, 5, 6 or 7, whatever else is lent.
    fn without_table(&mut self, words: &[u16]) {
        let at = self.noise(1000);
        let length = self.random.below(1000);
        let table = self.noise_words[at..at + length].to_vec();
        let marks = vec![0; self.random.below(260)];
        self.lend_words(words);
        self.lend_table(&table);
        self.lend_marks(&marks);
        let (tokens, rules) = (self.random.below(10), self.random.below(10));
        self.lend_room(|test| &mut test.sentence, tokens);
        self.lend_room(|test| &mut test.derivation, rules);
        self.next();
    }

    /// A night or a part of one, with tables, marks and rooms that are mostly right.
    fn night(&mut self, words: &[u16], table: &[u16]) {
        let n = usize::from(words[0]);
        let rules = table.len() - 5 * n;
        let mut marks = vec![0u8; rules + self.random.below(3)];
        match self.random.below(8) {
            0..=3 => {}
            4 => marks.iter_mut().for_each(|mark| *mark = self.random.pick(&[1, 2, 255])),
            _ => marks.iter_mut().for_each(|mark| *mark = self.random.pick(&[0, 0, 1, 2, 128, 255])),
        }
        let mut sentences = if self.random.once_in(8) { 300 } else { self.random.within(1, 6) };
        loop {
            self.lend_words(words);
            let lent = self.some_table(table, n);
            self.lend_table(&lent);
            if self.random.once_in(12) && rules > 0 {
                let fewer = self.random.below(rules);
                self.lend_marks(&marks[..fewer]);
            } else {
                self.lend_marks(&marks);
            }
            let (tokens, uses) = match self.random.below(4) {
                0 => (self.random.below(12), self.random.below(12)),
                1 => (4096, 4096),
                _ => (self.random.below(5000), self.random.below(5000)),
            };
            self.lend_room(|test| &mut test.sentence, tokens);
            self.lend_room(|test| &mut test.derivation, uses);
            let numbers = self.next();
            let numbers = self.exact_room(numbers);
            match numbers[0] {
                NEXT_KIND => {
                    marks = self.marks.content().to_vec();
                    if self.random.once_in(3) {
                        let derivation = self.derivation.content()[..numbers[3] as usize].to_vec();
                        self.replay_of(words, &derivation, numbers[2] as usize);
                    }
                }
                FINISHED_KIND => break,
                _ => {}
            }
            sentences -= 1;
            if sentences == 0 {
                break;
            }
        }
    }

    /// The table, now and then damaged: cut, longer, another figure, another rule or place that may tie.
    fn some_table(&mut self, table: &[u16], n: usize) -> Vec<u16> {
        let mut lent = table.to_vec();
        if !self.random.once_in(3) {
            return lent;
        }
        let at = self.random.below(lent.len());
        let a = self.random.below(n);
        let rules = table.len() - 5 * n;
        match self.random.below(8) {
            0 => lent.truncate(at),
            1..=2 => lent.extend_from_slice(&[self.random.bits() as u16; 3]),
            3 => lent[at] = lent[at].wrapping_add(1),
            4 => lent[at] = lent[at].wrapping_sub(1),
            5 => lent[5 * a + self.random.pick(&[1, 3])] = self.random.below(rules) as u16,
            6 => lent[5 * a + 4] = self.random.below(5) as u16,
            _ => lent[at] = self.random.bits() as u16,
        }
        lent
    }

    /// Where the room did not do, the same call again, in rooms that are one word short or just enough, until it does.
    fn exact_room(&mut self, mut numbers: [u64; 4]) -> [u64; 4] {
        let mut tokens = self.sentence.length();
        let mut uses = self.derivation.length();
        loop {
            let needed = numbers[2] as usize;
            match (numbers[0], numbers[1]) {
                (3, 3) => tokens = if tokens + 1 < needed && self.random.once_in(2) { needed - 1 } else { needed },
                (3, 10) => uses = if uses + 1 < needed && self.random.once_in(2) { needed - 1 } else { needed },
                _ => return numbers,
            }
            self.lend_room(|test| &mut test.sentence, tokens);
            self.lend_room(|test| &mut test.derivation, uses);
            numbers = self.next();
        }
    }

    /// A derivation that was handed out, replayed, whole or with a mistake.
    fn replay_of(&mut self, words: &[u16], derivation: &[u16], tokens: usize) {
        let mut list = derivation.to_vec();
        let at = self.random.below(list.len());
        match self.random.below(10) {
            0 => list[at] = list[at].wrapping_add(1),
            1 => list[at] = self.random.pick(&[0, 1, 255, 256, 65535]),
            2 => list.truncate(at),
            3 => list.push(self.random.below(8) as u16),
            4 => list.swap(at, 0),
            _ => {}
        }
        let room = self.room(tokens);
        self.lend_words(words);
        self.lend_list(&list);
        self.lend_room(|test| &mut test.sentence, room);
        self.replay();
    }

    /// Lists for words of any kind: numbers at random, and leftmost derivations at random, which may end early.
    fn replays(&mut self, words: &[u16]) {
        let starts = Grammar::rule_starts(words);
        let mut list = Vec::new();
        let mut tokens = 0;
        match self.random.below(20) {
            0 => list.resize(self.random.pick(&[4095, 4096, 4097, 5000]), 0),
            1..=4 => list.extend((0..self.random.below(6)).map(|_| self.random.below(starts.len() + 2) as u16)),
            _ => tokens = self.some_derivation(words, &starts, &mut list),
        }
        let room = self.room(tokens);
        self.lend_words(words);
        self.lend_list(&list);
        self.lend_room(|test| &mut test.sentence, room);
        self.replay();
    }

    /// Rule numbers that open the leftmost nonterminal each time, up to a number of them; how many tokens they leave.
    fn some_derivation(&mut self, words: &[u16], starts: &[usize], list: &mut Vec<u16>) -> usize {
        let n = *words.first().unwrap_or(&0);
        let mut form: Vec<u16> = words.get(2).copied().into_iter().collect();
        let most = self.random.pick(&[3, 30, 300]);
        let mut tokens = 0;
        while let Some(symbol) = form.pop() {
            if symbol >= n {
                tokens += 1;
                continue;
            }
            let mut own: Vec<usize> = (0..starts.len()).filter(|&rule| words[starts[rule]] == symbol).collect();
            if list.len() >= most / 2 {
                // towards an end: the shortest right sides
                own.sort_by_key(|&rule| words.get(starts[rule] + 1).copied());
                own.truncate(1);
            }
            if own.is_empty() || list.len() == most {
                break;
            }
            let rule = self.random.pick(&own);
            list.push(rule as u16);
            let from = (starts[rule] + 2).min(words.len());
            let to = starts.get(rule + 1).copied().unwrap_or(words.len());
            form.extend(words[from..to.max(from)].iter().rev());
        }
        tokens
    }

    /// Lists of about 4,096 numbers that end: the deepest stacks of what waits, and the longest sentences.
    fn longest(&mut self) {
        let numbers = self.random.within(4093, 4098);
        let tokens = self.random.pick(&[0, 1, 30, 31]);
        let place = self.random.below(tokens + 1);
        let mut words = vec![1, 1, 0, 0, tokens as u16 + 1];
        words.extend(vec![1; tokens]);
        words.insert(5 + place, 0);
        words.extend([0, 0]);
        let mut list = vec![0; numbers - 1];
        list.push(1);
        if self.random.once_in(4) {
            // S gives S S: as many ends as there are forks, and one
            words = vec![1, 1, 0, 0, 2, 0, 0, 0, 1, 1];
            let forks = (numbers - 1) / 2;
            list = vec![0; forks];
            list.extend(vec![1; forks + 1]);
        }
        if self.random.once_in(4) {
            list.pop();
        }
        let needed = tokens * (numbers - 1);
        let room = self.room(needed);
        self.lend_words(&words);
        self.lend_list(&list);
        self.lend_room(|test| &mut test.sentence, room);
        self.replay();
    }

    // ------------------------------------------------------------ the report

    fn report(&self, least: usize) -> bool {
        let mut whole = true;
        println!("differential: {} calls agree, answer and every lent word", self.calls);
        for (call, answers) in ANSWERS.iter().enumerate() {
            let mut line = format!("  {:7}", CALLS[call]);
            for &answer in *answers {
                let name = match answer {
                    0 if call == NEXT => "Next".into(),
                    0 => "Done".into(),
                    FINISHED => "Finished".into(),
                    number => number.to_string(),
                };
                let count = self.counts[call][answer];
                line += &format!("  {name}: {count}");
                if count < least {
                    println!("differential: {} answered {name} {count} times, not at least {least}", CALLS[call]);
                    whole = false;
                }
            }
            println!("{line}");
        }
        let edges: Vec<String> = EDGES.iter().zip(&self.edges).map(|(edge, count)| format!("{edge}: {count}")).collect();
        println!("  edges    {}", edges.join("; "));
        for (edge, _) in EDGES.iter().zip(&self.edges).filter(|(_, &count)| count == 0) {
            println!("differential: never met: {edge}");
            whole = false;
        }
        whole
    }
}

fn main() {
    let arguments: Vec<String> = std::env::args().collect();
    let calls: usize = arguments.get(1).and_then(|text| text.parse().ok()).expect("a number of calls");
    let seed = arguments.get(2).map_or(1, |text| text.parse().expect("a seed"));
    let reference: Box<dyn Calls> = match arguments.get(3) {
        Some(name) => faulty(name).expect("a fault of the list"),
        None => Box::new(reference::Workspace::new()),
    };
    let mut test = Test::new(reference, seed);
    while test.calls < calls {
        test.round();
    }
    // each answer at least once in 5,000 calls
    if !test.report((calls / 5000).max(1)) {
        exit(1);
    }
}
