//! Document 01's five calls, written from the document and from nothing else of this repository, in plain Rust: what the
//! proved calls are compared with, and the yardstick of their speed. It is not proved.
//!
//! A `Workspace` keeps what a call needs between calls, so that a night allocates once. Answers are document 01's; each lent
//! buffer is written only when nothing can be refused any more, and only in front.

use std::cmp::Reverse;
use std::collections::BinaryHeap;

pub const LIMIT: u64 = 4096;
pub const MOST_WORDS: usize = 8707;
pub const NOWHERE: u16 = 65535;

const MOST_NONTERMINALS: u16 = 128;
const MOST_TERMINALS: u16 = 1024;
const MOST_RULES: usize = 256;
const MOST_SYMBOLS: u16 = 32;

pub const MOST_TABLE: usize = 5 * MOST_NONTERMINALS as usize + MOST_RULES;

/// "an answer is one of Done, Next, Finished or Refused"
#[derive(Clone, Copy, PartialEq, Eq, Debug)]
pub enum Answer {
    Done(usize),
    Next { target: usize, tokens: usize, rules: usize },
    Finished,
    Refused { number: u8, place: usize },
}

use Answer::{Done, Finished, Next, Refused};

impl Answer {
    /// The kind, then the values in the document's order, then zeros.
    pub fn numbers(self) -> [u64; 4] {
        match self {
            Done(length) => [0, length as u64, 0, 0],
            Next { target, tokens, rules } => [1, target as u64, tokens as u64, rules as u64],
            Finished => [2, 0, 0, 0],
            Refused { number, place } => [3, u64::from(number), place as u64, 0],
        }
    }
}

fn refused(number: u8, place: usize) -> Answer {
    Refused { number, place }
}

// ---------------------------------------------------------------- the file

/// File to words: 1, 2, 3.
pub fn unpack(file: &[u8], words: &mut [u16]) -> Answer {
    if file.first() != Some(&1) {
        return refused(1, 0);
    }
    if file.len() < 3 {
        return refused(2, 1);
    }
    let said = usize::from(u16::from_be_bytes([file[1], file[2]]));
    let octets = &file[3..];
    if said % 2 != 0 || said > 2 * MOST_WORDS || said != octets.len() {
        return refused(2, 1);
    }
    let count = said / 2;
    if words.len() < count {
        return refused(3, count);
    }
    for (word, pair) in words.iter_mut().zip(octets.chunks_exact(2)) {
        *word = u16::from_be_bytes([pair[0], pair[1]]);
    }
    Done(count)
}

/// Words to file: 2, 3.
pub fn pack(words: &[u16], file: &mut [u8]) -> Answer {
    if words.len() > MOST_WORDS {
        return refused(2, MOST_WORDS);
    }
    let octets = 2 * words.len();
    if file.len() < 3 + octets {
        return refused(3, 3 + octets);
    }
    file[0] = 1;
    file[1..3].copy_from_slice(&(octets as u16).to_be_bytes());
    for (pair, word) in file[3..].chunks_exact_mut(2).zip(words) {
        pair.copy_from_slice(&word.to_be_bytes());
    }
    Done(3 + octets)
}

// ---------------------------------------------------------------- grammars

/// A rule: its left side, and where its symbols stand in the words.
#[derive(Clone, Copy)]
struct Rule {
    left: u16,
    from: u16,
    to: u16,
}

impl Rule {
    fn symbols(self, words: &[u16]) -> &[u16] {
        &words[usize::from(self.from)..usize::from(self.to)]
    }
}

/// A place in the rules that holds a nonterminal, as a context has it.
#[derive(Clone, Copy)]
struct Occurrence {
    rule: u16,
    place: u16,
}

/// What the calls keep. Nothing of one call is read by the next: it is only memory that need not be asked for again.
#[derive(Default)]
pub struct Workspace {
    n: usize,
    start: usize,
    rules: Vec<Rule>,
    leasts: Vec<Option<u64>>,
    contexts: Vec<Option<u64>>,
    /// for each rule, 1 and the sizes of its symbols, each cut at the limit and 1, the sum uncut
    sizes: Vec<u64>,
    /// for each rule, how many places in it hold a nonterminal whose least is not known yet
    waiting: Vec<u32>,
    /// the rules of nonterminal A, once for each place in them that holds it, are `among[firsts[A]..firsts[A + 1]]`; later on,
    /// the rules that A is the left side of
    firsts: Vec<u32>,
    among: Vec<u16>,
    queue: BinaryHeap<Reverse<(u64, u16)>>,
    table: Vec<u16>,
    seen: Vec<u8>,
    path: Vec<Occurrence>,
    rests: Vec<(u16, u16)>,
    sentence: Vec<u16>,
    derivation: Vec<u16>,
}

/// A sum cut at the limit and 1. Cutting respects sums and least values, so a Total is above the limit exactly where its cut is.
fn cut(sum: u64) -> u64 {
    sum.min(LIMIT + 1)
}

impl Workspace {
    pub fn new() -> Workspace {
        Workspace::default()
    }

    /// N and R of the grammar that the last call of `tables`, `next` or `replay` read.
    pub fn shape(&self) -> (usize, usize) {
        (self.n, self.rules.len())
    }

    /// The words judged from the left: the rules found, or the place of 4.
    fn read(&mut self, words: &[u16]) -> Result<(), usize> {
        let end = words.len();
        self.rules.clear();
        let n = *words.first().ok_or(end)?;
        if n == 0 || n > MOST_NONTERMINALS {
            return Err(0);
        }
        let t = *words.get(1).ok_or(end)?;
        if t > MOST_TERMINALS {
            return Err(1);
        }
        let start = *words.get(2).ok_or(end)?;
        if start >= n {
            return Err(2);
        }
        self.n = usize::from(n);
        self.start = usize::from(start);
        let mut at = 3;
        while at < end {
            if self.rules.len() == MOST_RULES || words[at] >= n {
                return Err(at);
            }
            let count = *words.get(at + 1).ok_or(end)?;
            if count > MOST_SYMBOLS {
                return Err(at + 1);
            }
            let from = at + 2;
            let to = from + usize::from(count);
            if let Some(bad) = words[from..to.min(end)].iter().position(|&symbol| symbol >= n + t) {
                return Err(from + bad);
            }
            if to > end {
                return Err(end);
            }
            self.rules.push(Rule { left: words[at], from: from as u16, to: to as u16 });
            at = to;
        }
        Ok(())
    }

    // ------------------------------------------------------------ tables

    /// Words to table: 4, 5, 6, 7, 3.
    pub fn tables(&mut self, words: &[u16], table: &mut [u16]) -> Answer {
        if let Err(place) = self.read(words) {
            return refused(4, place);
        }
        if let Err(answer) = self.figures(words) {
            return answer;
        }
        let needed = 5 * self.n + self.rules.len();
        if table.len() < needed {
            return refused(3, needed);
        }
        self.work_out(words);
        table[..needed].copy_from_slice(&self.table);
        Done(needed)
    }

    /// Leasts, contexts and sizes, or the refusal of 5, 6 or 7.
    fn figures(&mut self, words: &[u16]) -> Result<(), Answer> {
        self.find_leasts(words);
        if let Some(treeless) = self.leasts.iter().position(Option::is_none) {
            return Err(refused(5, treeless));
        }
        self.find_contexts(words);
        if let Some(unreached) = self.contexts.iter().position(Option::is_none) {
            return Err(refused(6, unreached));
        }
        let over = |(rule, size): (&Rule, &u64)| self.context(rule.left) + size > LIMIT;
        match self.rules.iter().zip(&self.sizes).position(over) {
            Some(rule) => Err(refused(7, rule)),
            None => Ok(()),
        }
    }

    fn least(&self, nonterminal: u16) -> u64 {
        self.leasts[usize::from(nonterminal)].unwrap_or(0)
    }

    fn context(&self, nonterminal: u16) -> u64 {
        self.contexts[usize::from(nonterminal)].unwrap_or(0)
    }

    /// The smallest tree first, as Knuth's extension of Dijkstra's way has it: a rule whose symbols all have their least offers
    /// its size, and the smallest offer of all is a least. A nonterminal without one in the end has no tree.
    fn find_leasts(&mut self, words: &[u16]) {
        let n = self.n;
        self.leasts.clear();
        self.leasts.resize(n, None);
        self.sizes.clear();
        self.waiting.clear();
        self.firsts.clear();
        self.firsts.resize(n + 2, 0);
        for rule in &self.rules {
            let symbols = rule.symbols(words);
            let mut nonterminals = 0;
            for &symbol in symbols {
                if usize::from(symbol) < n {
                    nonterminals += 1;
                    self.firsts[usize::from(symbol) + 2] += 1;
                }
            }
            self.waiting.push(nonterminals);
            self.sizes.push(1 + symbols.len() as u64 - u64::from(nonterminals));
        }
        for at in 2..n + 2 {
            self.firsts[at] += self.firsts[at - 1];
        }
        self.among.clear();
        self.among.resize(self.firsts[n + 1] as usize, 0);
        for (number, rule) in self.rules.iter().enumerate() {
            for &symbol in rule.symbols(words) {
                if usize::from(symbol) < n {
                    let slot = &mut self.firsts[usize::from(symbol) + 1];
                    self.among[*slot as usize] = number as u16;
                    *slot += 1;
                }
            }
        }
        self.queue.clear();
        for (number, rule) in self.rules.iter().enumerate() {
            if self.waiting[number] == 0 {
                self.queue.push(Reverse((self.sizes[number], rule.left)));
            }
        }
        while let Some(Reverse((size, left))) = self.queue.pop() {
            let a = usize::from(left);
            if self.leasts[a].is_some() {
                continue;
            }
            self.leasts[a] = Some(size);
            for at in self.firsts[a] as usize..self.firsts[a + 1] as usize {
                let number = usize::from(self.among[at]);
                self.sizes[number] += size;
                self.waiting[number] -= 1;
                let owner = self.rules[number].left;
                if self.waiting[number] == 0 && self.leasts[usize::from(owner)].is_none() {
                    self.queue.push(Reverse((cut(self.sizes[number]), owner)));
                }
            }
        }
    }

    /// The same from the start downwards: a nonterminal's context offers one to each nonterminal in its rules.
    fn find_contexts(&mut self, words: &[u16]) {
        let n = self.n;
        self.contexts.clear();
        self.contexts.resize(n, None);
        self.firsts.clear();
        self.firsts.resize(n + 2, 0);
        for rule in &self.rules {
            self.firsts[usize::from(rule.left) + 2] += 1;
        }
        for at in 2..n + 2 {
            self.firsts[at] += self.firsts[at - 1];
        }
        self.among.clear();
        self.among.resize(self.rules.len(), 0);
        for (number, rule) in self.rules.iter().enumerate() {
            let slot = &mut self.firsts[usize::from(rule.left) + 1];
            self.among[*slot as usize] = number as u16;
            *slot += 1;
        }
        self.queue.clear();
        self.queue.push(Reverse((0, self.start as u16)));
        while let Some(Reverse((context, left))) = self.queue.pop() {
            let a = usize::from(left);
            if self.contexts[a].is_some() {
                continue;
            }
            self.contexts[a] = Some(context);
            for at in self.firsts[a] as usize..self.firsts[a + 1] as usize {
                let number = usize::from(self.among[at]);
                let around = context + self.sizes[number];
                for &symbol in self.rules[number].symbols(words) {
                    if usize::from(symbol) < n && self.contexts[usize::from(symbol)].is_none() {
                        self.queue.push(Reverse((cut(around - self.least(symbol)), symbol)));
                    }
                }
            }
        }
    }

    /// The table of an accepted grammar, whose figures are found: the lowest rule of each least, the lowest rule and then the
    /// leftmost place of each context.
    fn work_out(&mut self, words: &[u16]) {
        let n = self.n;
        self.table.clear();
        self.table.resize(5 * n, NOWHERE);
        for a in 0..n {
            self.table[5 * a] = self.least(a as u16) as u16;
            self.table[5 * a + 2] = self.context(a as u16) as u16;
        }
        for (number, rule) in self.rules.iter().enumerate() {
            let left = usize::from(rule.left);
            let size = self.sizes[number];
            if self.table[5 * left + 1] == NOWHERE && size == self.least(rule.left) {
                self.table[5 * left + 1] = number as u16;
            }
            let around = self.context(rule.left) + size;
            for (place, &symbol) in rule.symbols(words).iter().enumerate() {
                let a = usize::from(symbol);
                if a < n && a != self.start && self.table[5 * a + 3] == NOWHERE {
                    if around - self.least(symbol) == self.context(symbol) {
                        self.table[5 * a + 3] = number as u16;
                        self.table[5 * a + 4] = place as u16;
                    }
                }
            }
            self.table.push(around as u16);
        }
    }

    // ------------------------------------------------------------ next

    /// The sentence of the lowest unused rule: 4, 5, 6, 7, 8, 9, then Finished, then 3, 10.
    pub fn next(
        &mut self,
        words: &[u16],
        table: &[u16],
        marks: &mut [u8],
        sentence: &mut [u16],
        derivation: &mut [u16],
    ) -> Answer {
        if let Err(place) = self.read(words) {
            return refused(4, place);
        }
        let rules = self.rules.len();
        if table.len() < 5 * self.n + rules || !self.is_table(words, table) {
            return self.figures(words).err().unwrap_or(refused(8, 0));
        }
        if marks.len() < rules {
            return refused(9, rules);
        }
        let Some(target) = marks[..rules].iter().position(|&mark| mark == 0) else {
            return Finished;
        };
        self.list_tree(words, table, target);
        let (tokens, uses) = (self.sentence.len(), self.derivation.len());
        if sentence.len() < tokens {
            return refused(3, tokens);
        }
        if derivation.len() < uses {
            return refused(10, uses);
        }
        sentence[..tokens].copy_from_slice(&self.sentence);
        derivation[..uses].copy_from_slice(&self.derivation);
        for &rule in &self.derivation {
            let mark = &mut marks[usize::from(rule)];
            if *mark == 0 {
                *mark = 1;
            }
        }
        Next { target, tokens, rules: uses }
    }

    /// Whether the grammar is accepted and the words in front of the table are its table, in one pass over the rules: figures
    /// that no rule betters, and that the noted rule attains, are the least ones, for what attains them gets smaller on the way
    /// down a chosen tree and up the contexts, and so ends. The first rule, and the first place, to attain one is the noted one.
    fn is_table(&mut self, words: &[u16], table: &[u16]) -> bool {
        const CHOSEN: u8 = 1;
        const PLACED: u8 = 2;
        let n = self.n;
        let entry = |a: usize, column: usize| u64::from(table[5 * a + column]);
        if table[5 * self.start + 2] != 0 || table[5 * self.start + 3] != NOWHERE || table[5 * self.start + 4] != NOWHERE {
            return false;
        }
        self.seen.clear();
        self.seen.resize(n, 0);
        self.seen[self.start] = PLACED;
        for (number, rule) in self.rules.iter().enumerate() {
            let left = usize::from(rule.left);
            let symbols = rule.symbols(words);
            let mut size = 1;
            for &symbol in symbols {
                let a = usize::from(symbol);
                size += if a < n { entry(a, 0) } else { 1 };
            }
            let least = entry(left, 0);
            if size < least {
                return false;
            }
            if size == least && self.seen[left] & CHOSEN == 0 {
                if entry(left, 1) != number as u64 {
                    return false;
                }
                self.seen[left] |= CHOSEN;
            }
            let total = entry(left, 2) + size;
            if total > LIMIT || total != u64::from(table[5 * n + number]) {
                return false;
            }
            for (place, &symbol) in symbols.iter().enumerate() {
                let a = usize::from(symbol);
                if a >= n || a == self.start {
                    continue;
                }
                let offer = total - entry(a, 0);
                let context = entry(a, 2);
                if offer < context {
                    return false;
                }
                if offer == context && self.seen[a] & PLACED == 0 {
                    if entry(a, 3) != number as u64 || entry(a, 4) != place as u64 {
                        return false;
                    }
                    self.seen[a] |= PLACED;
                }
            }
        }
        self.seen.iter().all(|&seen| seen == CHOSEN | PLACED)
    }

    /// The tree of a rule, listed from the left by a table that is the grammar's.
    fn list_tree(&mut self, words: &[u16], table: &[u16], target: usize) {
        self.sentence.clear();
        self.derivation.clear();
        self.path.clear();
        let mut at = usize::from(self.rules[target].left);
        while at != self.start {
            let up = Occurrence { rule: table[5 * at + 3], place: table[5 * at + 4] };
            self.path.push(up);
            at = usize::from(self.rules[usize::from(up.rule)].left);
        }
        for step in (0..self.path.len()).rev() {
            let Occurrence { rule, place } = self.path[step];
            self.derivation.push(rule);
            let symbols = self.rules[usize::from(rule)].symbols(words);
            self.list_symbols(words, table, &symbols[..usize::from(place)]);
        }
        self.list_rule(words, table, target as u16);
        for step in 0..self.path.len() {
            let Occurrence { rule, place } = self.path[step];
            let symbols = self.rules[usize::from(rule)].symbols(words);
            self.list_symbols(words, table, &symbols[usize::from(place) + 1..]);
        }
    }

    fn list_rule(&mut self, words: &[u16], table: &[u16], rule: u16) {
        self.derivation.push(rule);
        self.list_symbols(words, table, self.rules[usize::from(rule)].symbols(words));
    }

    fn list_symbols(&mut self, words: &[u16], table: &[u16], symbols: &[u16]) {
        for &symbol in symbols {
            if usize::from(symbol) < self.n {
                self.list_rule(words, table, table[5 * usize::from(symbol) + 1]);
            } else {
                self.sentence.push(symbol);
            }
        }
    }

    // ------------------------------------------------------------ replay

    /// Words and rule numbers to the sentence of that leftmost derivation: 4, 12, 11, 3.
    pub fn replay(&mut self, words: &[u16], list: &[u16], sentence: &mut [u16]) -> Answer {
        if let Err(place) = self.read(words) {
            return refused(4, place);
        }
        if list.len() as u64 > LIMIT {
            return refused(12, LIMIT as usize);
        }
        if let Err(place) = self.derive(words, list) {
            return refused(11, place);
        }
        let tokens = self.sentence.len();
        if sentence.len() < tokens {
            return refused(3, tokens);
        }
        sentence[..tokens].copy_from_slice(&self.sentence);
        Done(tokens)
    }

    /// The sentence of a leftmost derivation, or the place of 11. What is still open waits as the rests of right sides.
    fn derive(&mut self, words: &[u16], list: &[u16]) -> Result<(), usize> {
        self.sentence.clear();
        self.rests.clear();
        let mut leftmost = Some(self.start as u16);
        for (at, &number) in list.iter().enumerate() {
            let rule = *self.rules.get(usize::from(number)).ok_or(at)?;
            if leftmost != Some(rule.left) {
                return Err(at);
            }
            self.rests.push((rule.from, rule.to));
            leftmost = self.leftmost(words);
        }
        leftmost.map_or(Ok(()), |_| Err(list.len()))
    }

    /// The tokens up to the leftmost nonterminal, which is taken from what waits.
    fn leftmost(&mut self, words: &[u16]) -> Option<u16> {
        while let Some((from, to)) = self.rests.pop() {
            for at in from..to {
                let symbol = words[usize::from(at)];
                if usize::from(symbol) < self.n {
                    self.rests.push((at + 1, to));
                    return Some(symbol);
                }
                self.sentence.push(symbol);
            }
        }
        None
    }
}
