//! Words for the differential test: grammars of many shapes, near every limit of document 01, and damaged ones. Nothing here
//! decides what an answer should be.

/// A sequence of numbers that a seed settles (splitmix64).
pub struct Random(u64);

impl Random {
    pub fn new(seed: u64) -> Random {
        Random(seed)
    }

    pub fn bits(&mut self) -> u64 {
        self.0 = self.0.wrapping_add(0x9e37_79b9_7f4a_7c15);
        let mut z = self.0;
        z = (z ^ (z >> 30)).wrapping_mul(0xbf58_476d_1ce4_e5b9);
        z = (z ^ (z >> 27)).wrapping_mul(0x94d0_49bb_1331_11eb);
        z ^ (z >> 31)
    }

    pub fn below(&mut self, end: usize) -> usize {
        (self.bits() % end as u64) as usize
    }

    /// From low to high, both within.
    pub fn within(&mut self, low: usize, high: usize) -> usize {
        low + self.below(high - low + 1)
    }

    /// Once in so many times.
    pub fn once_in(&mut self, times: usize) -> bool {
        self.below(times) == 0
    }

    pub fn pick<T: Copy>(&mut self, choices: &[T]) -> T {
        choices[self.below(choices.len())]
    }

    fn shuffle<T>(&mut self, items: &mut [T]) {
        for at in (1..items.len()).rev() {
            items.swap(at, self.below(at + 1));
        }
    }
}

/// A grammar before it is written as words.
pub struct Grammar {
    pub n: usize,
    pub t: usize,
    pub start: usize,
    pub rules: Vec<(usize, Vec<usize>)>,
}

impl Grammar {
    pub fn words(&self) -> Vec<u16> {
        let mut words = vec![self.n as u16, self.t as u16, self.start as u16];
        for (left, right) in &self.rules {
            words.push(*left as u16);
            words.push(right.len() as u16);
            words.extend(right.iter().map(|&symbol| symbol as u16));
        }
        words
    }

    /// Reads words as far as they go, without judging them: where the rules begin, and their left sides.
    pub fn rule_starts(words: &[u16]) -> Vec<usize> {
        let (mut starts, mut at) = (Vec::new(), 3);
        while at < words.len() {
            starts.push(at);
            at += 2 + usize::from(*words.get(at + 1).unwrap_or(&0));
        }
        starts
    }
}

/// A grammar of one of the shapes below, now and then without one of its rules, or from another start.
pub fn grammar(random: &mut Random) -> Grammar {
    let mut grammar = shape(random);
    if random.once_in(12) && !grammar.rules.is_empty() {
        let rule = random.below(grammar.rules.len());
        grammar.rules.remove(rule);
    }
    if random.once_in(30) {
        grammar.start = random.below(grammar.n);
    }
    grammar
}

fn shape(random: &mut Random) -> Grammar {
    match random.below(1000) {
        0..=449 => accepted(random, 6, 4, 10, 4),
        450..=599 => wild(random),
        600..=719 => ties(random),
        720..=799 => accepted(random, 40, 60, 90, 8),
        800..=829 => chain(random),
        830..=919 => {
            let near = random.within(4090, 4102) as u128;
            sized(random, near)
        }
        920..=949 => {
            let wrap = random.pick(&[1 << 16, 1 << 32, 1 << 64]);
            let past = random.within(1, 5000) as u128;
            sized(random, wrap + past)
        }
        950..=959 => flood(random),
        960..=989 => many_rules(random),
        990..=996 => accepted(random, 128, 1024, 256, 32),
        _ => largest(random),
    }
}

/// Every nonterminal has a tree and is reached, unless a Total is above the limit; up to so many of each.
fn accepted(random: &mut Random, most_n: usize, most_t: usize, most_rules: usize, most_symbols: usize) -> Grammar {
    let n = if random.once_in(3) { most_n } else { random.within(1, most_n) };
    let t = random.within(0, most_t);
    let mut order: Vec<usize> = (0..n).collect();
    random.shuffle(&mut order);
    let start = order[0];
    let mut rules = Vec::new();
    let symbols = |random: &mut Random, count: usize, from: &[usize], often: usize| {
        let mut right = Vec::new();
        for _ in 0..count {
            if !from.is_empty() && (t == 0 || random.once_in(often)) {
                right.push(random.pick(from));
            } else if t > 0 {
                right.push(n + random.below(t));
            }
        }
        right
    };
    // a tree for each: its symbols come later in the order
    for (at, &a) in order.iter().enumerate() {
        let count = random.within(0, most_symbols);
        let right = symbols(random, count, &order[at + 1..], 6);
        rules.push((a, right));
    }
    // reached from some that comes earlier
    for at in 1..n {
        let above = order[random.below(at)];
        let count = random.within(0, most_symbols - 1);
        let mut right = symbols(random, count, &order[at..], 6);
        let place = random.below(right.len() + 1);
        right.insert(place, order[at]);
        rules.push((above, right));
    }
    while rules.len() < most_rules && !random.once_in(8) {
        let rule = if random.once_in(4) {
            rules[random.below(rules.len())].clone()
        } else {
            let count = random.within(0, most_symbols);
            (random.pick(&order), symbols(random, count, &order, 2))
        };
        rules.push(rule);
    }
    random.shuffle(&mut rules);
    rules.truncate(256);
    Grammar { n, t, start, rules }
}

/// Anything at all: often without a tree, or unreached.
fn wild(random: &mut Random) -> Grammar {
    let (n, t) = (random.within(1, 5), random.within(0, 3));
    let rules = (0..random.within(0, 9))
        .map(|_| {
            let count = random.within(0, 3);
            (random.below(n), (0..count).map(|_| random.below(n + t)).collect())
        })
        .collect();
    Grammar { n, t, start: random.below(n), rules }
}

/// Right sides so alike that leasts and contexts are met by several rules and places.
fn ties(random: &mut Random) -> Grammar {
    let n = random.within(1, 5);
    let t = random.within(1, 2);
    let start = random.below(n);
    let mut rules = Vec::new();
    for a in 0..n {
        let token = n + random.below(t);
        rules.push((a, vec![token]));
        for _ in 0..random.within(0, 2) {
            rules.push((a, vec![n + random.below(t)]));
        }
    }
    for _ in 0..random.within(n, 3 * n + 3) {
        let count = random.within(1, 4);
        rules.push((random.below(n), (0..count).map(|_| random.below(n)).collect()));
    }
    for a in 0..n {
        rules.push((start, vec![a, random.below(n), a]));
    }
    random.shuffle(&mut rules);
    Grammar { n, t, start, rules }
}

/// Each link leads to the next: the deepest trees and the longest contexts.
fn chain(random: &mut Random) -> Grammar {
    let n = random.pick(&[2, 50, 127, 128]);
    let mut order: Vec<usize> = (0..n).collect();
    match random.below(3) {
        0 => random.shuffle(&mut order),
        1 => order.reverse(),
        _ => {}
    }
    let mut rules: Vec<(usize, Vec<usize>)> = (1..n)
        .map(|at| {
            let mut right = vec![n; random.within(0, 3)];
            let place = random.below(right.len() + 1);
            right.insert(place, order[at]);
            (order[at - 1], right)
        })
        .collect();
    rules.push((order[n - 1], vec![]));
    if random.once_in(2) {
        random.shuffle(&mut rules);
    }
    Grammar { n, t: 1, start: order[0], rules }
}

/// Every Total is this size. Xi gives X(i-1) twice, X0 one token, so that Xi has size 3 times 2 to the i, less 1; right sides are
/// filled with them, the largest first, then with tokens, and what is left over goes into one more nonterminal.
fn sized(random: &mut Random, size: u128) -> Grammar {
    let size_of = |i: usize| 3 * (1u128 << i) - 1;
    let highest = (0..100).take_while(|&i| size_of(i) < size).last().unwrap_or(0);
    let mut rules = vec![(0, vec![usize::MAX])];
    for i in 1..=highest {
        rules.push((i, vec![i - 1, i - 1]));
    }
    let mut n = highest + 1;
    let start = n;
    let mut left = size;
    loop {
        let (a, mut right) = (n, Vec::new());
        n += 1;
        left -= 1;
        while left > 0 && right.len() < 31 {
            let largest = (0..=highest).rev().find(|&i| size_of(i) <= left);
            let tokens = left < 25 && right.len() + left as usize <= 32;
            match largest {
                Some(i) if !tokens => {
                    right.push(i);
                    left -= size_of(i);
                }
                _ => {
                    right.push(usize::MAX);
                    left -= 1;
                }
            }
        }
        if left == 1 {
            right.push(usize::MAX);
            left = 0;
        } else if left > 0 {
            right.push(n);
        }
        random.shuffle(&mut right);
        rules.push((a, right));
        if left == 0 {
            break;
        }
    }
    let t = random.within(1, 3);
    for (_, right) in &mut rules {
        for symbol in right.iter_mut().filter(|symbol| **symbol == usize::MAX) {
            *symbol = n + random.below(t);
        }
    }
    if random.once_in(2) {
        rules.reverse();
    } else if random.once_in(2) {
        random.shuffle(&mut rules);
    }
    Grammar { n, t, start, rules }
}

/// A right side whose sizes pass 65,536 by a little without one of its symbols, each of them cut or not: a context that looks small
/// in 16 bits.
fn flood(random: &mut Random) -> Grammar {
    let high = random.pick(&[10, 10, 10, 11, 13, 20]);
    let start = high + 1;
    let n = start + 1;
    let mut rules = vec![(0, vec![n])];
    for i in 1..=high {
        rules.push((i, vec![i - 1, i - 1]));
    }
    let (mut right, mut size) = (vec![high], 1);
    let past = 65536 + random.below(400);
    while size < past && right.len() < 32 {
        let i = high - random.below(2);
        right.push(i);
        size += (3 * (1 << i) - 1).min(4097);
    }
    random.shuffle(&mut right);
    rules.push((start, right));
    random.shuffle(&mut rules);
    Grammar { n, t: 1, start, rules }
}

/// 254 to 256 rules, few symbols.
fn many_rules(random: &mut Random) -> Grammar {
    let count = random.within(254, 256);
    let mut grammar = accepted(random, 9, 5, 20, 3);
    while grammar.rules.len() < count {
        let again = grammar.rules[random.below(grammar.rules.len())].clone();
        grammar.rules.push(again);
    }
    grammar
}

/// 256 rules of 31 or 32 symbols, 8,707 words or a few less: the longest grammars.
fn largest(random: &mut Random) -> Grammar {
    let n = random.pick(&[1, 64, 128]);
    let t = 1024;
    let all = random.once_in(2);
    let mut rules = Vec::new();
    for rule in 0..256 {
        let mut right: Vec<usize> = (0..32).map(|_| n + random.below(t)).collect();
        // rule A + n opens A + 1 where there is one, rule A nothing
        if rule >= n && rule + 1 < 2 * n {
            let place = random.below(32);
            right[place] = rule - n + 1;
        }
        if !all && random.once_in(20) {
            right.pop();
        }
        rules.push((rule % n, right));
    }
    if random.once_in(2) {
        random.shuffle(&mut rules);
    }
    Grammar { n, t, start: 0, rules }
}

/// Words that need not be a grammar any more.
pub fn damaged(random: &mut Random, words: &[u16]) -> Vec<u16> {
    let mut words = words.to_vec();
    let at = random.below(words.len());
    let (n, t) = (words[0], words[1]);
    match random.below(14) {
        0..=2 => {
            let edges = [0, 1, 32, 33, 127, 128, 129, 1024, 1025, 65535, n - 1, n, (n + t).max(1) - 1, n + t];
            words[at] = random.pick(&edges);
        }
        3 => words[at] = random.bits() as u16,
        4 => words.truncate(at),
        5 => words.truncate(random.below(4).min(at)),
        6 => words.push(random.below(40) as u16),
        7 => words.insert(at, random.below(40) as u16),
        8 => {
            words.remove(at);
        }
        9 => words[0] = random.pick(&[0, 129, 130, 65535]),
        10 => words[1] = random.pick(&[1025, 1026, 65535]),
        11 => words[2] = random.pick(&[n, n + 1, 65535]),
        12 => {
            // a count one too large, at the last rule or at some rule
            let starts = Grammar::rule_starts(&words);
            if let Some(&rule) = if random.once_in(2) { starts.last() } else { starts.first() } {
                words[rule + 1] = random.pick(&[words[rule + 1] + 1, 33, 32]);
            }
        }
        _ => {
            // rules up to the 256th, and one or more words of a 257th
            let start = random.below(usize::from(n)) as u16;
            for _ in Grammar::rule_starts(&words).len()..256 {
                words.extend([start, 0]);
            }
            words.extend([start, 0].iter().take(random.within(0, 2)));
            if random.once_in(4) {
                words.push(n);
            }
        }
    }
    words
}
