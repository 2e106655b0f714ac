//! The grammars that the benchmark runs, as words. Each says what it makes large.
use crate::grammars::{Grammar, Random};

/// X0 gives one token, each Xi gives X(i-1) twice, the start is Xi, whose rule is rule 0: a tree of 3 times 2 to the i, less 1.
pub fn doubling(high: usize) -> Vec<u16> {
    let n = high + 1;
    let mut rules: Vec<(usize, Vec<usize>)> = (1..n).rev().map(|i| (i, vec![i - 1; 2])).collect();
    rules.push((0, vec![n]));
    Grammar { n, t: 1, start: high, rules }.words()
}

/// The order in which the rules of a chain stand.
#[derive(Clone, Copy)]
pub enum Order {
    Forward,
    Reverse,
    Random,
}

/// Each link gives a token and the next link, the last a token: so many nonterminals, in one tree.
pub fn chain(links: usize, order: Order) -> Vec<u16> {
    let mut rules: Vec<(usize, Vec<usize>)> = (1..links).map(|i| (i - 1, vec![links, i])).collect();
    rules.push((links - 1, vec![links]));
    match order {
        Order::Forward => {}
        Order::Reverse => rules.reverse(),
        Order::Random => {
            let mut random = Random::new(128);
            for at in (1..links).rev() {
                rules.swap(at, random.below(at + 1));
            }
        }
    }
    Grammar { n: links, t: 1, start: 0, rules }.words()
}

/// A chain, and a rule more, which leads from its last link back to the first: the tree of that rule goes down all contexts and
/// then down all chosen rules. The next link stands at this place among four tokens.
pub fn round(place: usize) -> Vec<u16> {
    let symbols = |next: usize| {
        let mut right = vec![128; 4];
        right.insert(place, next);
        right
    };
    let mut rules: Vec<(usize, Vec<usize>)> = (1..128).map(|i| (i - 1, symbols(i))).collect();
    rules.push((127, vec![]));
    rules.push((127, symbols(0)));
    Grammar { n: 128, t: 1, start: 0, rules }.words()
}

/// A chain whose last link has a second rule. The first rule has beside the next link a symbol that opens all of the chain by
/// chosen rules: to the left of it (another nonterminal, which gives the next link) or to the right (the next link again).
pub fn beside(left: bool) -> Vec<u16> {
    let (n, first) = (128, if left { 2 } else { 1 });
    let mut rules = vec![(0, if left { vec![1, 2] } else { vec![1, 1] })];
    if left {
        rules.push((1, vec![2]));
    }
    rules.extend((first + 1..n).map(|i| (i - 1, vec![i])));
    rules.extend([(n - 1, vec![]), (n - 1, vec![n])]);
    Grammar { n, t: 1, start: 0, rules }.words()
}

/// 253 rules for the start and three below them; every total is 4,096, and each rule of the start has a sentence of its own.
pub fn largest_output() -> Vec<u16> {
    let (a, b, c, token) = (1, 2, 3, 4);
    let mut right = vec![a; 31];
    right.push(c);
    let mut rules = vec![(0, right); 253];
    let mut rest = vec![b; 23];
    rest.extend([token; 3]);
    rules.extend([(a, vec![b; 32]), (b, vec![token; 3]), (c, rest)]);
    Grammar { n: 4, t: 1, start: 0, rules }.words()
}

/// One nonterminal, 256 rules of so many tokens each.
pub fn tokens_only(symbols: usize) -> Vec<u16> {
    let rules = (0..256).map(|rule| (0, vec![1 + rule; symbols])).collect();
    Grammar { n: 1, t: 256, start: 0, rules }.words()
}

/// So many rules of four symbols each, half of them for the start; each of the other nonterminals has one, and is given by one
/// rule of the start.
pub fn shallow(count: usize) -> Vec<u16> {
    let n = count / 2;
    let mut rules = vec![(0, vec![n; 4]); 2];
    rules.extend((1..n).map(|a| (0, vec![a, n, n, n])));
    rules.extend((1..n).map(|a| (a, vec![n; 4])));
    Grammar { n, t: 1, start: 0, rules }.words()
}

/// S gives S and a token, or nothing; or a token and S, or nothing. With the list of 4,096 numbers that nest.
pub fn nested(left: bool) -> (Vec<u16>, Vec<u16>) {
    let right = if left { vec![0, 1] } else { vec![1, 0] };
    let mut list = vec![0; 4096];
    list[4095] = 1;
    (Grammar { n: 1, t: 1, start: 0, rules: vec![(0, right), (0, vec![])] }.words(), list)
}

/// S gives S and 31 tokens, or 32 tokens, 4,096 rule uses in all: the longest sentence that a replay can have, 126,977 tokens.
pub fn longest_replay() -> (Vec<u16>, Vec<u16>) {
    let mut right = vec![1; 31];
    right.push(0);
    let mut list = vec![0; 4096];
    list[4095] = 1;
    (Grammar { n: 1, t: 1, start: 0, rules: vec![(0, right), (0, vec![1; 32])] }.words(), list)
}
