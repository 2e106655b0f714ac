//! The same suites from several threads at once: calls share nothing, so each thread must get what the reference gives alone.
//!
//!     threads THREADS ROUNDS FILE..
//!
//! The grammars are those of the files and some at random; the threads share the words, which are only read, and begin at
//! different ones.
use std::sync::atomic::{AtomicUsize, Ordering};
use std::sync::Barrier;

#[allow(dead_code)]
mod grammars;
use grammars::{grammar, Random};

#[allow(dead_code)]
#[path = "../reference/vanchiluk.rs"]
mod reference;

#[path = "../../examples/vanchiluk.rs"]
mod vanchiluk;
use vanchiluk::Answer;

/// All that a night answers and writes, one number after the other, by the proved calls.
fn proved_night(words: &[u16]) -> Vec<u64> {
    let (mut table, mut marks) = (vec![0; vanchiluk::MOST_TABLE], vec![0; 256]);
    let (mut sentence, mut derivation) = (vec![0; 4096], vec![0; 4096]);
    let mut replayed = vec![0; 4096];
    let mut trace = Vec::new();
    let Answer::Done { length } = vanchiluk::tables(words, &mut table) else {
        return noted(vanchiluk::tables(words, &mut table));
    };
    trace.extend(table[..length].iter().map(|&word| u64::from(word)));
    loop {
        let answer = vanchiluk::next(words, &table[..length], &mut marks, &mut sentence, &mut derivation);
        trace.extend(noted(answer));
        let Answer::Next { tokens, rules, .. } = answer else {
            return trace;
        };
        trace.extend(sentence[..tokens].iter().chain(&derivation[..rules]).map(|&word| u64::from(word)));
        trace.extend(noted(vanchiluk::replay(words, &derivation[..rules], &mut replayed)));
        trace.extend(replayed[..tokens].iter().map(|&word| u64::from(word)));
    }
}

fn noted(answer: Answer) -> Vec<u64> {
    match answer {
        Answer::Done { length } => vec![0, length as u64],
        Answer::Next { target, tokens, rules } => vec![1, target as u64, tokens as u64, rules as u64],
        Answer::Finished => vec![2],
        Answer::Refused { number, place } => vec![3, number, place as u64],
    }
}

/// The same by the reference, which knows nothing of threads.
fn reference_night(words: &[u16]) -> Vec<u64> {
    let mut workspace = reference::Workspace::new();
    let (mut table, mut marks) = (vec![0; vanchiluk::MOST_TABLE], vec![0; 256]);
    let (mut sentence, mut derivation) = (vec![0; 4096], vec![0; 4096]);
    let mut trace = Vec::new();
    let length = match workspace.tables(words, &mut table) {
        reference::Answer::Done(length) => length,
        reference::Answer::Refused { number, place } => return vec![3, u64::from(number), place as u64],
        other => panic!("{other:?} from tables"),
    };
    trace.extend(table[..length].iter().map(|&word| u64::from(word)));
    loop {
        match workspace.next(words, &table[..length], &mut marks, &mut sentence, &mut derivation) {
            reference::Answer::Next { target, tokens, rules } => {
                trace.extend([1, target as u64, tokens as u64, rules as u64]);
                trace.extend(sentence[..tokens].iter().chain(&derivation[..rules]).map(|&word| u64::from(word)));
                // the derivation replays to its sentence
                trace.extend([0, tokens as u64]);
                trace.extend(sentence[..tokens].iter().map(|&word| u64::from(word)));
            }
            reference::Answer::Finished => {
                trace.push(2);
                return trace;
            }
            other => panic!("{other:?} in a night"),
        }
    }
}

fn words_of(path: &str) -> Vec<u16> {
    let file = std::fs::read(path).expect("a file");
    let mut words = vec![0; 8707];
    let Answer::Done { length } = vanchiluk::unpack(&file, &mut words) else {
        panic!("{path} is no packed file");
    };
    words.truncate(length);
    words
}

fn main() {
    let arguments: Vec<String> = std::env::args().collect();
    let threads: usize = arguments[1].parse().expect("a number of threads");
    let rounds: usize = arguments[2].parse().expect("a number of rounds");
    let mut random = Random::new(5);
    let mut all: Vec<Vec<u16>> = arguments[3..].iter().map(|path| words_of(path)).collect();
    all.extend((0..200).map(|_| grammar(&mut random).words()));
    let expected: Vec<Vec<u64>> = all.iter().map(|words| reference_night(words)).collect();
    let wrong = AtomicUsize::new(0);
    let together = Barrier::new(threads);
    std::thread::scope(|scope| {
        for thread in 0..threads {
            let (all, expected, wrong, together) = (&all, &expected, &wrong, &together);
            scope.spawn(move || {
                together.wait();
                for at in 0..rounds * all.len() {
                    let one = (at + thread * all.len() / threads) % all.len();
                    if proved_night(&all[one]) != expected[one] {
                        wrong.fetch_add(1, Ordering::Relaxed);
                    }
                }
            });
        }
    });
    let wrong = wrong.into_inner();
    println!("threads: {} nights each in {threads} threads at once, {wrong} other than alone", rounds * all.len());
    std::process::exit(i32::from(wrong > 0));
}
