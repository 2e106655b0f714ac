//! The suite of a grammar file, as document 01 has the program print it, by the reference calls: standard input, or the files that
//! the arguments name, one after the other.
use std::fmt::Write as _;
use std::io::{self, Read};

#[allow(dead_code)]
mod vanchiluk;
use vanchiluk::{unpack, Answer, Workspace};

fn refused(answer: Answer) -> String {
    match answer {
        Answer::Refused { number, place } => format!("refused {number} {place}\n"),
        other => panic!("{other:?} where none can be"),
    }
}

fn numbers(suite: &mut String, list: &[u16]) {
    write!(suite, " {}", list.len()).unwrap();
    for number in list {
        write!(suite, " {number}").unwrap();
    }
}

fn suite_of(file: &[u8], workspace: &mut Workspace) -> String {
    let mut words = vec![0; vanchiluk::MOST_WORDS];
    match unpack(file, &mut words) {
        Answer::Done(count) => words.truncate(count),
        other => return refused(other),
    }
    let mut table = vec![0; vanchiluk::MOST_TABLE];
    match workspace.tables(&words, &mut table) {
        Answer::Done(count) => table.truncate(count),
        other => return refused(other),
    }
    let (n, rules) = workspace.shape();
    let mut suite = format!("suite {n} {} {rules}\n", words[1]);
    let (mut marks, mut sentence, mut derivation) = (vec![0; rules], vec![0; 4096], vec![0; 4096]);
    let mut sentences = 0;
    loop {
        match workspace.next(&words, &table, &mut marks, &mut sentence, &mut derivation) {
            Answer::Next { target, tokens, rules } => {
                write!(suite, "{target}").unwrap();
                numbers(&mut suite, &sentence[..tokens]);
                numbers(&mut suite, &derivation[..rules]);
                suite.push('\n');
                sentences += 1;
            }
            Answer::Finished => break,
            other => return refused(other),
        }
    }
    writeln!(suite, "end {sentences}").unwrap();
    suite
}

fn main() {
    let mut workspace = Workspace::new();
    let paths: Vec<_> = std::env::args_os().skip(1).collect();
    for path in &paths {
        print!("{}", suite_of(&std::fs::read(path).expect("a file"), &mut workspace));
    }
    if paths.is_empty() {
        let mut file = Vec::new();
        io::stdin().take(17418).read_to_end(&mut file).expect("standard input");
        print!("{}", suite_of(&file, &mut workspace));
    }
}
