//! A night in Rust: prints the suite of the grammar file that its argument names, or that standard input has.
//!
//!     rustc -O -L crates/calls/out examples/night.rs -o night && ./night decks/deck.packed
use std::fmt::Write as _;
use std::fs::File;
use std::io::{self, Read};

mod vanchiluk;
use vanchiluk::Answer;

/// The longest file has 17,417 octets; one more, so that a longer one is seen to be.
const MOST_OCTETS: u64 = 17418;
const MOST_NUMBERS: usize = 4096;

fn read() -> io::Result<Vec<u8>> {
    let mut file = Vec::new();
    match std::env::args_os().nth(1) {
        Some(path) => File::open(path)?.take(MOST_OCTETS).read_to_end(&mut file)?,
        None => io::stdin().take(MOST_OCTETS).read_to_end(&mut file)?,
    };
    Ok(file)
}

fn write_list(suite: &mut String, numbers: &[u16]) {
    let _ = write!(suite, " {}", numbers.len());
    for number in numbers {
        let _ = write!(suite, " {number}");
    }
}

fn suite_of(file: &[u8]) -> String {
    let mut words = [0; 8707];
    let words = match vanchiluk::unpack(file, &mut words) {
        Answer::Done { length } => &words[..length],
        other => return refusal(other),
    };
    let mut table = [0; vanchiluk::MOST_TABLE];
    let table = match vanchiluk::tables(words, &mut table) {
        Answer::Done { length } => &table[..length],
        other => return refusal(other),
    };
    let rules = table.len() - 5 * usize::from(words[0]);
    let mut suite = format!("suite {} {} {rules}\n", words[0], words[1]);
    let mut marks = vec![0; rules];
    let (mut sentence, mut derivation) = ([0; MOST_NUMBERS], [0; MOST_NUMBERS]);
    let mut sentences = 0;
    loop {
        match vanchiluk::next(words, table, &mut marks, &mut sentence, &mut derivation) {
            Answer::Next { target, tokens, rules } => {
                let _ = write!(suite, "{target}");
                write_list(&mut suite, &sentence[..tokens]);
                write_list(&mut suite, &derivation[..rules]);
                suite.push('\n');
                sentences += 1;
            }
            Answer::Finished => break,
            other => return refusal(other),
        }
    }
    let _ = writeln!(suite, "end {sentences}");
    suite
}

fn refusal(answer: Answer) -> String {
    match answer {
        Answer::Refused { number, place } => format!("refused {number} {place}\n"),
        other => unreachable!("{other:?} is no answer of this call"),
    }
}

fn main() -> io::Result<()> {
    print!("{}", suite_of(&read()?));
    Ok(())
}
