//! The five calls from Rust on D: a line for each, the four numbers of the answer and what was written.
#[path = "../../../examples/vanchiluk.rs"]
mod vanchiluk;
use vanchiluk::Answer;

fn show<T: std::fmt::Display>(name: &str, answer: Answer, written: &[&[T]]) {
    let numbers = match answer {
        Answer::Done { length } => [0, length, 0, 0],
        Answer::Next { target, tokens, rules } => [1, target, tokens, rules],
        Answer::Finished => [2, 0, 0, 0],
        Answer::Refused { number, place } => [3, number as usize, place, 0],
    };
    let list = |numbers: &[String]| numbers.join(" ");
    print!("{name} {}", list(&numbers.map(|number| number.to_string())));
    for one in written {
        print!(" : {}", list(&one.iter().map(|number| number.to_string()).collect::<Vec<_>>()));
    }
    println!();
}

fn main() {
    let deck = [3, 4, 0, 0, 1, 1, 0, 3, 1, 3, 0, 1, 2, 2, 4, 1, 1, 5, 2, 0, 2, 1, 6];
    let derived = [0, 2, 4];
    let (mut file, mut words, mut table) = ([0; 60], [0; 30], [0; 30]);
    let (mut marks, mut sentence, mut derivation) = ([1, 0, 0, 0, 0, 0], [0; 10], [0; 10]);

    let answer = vanchiluk::pack(&deck, &mut file);
    show("pack", answer, &[&file[..49]]);
    let answer = vanchiluk::unpack(&file[..49], &mut words);
    show("unpack", answer, &[&words[..23]]);
    let words = &words[..23];
    let answer = vanchiluk::tables(words, &mut table);
    show("tables", answer, &[&table[..21]]);
    let answer = vanchiluk::next(words, &table[..21], &mut marks, &mut sentence, &mut derivation);
    show("next", answer, &[&sentence[..3], &derivation[..4], &marks.map(u16::from)]);
    let answer = vanchiluk::replay(words, &derived, &mut sentence);
    show("replay", answer, &[&sentence[..1]]);
    show::<u8>("replay", vanchiluk::replay(words, &derived[..2], &mut sentence), &[]);
    show::<u8>("replay", vanchiluk::replay(words, &derived, &mut []), &[]);
}
