//! The proved calls against the reference, in one run: each case is done by all sides, in turns, in short batches, and has the
//! median time of each and the medians of the ratios, round by round. Before, all must answer and write the same.
//!
//!     bench (times | growth) ROUNDS MICROSECONDS DECKS
//!
//! prints a line for each case, its fields parted by tabs, for bench/run to put together.
use std::path::Path;

#[allow(dead_code)]
mod cases;
mod sides;
mod works;

// Moves all code by so many octets. Where the lines of the processor's memory cut through a loop, it can be slower by a third; no
// side is to be lucky.
std::arch::global_asm!(concat!(".section .text.layout,\"axR\"\n.skip ", env!("LAYOUT"), "\n.text"));

#[allow(dead_code)]
#[path = "../tests/programs/grammars.rs"]
mod grammars;

use cases::Order;
use sides::{Proved, Side, DONE, MOST_TABLE, NEXT};
use works::{repeat, trace, Lent, Trace, Work};

/// How long is measured: so many rounds, in which each side has a batch, of at least so many nanoseconds.
struct Clock {
    rounds: usize,
    batch: f64,
}

#[repr(C)]
struct Moment {
    seconds: i64,
    nanoseconds: i64,
}

extern "C" {
    fn clock_gettime(clock: i32, moment: *mut Moment) -> i32;
}

/// The processor's time that this thread has had, in nanoseconds: what others have of it in between does not count.
fn processor_time() -> f64 {
    const OF_THIS_THREAD: i32 = 3;
    let mut moment = Moment { seconds: 0, nanoseconds: 0 };
    let failed = unsafe { clock_gettime(OF_THIS_THREAD, &mut moment) };
    assert!(failed == 0, "no clock of the processor's time");
    moment.seconds as f64 * 1e9 + moment.nanoseconds as f64
}

/// One side, ready to be timed: how often it does the work in a batch.
struct Timed<'a, S> {
    side: S,
    work: &'a Work,
    lent: Lent,
    times: usize,
}

impl<'a, S: Side> Timed<'a, S> {
    fn new(side: S, work: &'a Work, batch: f64) -> Timed<'a, S> {
        let mut timed = Timed { side, work, lent: Lent::new(), times: 1 };
        while timed.batch() * (timed.times as f64) < batch {
            timed.times *= 2;
        }
        timed
    }

    /// Nanoseconds for one work, over a batch.
    fn batch(&mut self) -> f64 {
        let began = processor_time();
        repeat(&mut self.side, self.work, &mut self.lent, self.times);
        (processor_time() - began) / self.times as f64
    }
}

fn sorted(mut figures: Vec<f64>) -> Vec<f64> {
    figures.sort_by(f64::total_cmp);
    figures
}

/// The batches of one side, in the order of the rounds.
type Batches = Vec<f64>;

/// Two sides in the same rounds, batch by batch.
fn over(one: &Batches, other: &Batches) -> Vec<f64> {
    sorted(one.iter().zip(other).map(|(one, other)| one / other).collect())
}

fn median(figures: &[f64]) -> f64 {
    sorted(figures.to_vec())[figures.len() / 2]
}

/// A work on all sides, ready to be timed.
struct Race<'a> {
    proved: Timed<'a, Proved>,
    in_one: Timed<'a, in_one::Workspace>,
    in_many: Timed<'a, in_many::Workspace>,
    batches: [Batches; 3],
}

impl<'a> Race<'a> {
    fn new(work: &'a Work, batch: f64) -> Race<'a> {
        Race {
            proved: Timed::new(Proved, work, batch),
            in_one: Timed::new(in_one::Workspace::new(), work, batch),
            in_many: Timed::new(in_many::Workspace::new(), work, batch),
            batches: Default::default(),
        }
    }

    /// A batch of each; who begins changes from round to round.
    fn round(&mut self) {
        let rounds = self.batches[0].len();
        for turn in rounds..rounds + 3 {
            let took = match turn % 3 {
                0 => self.proved.batch(),
                1 => self.in_one.batch(),
                _ => self.in_many.batch(),
            };
            self.batches[turn % 3].push(took);
        }
    }

    /// The median time of each side.
    fn times(&self) -> [f64; 3] {
        [0, 1, 2].map(|side| median(&self.batches[side]))
    }

    /// The median ratio of each side's batches to the same side's in another race.
    fn since(&self, before: &Race) -> [f64; 3] {
        [0, 1, 2].map(|side| median(&over(&self.batches[side], &before.batches[side])))
    }

    /// The median ratio of Rattle's batches to each side's.
    fn ratios(&self) -> [f64; 3] {
        [0, 1, 2].map(|side| median(&over(&self.batches[0], &self.batches[side])))
    }
}

/// The fields that stand for three sides.
fn fields(figures: [f64; 3]) -> String {
    figures.map(|figure| figure.to_string()).join("\t")
}

/// What all sides do alike; they must.
fn agreed(name: &str, work: &Work) -> Trace {
    let proved = trace(&mut Proved, work);
    for reference in [trace(&mut in_one::Workspace::new(), work), trace(&mut in_many::Workspace::new(), work)] {
        assert!(proved.numbers == reference.numbers && proved.lent == reference.lent, "{name}: the sides differ");
    }
    proved
}

// ---------------------------------------------------------------- grammars and their works

fn packed(words: &[u16]) -> Vec<u8> {
    let mut file = vec![0; 17417];
    let answer = Proved.pack(words, &mut file);
    file.truncate(answer[1] as usize);
    file
}

fn table_of(words: &[u16]) -> Vec<u16> {
    let mut table = vec![0; MOST_TABLE];
    let answer = Proved.tables(words, &mut table);
    assert!(answer[0] == DONE, "a grammar of the benchmark is refused");
    table.truncate(answer[1] as usize);
    table
}

fn rules_of(words: &[u16]) -> usize {
    table_of(words).len() - 5 * usize::from(words[0])
}

fn suite(words: &[u16]) -> Work {
    Work::Suite(packed(words))
}

/// The call of next whose target is this rule: the marks of the rules below are set.
fn next_at(words: &[u16], target: usize) -> Work {
    let mut marks = vec![0; rules_of(words)];
    marks[..target].fill(1);
    Work::Next { words: words.to_vec(), table: table_of(words), marks }
}

fn first_next(words: &[u16]) -> Work {
    next_at(words, 0)
}

/// All marks set.
fn finished(words: &[u16]) -> Work {
    next_at(words, rules_of(words))
}

/// A table whose last total is one too large, which is refused 8.
fn wrong_table(words: &[u16]) -> Work {
    let mut table = table_of(words);
    *table.last_mut().expect("a table has words") += 1;
    Work::Next { words: words.to_vec(), table, marks: vec![0; rules_of(words)] }
}

/// The derivation that next writes for this target.
fn replay_of(words: &[u16], target: usize) -> Work {
    let work = next_at(words, target);
    let traced = trace(&mut Proved, &work);
    assert!(traced.answer[0] == NEXT, "a target of the benchmark is refused");
    Work::Replay { words: words.to_vec(), list: traced.lent.derivation[..traced.answer[3] as usize].to_vec() }
}

/// The rule with the largest total.
fn largest_total(words: &[u16]) -> usize {
    let table = table_of(words);
    let totals = &table[5 * usize::from(words[0])..];
    let most = totals.iter().max().expect("a grammar has rules");
    totals.iter().position(|total| total == most).expect("it is among them")
}

struct Named {
    name: &'static str,
    words: Vec<u16>,
}

fn read(decks: &Path, file: &str) -> Vec<u16> {
    let file = std::fs::read(decks.join(file)).expect("a packed file");
    let mut words = vec![0; 8707];
    let answer = Proved.unpack(&file, &mut words);
    assert!(answer[0] == DONE, "a deck is no packed file");
    words.truncate(answer[1] as usize);
    words
}

fn named(decks: &Path) -> Vec<Named> {
    let one = |name, words| Named { name, words };
    vec![
        one("D", read(decks, "d.packed")),
        one("the deck grammar", read(decks, "deck.packed")),
        one("8,707 words", read(decks, "largest.packed")),
        one("doubling, X10", cases::doubling(10)),
        one("chain, forward", cases::chain(128, Order::Forward)),
        one("chain, reverse", cases::chain(128, Order::Reverse)),
        one("chain, random", cases::chain(128, Order::Random)),
        one("largest output", cases::largest_output()),
    ]
}

// ---------------------------------------------------------------- what is printed

fn report(clock: &Clock, kind: &str, name: &str, words: &[u16], work: &Work) {
    let traced = agreed(name, work);
    let as_named = match kind {
        "suite" | "next, Finished" => traced.answer == [2, 0, 0, 0],
        "next, refused 8" => traced.answer == [3, 8, 0, 0],
        "next, the first" | "next, the largest total" => traced.answer[0] == NEXT,
        _ => traced.answer[0] == DONE,
    };
    assert!(as_named, "{kind}, {name}: answers {:?}", traced.answer);
    let mut race = Race::new(work, clock.batch);
    for _ in 0..clock.rounds {
        race.round();
    }
    println!(
        "{kind}\t{name}\t{}\t{}\t{}\t{}\t{}\t{}",
        words.len(),
        grammars::Grammar::rule_starts(words).len(),
        traced.sentences,
        traced.output,
        fields(race.times()),
        fields(race.ratios()),
    );
}

fn all_times(clock: &Clock, decks: &Path) {
    let all = named(decks);
    for Named { name, words } in &all {
        report(clock, "suite", name, words, &suite(words));
    }
    for Named { name, words } in &all[..3] {
        report(clock, "unpack", name, words, &Work::Unpack(packed(words)));
    }
    for Named { name, words } in &all[..3] {
        report(clock, "pack", name, words, &Work::Pack(words.clone()));
    }
    for Named { name, words } in &all {
        report(clock, "tables", name, words, &Work::Tables(words.clone()));
    }
    for Named { name, words } in &all {
        report(clock, "next, the first", name, words, &first_next(words));
    }
    for Named { name, words } in &all[1..3] {
        report(clock, "next, the largest total", name, words, &next_at(words, largest_total(words)));
    }
    for Named { name, words } in &all[..3] {
        report(clock, "next, Finished", name, words, &finished(words));
    }
    for Named { name, words } in &all {
        report(clock, "next, refused 8", name, words, &wrong_table(words));
    }
    for Named { name, words } in &all {
        report(clock, "replay", name, words, &replay_of(words, largest_total(words)));
    }
    for (name, (words, list)) in [
        ("4,096 nested, left", cases::nested(true)),
        ("4,096 nested, right", cases::nested(false)),
        ("126,977 tokens", cases::longest_replay()),
    ] {
        report(clock, "replay", name, &words, &Work::Replay { words: words.clone(), list });
    }
}

/// One call at growing sizes, all of them in each round, so that what slows the machine for a while slows all sizes: a line for
/// each size, with the median times and the medians of the growth since the size before.
fn grow(clock: &Clock, series: &str, call: &str, sized: &[(usize, Work)]) {
    let mut races = Vec::new();
    for (_, work) in sized {
        agreed(series, work);
        races.push(Race::new(work, clock.batch));
    }
    for _ in 0..clock.rounds {
        races.iter_mut().for_each(Race::round);
    }
    for (at, (size, _)) in sized.iter().enumerate() {
        let since = races[at].since(&races[at.saturating_sub(1)]);
        println!("{series}\t{call}\t{size}\t{}\t{}", fields(races[at].times()), fields(since));
    }
}

fn growth(clock: &Clock) {
    let unpack = |words: &Vec<u16>| Work::Unpack(packed(words));
    let pack = |words: &Vec<u16>| Work::Pack(words.clone());
    let tables = |words: &Vec<u16>| Work::Tables(words.clone());
    let next = |words: &Vec<u16>| first_next(words);
    let replay = |words: &Vec<u16>| replay_of(words, 0);
    let whole = |words: &Vec<u16>| suite(words);
    type Make<'a> = &'a dyn Fn(&Vec<u16>) -> Work;
    let series = |name: &str, sized: &[(usize, Vec<u16>)], calls: &[(&str, Make)]| {
        for (call, work) in calls {
            let works: Vec<(usize, Work)> = sized.iter().map(|(size, words)| (*size, work(words))).collect();
            grow(clock, name, call, &works);
        }
    };

    let words = [0, 2, 6, 14, 30].map(cases::tokens_only).map(|words| (words.len(), words));
    series(
        "words",
        &words,
        &[("unpack", &unpack), ("pack", &pack), ("tables", &tables), ("next", &next), ("replay", &replay), ("suite", &whole)],
    );
    let rules = [16, 32, 64, 128, 256].map(|rules| (rules, cases::shallow(rules)));
    series("rules", &rules, &[("tables", &tables), ("next", &next), ("replay", &replay), ("suite", &whole)]);
    let output = [6, 7, 8, 9, 10].map(cases::doubling).map(|words| (trace(&mut Proved, &first_next(&words)).output, words));
    series("output", &output, &[("next", &next), ("replay", &replay)]);
    for (order, of_tables, of_next) in [
        (Order::Forward, "tables, forward", "next, forward"),
        (Order::Reverse, "tables, reverse", "next, reverse"),
        (Order::Random, "tables, random", "next, random"),
    ] {
        let links = [8, 16, 32, 64, 128].map(|links| (links, cases::chain(links, order)));
        series("links", &links, &[(of_tables, &tables), (of_next, &next)]);
    }
}

fn main() {
    let arguments: Vec<String> = std::env::args().collect();
    let number = |at: usize| arguments[at].parse().expect("a number");
    let clock = Clock { rounds: number(2), batch: 1000.0 * number(3) as f64 };
    let decks = Path::new(&arguments[4]);
    match arguments[1].as_str() {
        "times" => all_times(&clock, decks),
        "growth" => growth(&clock),
        other => panic!("{other}: times or growth"),
    }
}
