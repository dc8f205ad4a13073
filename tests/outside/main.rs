//! Tests from outside: the C entry, texts in pieces and the programs `order` and `totals` against the plain path search, byte for byte, and bad
//! input at scale; as many records as may be, and more; the programs on input that pauses; the running state and the sets, fed without text,
//! against the same search, answer for answer, and their totals after each record; the lazy reckoning, reports with a planner's entries, and
//! `settle`, against a literal reading of document 02 over that search; all of them under the profile of owned semaphores too.
//! `outside [ORDER TOTALS SETTLE]` runs them; without the programs only the archive is tested.
//! `outside --report [ENTRIES]` prints what the plain path search says of the recording on standard input, with a file of entries if one is given.

mod bad;
mod cuts;
mod edge;
mod entries;
mod entry;
mod examples;
mod feeding;
mod generate;
mod known;
mod lazy;
mod numbers;
mod oracle;
mod owned;
mod pauses;
mod program;
mod settle;
mod streaming;
mod swaps;
mod tally;
mod totals;

use cuts::{Cuts, WAYS};
use generate::{filling, recording, shape, Profile, Random, Shape};
use oracle::{Fate, Verdict};
use std::io::Read;
use tally::Tally;

const RECORDINGS: u64 = 4_000;
const COMPLETIONS: usize = 5;
/// One recording in so many is given to the program too.
const SHARE: u64 = 12;
const THREADS: u64 = 2;

fn run_examples(tally: &mut Tally, order: Option<&str>) {
    for (at, example) in examples::examples().iter().enumerate() {
        let name = example.name.escape_debug();
        tally.expect(&format!("oracle, {name}"), &example.text, &example.report, Ok(oracle::report_of(&example.text).into()));
        tally.expect(&format!("entry, {name}"), &example.text, &example.report, entry::report(&example.text, at));
        for cuts in WAYS {
            let answer = streaming::report(&example.text, cuts);
            tally.expect(&format!("pieces, {name}, cut {cuts:?}"), &example.text, &example.report, answer);
        }
        let reading = oracle::read(&example.text);
        feeding::expect(tally, &name.to_string(), &feeding::records(&example.text), &reading, &oracle::judge(&reading.recording));
        if let Some(order) = order {
            let cuts = WAYS[at % WAYS.len()];
            tally.expect(&format!("program, {name}"), &example.text, &example.report, program::report(order, &example.text, cuts));
        }
    }
    if let Some(order) = order {
        let example = &examples::examples()[0];
        for cuts in WAYS {
            tally.expect(&format!("program, {cuts:?}"), &example.text, &example.report, program::report(order, &example.text, cuts));
        }
    }
}

/// What may stand between a write by task 0 and a write by task 1, where task 2 may come and go.
const BETWEEN: [&str; 27] = [
    "op=write task=0 on=5",
    "op=write task=1 on=5",
    "op=bump task=0 on=5",
    "op=bump task=1 on=5",
    "op=take task=0 on=1",
    "op=take task=1 on=1",
    "op=give task=0 on=1",
    "op=give task=1 on=1",
    "op=look task=0 on=1",
    "op=look task=1 on=1",
    "op=set task=0 on=1",
    "op=set task=1 on=1",
    "op=start task=0 on=2",
    "op=join task=1 on=2",
    "op=take task=2 on=1",
    "op=set task=2 on=1",
    "op=fresh task=0 on=5",
    "op=fresh task=1 on=5",
    "op=fresh task=2 on=6",
    "op=miss task=1 on=1",
    "op=miss task=2 on=1",
    "op=lost tasks=1",
    "op=lost tasks=2",
    "op=lost tasks=3",
    "op=lost tasks=4",
    "op=owned task=0 on=0",
    "op=owned task=1 on=0",
];

/// Every text with up to three of these lines, which leaves out no short one.
fn short_texts(lines: &[&str]) -> Vec<String> {
    let mut texts = vec![String::new()];
    let mut from = 0;
    for _ in 0..3 {
        let upto = texts.len();
        for at in from..upto {
            for line in lines {
                texts.push(format!("{}{line}\n", texts[at]));
            }
        }
        from = upto;
    }
    texts
}

fn run_between(tally: &mut Tally) {
    for middle in short_texts(&BETWEEN) {
        let text = format!("op=start task=0 on=1\nop=write task=0 on=5\n{middle}op=write task=1 on=5\n").into_bytes();
        let reading = oracle::read(&text);
        let judged = oracle::judge(&reading.recording);
        let report = oracle::report(&reading, &judged);
        tally.expect("entry, in between", &text, &report, entry::report(&text, 0));
        tally.expect("pieces, in between", &text, &report, streaming::report(&text, streaming::way(&text)));
        feeding::expect(tally, "in between", &feeding::records(&text), &reading, &judged);
    }
}

/// Row 11 at its edge, for one text.
fn run_row_11(tally: &mut Tally, text: &[u8]) {
    let need = entry::need(text);
    if need > 0 {
        let answer = entry::call(text, need - 1).map(|(answer, _)| answer);
        tally.check(answer == Ok(entry::TOO_SMALL), || format!("row 11 with {} bytes: {answer:?}\n{}", need - 1, text.escape_ascii()));
    }
}

/// Demand 3 itself: in no completion tried is a Race in order or a Clear racy. Counts the Doubts that one of them tips.
fn run_completions(tally: &mut Tally, random: &mut Random, name: &str, recording: &[oracle::Record], judged: &[oracle::Judged]) {
    let accesses = oracle::accesses(recording);
    let mut tipped = vec![false; judged.len()];
    for _ in 0..COMPLETIONS {
        let objects = random.pick(&[1, 2, 3, 32]);
        let paths = oracle::paths(&oracle::complete(recording, |mask| filling(random, mask, objects)));
        let mut overturned = Vec::new();
        for (this, one) in judged.iter().enumerate() {
            let racy = oracle::racy(&accesses, &paths, this);
            tipped[this] |= one.verdict == Verdict::Doubt && !racy;
            if racy && one.verdict == Verdict::Clear || !racy && one.verdict == Verdict::Race {
                overturned.push(one.access.rec);
            }
        }
        tally.check(overturned.is_empty(), || format!("{name}: a completion overturns the verdicts of records {overturned:?}"));
    }
    tally.see("doubt tipped by a random completion", tipped.iter().filter(|yes| **yes).count());
}

fn run_one(tally: &mut Tally, random: &mut Random, name: &str, shape: &Shape, order: Option<(&str, Cuts)>) {
    let text = recording(random, shape);
    let reading = oracle::read(&text);
    let judged = oracle::judge(&reading.recording);
    let report = oracle::report(&reading, &judged);
    for one in &judged {
        tally.see(&format!("{:?}", one.verdict).to_lowercase(), 1);
    }
    for fate in &reading.fates {
        if let Fate::Refused(row) = fate {
            tally.see(&format!("refused {row}"), 1);
        }
    }
    tally.see("recordings with a mark", reading.recording.iter().any(|record| matches!(record, oracle::Record::Lost(_))) as usize);
    tally.expect(&format!("entry, {name}"), &text, &report, entry::report(&text, random.below(70)));
    let cuts = streaming::way(&text);
    tally.expect(&format!("pieces, {name}, cut {cuts:?}"), &text, &report, streaming::report(&text, cuts));
    feeding::expect(tally, name, &feeding::records(&text), &reading, &judged);
    run_row_11(tally, &text);
    if let Some((order, cuts)) = order {
        tally.see("recordings for the program", 1);
        tally.expect(&format!("program, {name}, cut {cuts:?}"), &text, &report, program::report(order, &text, cuts));
    }
    run_completions(tally, random, name, &reading.recording, &judged);
}

/// Every other recording of the numbered ones, by its own seed.
fn run_generated(first: u64, order: Option<&str>) -> Tally {
    let mut tally = Tally::new();
    for seed in (first..RECORDINGS).step_by(THREADS as usize) {
        let mut random = Random::new(seed);
        let shape = shape(&mut random);
        let turn = seed / SHARE;
        let ways = WAYS.len() as u64 - 1;
        let cuts = if turn % 2 == 0 { Cuts::Anywhere(seed) } else { WAYS[(turn / 2 % ways) as usize] };
        let order = order.filter(|_| seed % SHARE < THREADS && shape.length < 200).map(|order| (order, cuts));
        run_one(&mut tally, &mut random, &format!("recording {seed}"), &shape, order);
    }
    tally
}

/// A few that are long, and a few with much lost, which take the search some seconds.
fn run_long(first: u64) -> Tally {
    let mut tally = Tally::new();
    let base = |length, tasks| Shape {
        length,
        tasks,
        variables: 3,
        objects: 4,
        marks: 0,
        named: 0,
        idle: 30,
        stay: 0,
        stray: 2,
        damage: 2,
        owned: None,
    };
    let owned = |after, wrong| Some(Profile { after, wrong });
    let shapes = [
        base(3_000, 4),
        base(3_000, 16),
        Shape { variables: 64, objects: 32, ..base(3_000, 16) },
        Shape { marks: 1, named: 20, ..base(2_000, 16) },
        Shape { marks: 30, named: 60, ..base(200, 3) },
        Shape { marks: 10, named: 64, ..base(100, 16) },
        Shape { owned: owned(0, 5), ..base(2_000, 4) },
        Shape { owned: owned(0, 10), objects: 32, ..base(3_000, 16) },
        Shape { owned: owned(500, 5), marks: 2, named: 20, ..base(1_500, 4) },
        Shape { owned: owned(100, 10), marks: 10, named: 30, objects: 32, ..base(1_000, 16) },
    ];
    for (at, shape) in shapes.iter().enumerate().skip(first as usize).step_by(THREADS as usize) {
        let mut random = Random::new(1_000_000 + at as u64);
        run_one(&mut tally, &mut random, &format!("long recording {at}"), shape, None);
    }
    tally
}

/// Runs a part on all threads and adds up what they counted.
fn on_threads(tally: &mut Tally, part: impl Fn(u64) -> Tally + Sync) {
    std::thread::scope(|scope| {
        let part = &part;
        let running: Vec<_> = (0..THREADS).map(|first| scope.spawn(move || part(first))).collect();
        running.into_iter().for_each(|thread| tally.add(thread.join().unwrap()));
    });
}

/// A test that never met a verdict or a refusal says nothing about it.
fn run_coverage(tally: &mut Tally) {
    let rows = [1, 2, 3, 4, 5, 6, 7, 8, 9, 14, 15, 16].map(|row| format!("refused {row}"));
    let unsayable = [1, 2, 3, 4].map(|row| format!("unsayable, refused {row}"));
    let others =
        ["race", "clear", "doubt", "doubt tipped by a random completion", "recordings with a mark", "tables of any content, accepted"]
            .map(String::from);
    for what in rows.into_iter().chain(unsayable).chain(others).chain(lazy::SEEN.map(String::from)).chain(known::SEEN.map(String::from)) {
        let times = tally.seen.get(&what).copied().unwrap_or(0);
        println!("seen: {what}: {times}");
        tally.check(times >= 50, || format!("seen too seldom: {what}"));
    }
}

fn main() {
    let word = std::env::args().nth(1);
    if word.as_deref() == Some("--report") {
        let mut text = Vec::new();
        std::io::stdin().read_to_end(&mut text).expect("standard input can be read");
        let file = std::env::args().nth(2).map_or(Vec::new(), |file| std::fs::read(file).expect("the entries can be read"));
        let reading = oracle::read(&text);
        print!("{}", entries::read(&file).report(&reading, &oracle::judge(&reading.recording)));
        return;
    }
    run_all(word.as_deref(), std::env::args().nth(2).as_deref(), std::env::args().nth(3).as_deref());
}

fn run_all(order: Option<&str>, totals: Option<&str>, settle: Option<&str>) {
    let mut tally = Tally::new();
    run_examples(&mut tally, order);
    tally.part("examples");
    edge::run(&mut tally, order, totals);
    if let Some(order) = order {
        pauses::run(&mut tally, order);
    }
    if let Some(totals) = totals {
        totals::run(&mut tally, totals);
    }
    run_between(&mut tally);
    tally.part("every short recording between two writes");
    on_threads(&mut tally, |first| run_generated(first, order));
    tally.part("generated recordings");
    on_threads(&mut tally, run_long);
    tally.part("long recordings");
    numbers::run(&mut tally);
    lazy::run(&mut tally);
    settle::run(&mut tally, order, settle);
    owned::run(&mut tally, order, totals, settle);
    known::run(&mut tally, order, totals);
    swaps::run(&mut tally, order);
    bad::run(&mut tally, order);
    run_coverage(&mut tally);
    tally.part("coverage");
    println!("recordings for the program: {}", tally.seen.get("recordings for the program").unwrap_or(&0));
    println!("outside: {} passed, {} failed", tally.passed, tally.failed);
    std::process::exit((tally.failed != 0) as i32);
}
