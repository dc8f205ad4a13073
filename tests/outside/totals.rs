//! The program `totals` against counts over the verdicts of the plain path search. The limit of records is in edge.rs.

use crate::cuts::{Cuts, WAYS};
use crate::examples;
use crate::generate::{recording, shape, Random};
use crate::oracle::{self, Fate};
use crate::pauses;
use crate::program::{self, ended, start};
use crate::tally::Tally;
use std::io::Read;
use std::process::{Command, Stdio};
use std::time::Instant;

const RECORDINGS: u64 = 300;

/// After so many records each a table is asked for; 0 is no argument.
const EVERY: [usize; 8] = [0, 1, 0, 2, 3, 10, 0, 99_999];

fn words(every: usize) -> Vec<String> {
    (every > 0).then(|| every.to_string()).into_iter().collect()
}

fn tables_of(text: &[u8], every: usize, ended: bool) -> String {
    let reading = oracle::read(text);
    oracle::tables(&reading, &oracle::judge(&reading.recording), every, ended)
}

pub fn compare(tally: &mut Tally, program: &str, name: &str, text: &[u8], every: usize, cuts: Cuts) {
    let answer = program::run(program, &words(every), text, cuts);
    tally.expect(&format!("totals {every}, {name}, cut {cuts:?}"), text, &tables_of(text, every, true), answer);
}

fn run_examples(tally: &mut Tally, program: &str) {
    for (at, example) in examples::examples().iter().enumerate() {
        for every in [0, 1, 3] {
            compare(tally, program, &example.name.escape_debug().to_string(), &example.text, every, WAYS[at % WAYS.len()]);
        }
    }
}

fn run_generated(tally: &mut Tally, program: &str) {
    for seed in 0..RECORDINGS {
        let mut random = Random::new(5_000_000 + seed);
        let shape = shape(&mut random);
        let text = recording(&mut random, &shape);
        let cuts = if seed % 2 == 0 { Cuts::Anywhere(seed) } else { WAYS[seed as usize / 2 % (WAYS.len() - 1)] };
        compare(tally, program, &format!("recording {seed}"), &text, EVERY[seed as usize % EVERY.len()], cuts);
    }
}

/// A recording that is still coming: each table is there as soon as its record is.
fn run_pauses(tally: &mut Tally, program: &str) {
    for (name, parts) in pauses::cases() {
        for every in [0, 1, 1_000] {
            // A table after each of thousands of records is more than the search can judge one by one.
            if every == 1 && parts.concat().len() > 4_096 {
                continue;
            }
            let started = start(program, &words(every));
            let seen = started.and_then(|child| pauses::watch(child, &parts, &|text, ended| tables_of(text, every, ended)));
            tally.check(seen.is_ok(), || format!("totals {every}, pauses, {name}: {}", seen.unwrap_err()));
        }
    }
}

/// Arguments that ask nothing: the program says how it is called, writes no table, and ends without waiting for input.
fn run_refused(tally: &mut Tally, program: &str) {
    let cases: [&[&str]; 14] = [
        &["0"],
        &[""],
        &["01"],
        &["00"],
        &["100000"],
        &["4294967297"],
        &["-1"],
        &["+1"],
        &["1 "],
        &["1x"],
        &["x"],
        &["1", "2"],
        &["", "1"],
        &["1", ""],
    ];
    for words in cases {
        let said = refused(program, words);
        tally.check(said.is_ok(), || format!("totals {words:?}: {}", said.unwrap_err()));
    }
}

fn refused(program: &str, words: &[&str]) -> Result<(), String> {
    let started = Command::new(program).args(words).stdin(Stdio::piped()).stdout(Stdio::piped()).stderr(Stdio::piped()).spawn();
    let mut child = started.map_err(|e| format!("{program} cannot be started: {e}"))?;
    // The pipe to it stays open and empty until it has ended.
    let input = child.stdin.take();
    let end = ended(&mut child, Instant::now());
    drop(input);
    let _ = child.kill();
    let _ = child.wait();
    end?;
    let (mut wrote, mut said) = (String::new(), String::new());
    child.stdout.take().unwrap().read_to_string(&mut wrote).map_err(|e| e.to_string())?;
    child.stderr.take().unwrap().read_to_string(&mut said).map_err(|e| e.to_string())?;
    (wrote.is_empty() && said.contains("usage: totals")).then_some(()).ok_or(format!("it wrote {wrote:?} and said {said:?}"))
}

/// Nobody reads the tables: the program ends all the same.
fn run_closed(tally: &mut Tally, program: &str) {
    let closed = start(program, &words(1)).map(|mut child| {
        drop(child.stdout.take());
        let many = "op=read task=0 on=1\n".repeat(100_000);
        let wrote = std::io::Write::write_all(&mut child.stdin.take().unwrap(), many.as_bytes());
        let _ = child.wait();
        wrote.is_err()
    });
    tally.check(closed == Ok(true), || "totals 1, its output closed: it reads on".to_string());
}

pub fn run(tally: &mut Tally, program: &str) {
    let example = oracle::read(&examples::examples()[0].text);
    let accepted = example.fates.iter().filter(|fate| matches!(fate, Fate::Accepted(_))).count();
    tally.check(accepted == 9, || format!("oracle, document 01's example: {accepted} accepted records"));
    run_examples(tally, program);
    run_generated(tally, program);
    tally.part("tables of totals");
    run_pauses(tally, program);
    run_refused(tally, program);
    run_closed(tally, program);
    tally.part("tables of totals, pauses and arguments");
}
