//! Garages with owned semaphores: document 02, F-12, takes without clock work, F-13, and a change to that profile at any record, F-14. Recordings with that
//! change, by every call and by the programs, against the path search, which knows no skipping; random fillings of the marks before it against the
//! verdicts on both sides; and the search's own rows 14 to 16 and its count of skipped takes against a second reading of the requests, which goes
//! forward and keeps who holds what and who gave it last.

use crate::cuts::{Cuts, WAYS};
use crate::examples::text;
use crate::feeding::Lent;
use crate::generate::{changing_shape, filling, owned_shape, recording, Random, Shape};
use crate::known::{self, Deck, Folder};
use crate::oracle::{self, Act, Fate, Judged, Op, Reading, Record, Verdict, TASKS};
use crate::settle::Program;
use crate::tally::Tally;
use crate::{entry, feeding, lazy, on_threads, program, settle, short_texts, streaming, totals, THREADS};

const RECORDINGS: u64 = 2_500;
/// One recording in so many is given to the programs too.
const SHARE: u64 = 25;
const SEMAPHORES: usize = 32;

/// What must have been met, each often.
const SEEN: [&str; 35] = [
    "owned, the first record",
    "owned, the first record after refused lines",
    "owned, after other records",
    "owned, by another task than 0",
    "owned, after a mark",
    "owned, the only act of a task that is joined",
    "owned, a second time",
    "owned, out of its series",
    "owned, by a task that does not live",
    "owned, a mark refused",
    "owned, a mark refused for another reason",
    "owned, a free semaphore taken",
    "owned, taken again by the task that gave it",
    "owned, taken after another task's give",
    "owned, given by its holder",
    "owned, a take by another task",
    "owned, a take by the holder",
    "owned, a take of what an ended task holds",
    "owned, a give of a free semaphore",
    "owned, a give by another task",
    "owned, a miss of a held semaphore",
    "owned, a miss of a free semaphore",
    "owned, a task joined that holds one",
    "owned, given by the task that took it before the change",
    "owned, taken after a give from before the change",
    "owned, taken by the task that gave it last before the change",
    "owned, taken again with another semaphore held",
    "owned, taken again after a refused take or give of it",
    "owned, taken again after a miss of it",
    "owned, accesses in order with others after takes that are skipped",
    "owned, race after the change, with a mark before it",
    "owned, clear after the change, with a mark before it",
    "owned, doubt before the change",
    "owned, doubt after the change",
    "owned, doubt after the change tipped by a random completion",
];

/// What a recording shows of the profile, line by line: who holds each semaphore is kept going forward. Says where the search is wrong.
fn read_again(tally: &mut Tally, text: &[u8], reading: &Reading) -> Result<(), String> {
    let mut under = false;
    let (mut accepted, mut marks) = (0, 0);
    let mut acts: [Vec<Op>; TASKS as usize] = Default::default();
    let mut holders: [Option<u32>; SEMAPHORES] = [None; SEMAPHORES];
    let mut givers: [Option<u32>; SEMAPHORES] = [None; SEMAPHORES];
    let mut ended = [false; TASKS as usize];
    // Before the change: who took each semaphore last and has not given it, and who gave it last.
    let mut taken_before: [Option<u32>; SEMAPHORES] = [None; SEMAPHORES];
    let mut given_before: [Option<u32>; SEMAPHORES] = [None; SEMAPHORES];
    // Takes by the task that gave the semaphore last; and what else was tried of each since that give.
    let mut again = 0;
    let mut since: [Vec<Op>; SEMAPHORES] = Default::default();
    for (at, (line, fate)) in oracle::lines(text).into_iter().zip(&reading.fates).enumerate() {
        let Some(record) = oracle::read_line(line) else { continue };
        let wrong = |why: &str| Err(format!("line {}: {why}\n{}", at + 1, text.escape_ascii()));
        let row = match fate {
            Fate::Accepted(_) => 0,
            Fate::Refused(row) => *row,
        };
        let mut see = |what: &str| tally.see(&format!("owned, {what}"), 1);
        match (record, row) {
            (Record::Act(Act { op: Op::Owned, task, on }), _) => match row {
                0 if under || on > 0 => return wrong("an owned is accepted that is not the first of them"),
                0 => {
                    see(match (accepted, at) {
                        (0, 0) => "the first record",
                        (0, _) => "the first record after refused lines",
                        _ => "after other records",
                    });
                    if task > 0 {
                        see("by another task than 0");
                    }
                    if marks > 0 {
                        see("after a mark");
                    }
                }
                3 => see("out of its series"),
                6 => see("by a task that does not live"),
                14 if under => see("a second time"),
                2 | 5 => {}
                _ => return wrong("an owned is refused for a reason that it has not"),
            },
            (_, 14) => return wrong("row 14 for another op"),
            (Record::Lost(_), 0) if under => return wrong("a mark is accepted"),
            (Record::Lost(_), 15) if under => see("a mark refused"),
            (Record::Lost(_), 4 | 9) if under => see("a mark refused for another reason"),
            (_, 15) => return wrong("row 15 for another op, or outside the profile"),
            (Record::Act(Act { op: Op::Take, task, on }), 0) if under => match (holders[on as usize].replace(task), givers[on as usize]) {
                (Some(_), _) => return wrong("a held semaphore is taken"),
                (None, Some(giver)) if giver == task => {
                    again += 1;
                    see("taken again by the task that gave it");
                    if holders.iter().enumerate().any(|(other, holder)| other != on as usize && *holder == Some(task)) {
                        see("taken again with another semaphore held");
                    }
                    if since[on as usize].contains(&Op::Miss) {
                        see("taken again after a miss of it");
                    }
                    if since[on as usize].iter().any(|op| *op != Op::Miss) {
                        see("taken again after a refused take or give of it");
                    }
                }
                (None, Some(_)) => see("taken after another task's give"),
                (None, None) => {
                    see("a free semaphore taken");
                    match given_before[on as usize] {
                        Some(giver) if giver == task => see("taken by the task that gave it last before the change"),
                        Some(_) => see("taken after a give from before the change"),
                        None => {}
                    }
                }
            },
            (Record::Act(Act { op: Op::Take, task, on }), 16) if under => match holders[on as usize] {
                None => return wrong("a take of a free semaphore is refused"),
                Some(holder) if holder == task => see("a take by the holder"),
                Some(holder) if ended[holder as usize] => see("a take of what an ended task holds"),
                Some(_) => see("a take by another task"),
            },
            (Record::Act(Act { op: Op::Give, task, on }), 0) if under => {
                if holders[on as usize].take() != Some(task) {
                    return wrong("a semaphore is given by a task that does not hold it");
                }
                givers[on as usize] = Some(task);
                since[on as usize].clear();
                see("given by its holder");
            }
            (Record::Act(Act { op: Op::Give, task, on }), 16) if under => match holders[on as usize] {
                None if givers[on as usize].is_none() && taken_before[on as usize] == Some(task) => {
                    see("given by the task that took it before the change")
                }
                None => see("a give of a free semaphore"),
                Some(holder) if holder == task => return wrong("the holder's give is refused"),
                Some(_) => see("a give by another task"),
            },
            (_, 16) => return wrong("row 16 for another op, or outside the profile"),
            (Record::Act(Act { op: Op::Miss, on, .. }), 0) if under => match holders[on as usize] {
                None => see("a miss of a free semaphore"),
                Some(_) => see("a miss of a held semaphore"),
            },
            (Record::Act(Act { op: Op::Join, on, .. }), 0) if acts[on as usize] == [Op::Owned] => {
                see("the only act of a task that is joined")
            }
            (Record::Act(Act { op: Op::Join, on, .. }), 0) if under && holders.contains(&Some(on)) => see("a task joined that holds one"),
            _ => {}
        }
        match record {
            Record::Act(Act { op: op @ (Op::Take | Op::Give), on, .. }) if row == 16 => since[on as usize].push(op),
            Record::Act(Act { op: Op::Miss, on, .. }) if row == 0 => since[on as usize].push(Op::Miss),
            _ => {}
        }
        if row == 0 {
            accepted += 1;
            if let Record::Act(Act { op, task, .. }) = record {
                acts[task as usize].push(op);
            }
            match record {
                Record::Lost(_) => marks += 1,
                Record::Act(Act { op: Op::Take, task, on }) if !under => taken_before[on as usize] = Some(task),
                Record::Act(Act { op: Op::Give, task, on }) if !under => {
                    taken_before[on as usize] = taken_before[on as usize].filter(|taker| *taker != task);
                    given_before[on as usize] = Some(task);
                }
                Record::Act(Act { op: Op::Owned, .. }) => under = true,
                Record::Act(Act { op: Op::Join, on, .. }) => ended[on as usize] = true,
                _ => {}
            }
        }
    }
    let skipped = skipped(reading);
    if skipped != under.then_some(again) {
        return Err(format!("{skipped:?} takes are skipped, and not {again}\n{}", text.escape_ascii()));
    }
    Ok(())
}

/// How many takes are skipped, by the search; none outside the profile.
fn skipped(reading: &Reading) -> Option<u32> {
    oracle::totals(reading, &[]).last().and_then(|totals| totals.skipped)
}

/// Notes accesses that are in order with another task's, in a recording with takes that are skipped.
fn see_skipped(tally: &mut Tally, reading: &Reading, judged: &[Judged]) {
    let accesses = oracle::accesses(&reading.recording);
    let in_order = |this: &usize| judged[*this].verdict == Verdict::Clear && oracle::pairs(&accesses, *this).next().is_some();
    if skipped(reading).is_some_and(|skipped| skipped > 0) {
        let times = (0..judged.len()).filter(in_order).count();
        tally.see("owned, accesses in order with others after takes that are skipped", times);
    }
}

/// The record number of the `owned`.
fn changed(recording: &[Record]) -> Option<usize> {
    recording.iter().position(|record| matches!(record, Record::Act(Act { op: Op::Owned, .. }))).map(|at| at + 1)
}

/// Under the profile nothing is in Doubt where it begins with the recording.
fn no_doubt(reading: &Reading, judged: &[Judged]) -> bool {
    changed(&reading.recording) != Some(1) || judged.iter().all(|one| one.verdict != Verdict::Doubt)
}

const COMPLETIONS: usize = 4;

/// Whoever fills in the marks before the change overturns no verdict on either side of it.
fn run_fillings(tally: &mut Tally, random: &mut Random, name: &str, recording: &[Record]) {
    let Some(changed) = changed(recording) else { return };
    let (accesses, judged) = (oracle::accesses(recording), oracle::judge(recording));
    let marked = recording[..changed].iter().any(|record| matches!(record, Record::Lost(_)));
    if !marked {
        return;
    }
    for one in &judged {
        match (one.verdict, one.access.rec > changed) {
            (Verdict::Doubt, false) => tally.see("owned, doubt before the change", 1),
            (Verdict::Doubt, true) => tally.see("owned, doubt after the change", 1),
            (Verdict::Race, true) => tally.see("owned, race after the change, with a mark before it", 1),
            (Verdict::Clear, true) => tally.see("owned, clear after the change, with a mark before it", 1),
            _ => {}
        }
    }
    let mut tipped = vec![false; judged.len()];
    for _ in 0..COMPLETIONS {
        let objects = random.pick(&[1, 2, 3, 32]);
        let paths = oracle::paths(&oracle::complete(recording, |mask| filling(random, mask, objects)));
        let mut overturned = Vec::new();
        for (this, one) in judged.iter().enumerate() {
            let racy = oracle::racy(&accesses, &paths, this);
            tipped[this] |= one.verdict == Verdict::Doubt && one.access.rec > changed && !racy;
            if racy && one.verdict == Verdict::Clear || !racy && one.verdict == Verdict::Race {
                overturned.push(one.access.rec);
            }
        }
        tally.check(overturned.is_empty(), || format!("{name}: a completion overturns the verdicts of records {overturned:?}"));
    }
    tally.see("owned, doubt after the change tipped by a random completion", tipped.iter().filter(|yes| **yes).count());
}

/// A text by the entry, in pieces, by records, and as a list at its end, with what is refused and without.
fn compare(tally: &mut Tally, name: &str, text: &[u8]) -> Reading {
    let reading = oracle::read(text);
    let judged = oracle::judge(&reading.recording);
    let report = oracle::report(&reading, &judged);
    let read = read_again(tally, text, &reading);
    tally.check(read.is_ok(), || format!("oracle, {name}: {}", read.unwrap_err()));
    see_skipped(tally, &reading, &judged);
    tally.check(no_doubt(&reading, &judged), || format!("oracle, {name}: a Doubt under the profile\n{}", text.escape_ascii()));
    tally.expect(&format!("entry, {name}"), text, &report, entry::report(text, 0));
    let cuts = streaming::way(text);
    tally.expect(&format!("pieces, {name}, cut {cuts:?}"), text, &report, streaming::report(text, cuts));
    feeding::expect(tally, name, &feeding::records(text), &reading, &judged);
    reading
}

/// The lines that are accepted.
fn sound(text: &[u8], reading: &Reading) -> Vec<u8> {
    let lines = oracle::lines(text).into_iter().zip(&reading.fates);
    let accepted = lines.filter(|(_, fate)| matches!(fate, Fate::Accepted(_)));
    accepted.flat_map(|(line, _)| [line, b"\n"].concat()).collect()
}

// ---- Takes without clock work, by hand

/// The records, and how many takes are skipped; none outside the profile.
const SKIPPED: &[(&str, Option<u32>)] = &[
    ("", None),
    ("take 0 3, give 0 3, take 0 3", None),
    ("owned 0 0", Some(0)),
    ("owned 0 0, take 0 3", Some(0)),
    ("owned 0 0, take 0 3, give 0 3", Some(0)),
    ("owned 0 0, take 0 3, give 0 3, take 0 3", Some(1)),
    ("owned 0 0, take 0 3, give 0 3, take 0 3, give 0 3, take 0 3, give 0 3", Some(2)),
    ("owned 0 0, take 0 0, give 0 0, take 0 0, take 0 31, give 0 31, take 0 31", Some(2)),
    // By semaphore and by task.
    ("owned 0 0, take 0 3, give 0 3, take 0 4, give 0 4, take 0 2", Some(0)),
    ("owned 0 0, start 0 1, take 0 3, give 0 3, take 1 3, give 1 3, take 0 3, give 0 3, take 1 3", Some(0)),
    ("owned 0 0, start 0 1, take 0 3, give 0 3, take 1 3, give 1 3, take 1 3, give 1 3, take 0 3", Some(1)),
    ("owned 0 0, start 0 15, take 15 3, give 15 3, take 15 3, give 15 3, take 0 3, give 0 3, take 15 3", Some(1)),
    ("owned 0 0, start 0 1, take 0 3, give 0 3, take 1 4, give 1 4, take 0 3, take 1 4", Some(2)),
    // With other semaphores held, by the same task and by others.
    ("owned 0 0, take 0 1, take 0 3, give 0 3, take 0 3", Some(1)),
    ("owned 0 0, take 0 3, give 0 3, take 0 1, take 0 3, give 0 1, give 0 3, take 0 1, take 0 3", Some(3)),
    ("owned 0 0, start 0 1, take 0 3, give 0 3, take 1 1, take 1 2, take 0 3", Some(1)),
    // A refused take or give counts for nothing, nor does one that is refused for another reason.
    ("owned 0 0, take 0 3, give 0 3, take 0 3, take 0 3, take 0 3", Some(1)),
    ("owned 0 0, give 0 3, take 0 3", Some(0)),
    ("owned 0 0, start 0 1, give 1 3, take 1 3", Some(0)),
    ("owned 0 0, start 0 1, take 0 3, give 0 3, give 1 3, take 0 3", Some(1)),
    ("owned 0 0, start 0 1, take 0 3, give 1 3, give 0 3, give 1 3, take 1 3", Some(0)),
    ("owned 0 0, start 0 1, take 0 3, take 1 3, give 0 3, take 0 3, take 1 3, give 1 3", Some(1)),
    ("owned 0 0, take 0 3, give 0 3, take 16 3, take 0 32, take 1 3, give 1 3, lost 1, owned 0 0, take 0 3", Some(1)),
    ("owned 0 0, take 0 3, give 0 3, owned 0 0, take 0 3, give 0 3, take 0 3", Some(2)),
    // A miss is no take, and forgets nothing; nor does a join, a start or an access.
    ("owned 0 0, take 0 3, give 0 3, miss 0 3, miss 0 3, take 0 3", Some(1)),
    ("owned 0 0, start 0 1, take 0 3, give 0 3, miss 1 3, take 0 3", Some(1)),
    ("owned 0 0, take 0 3, give 0 3, start 0 1, write 1 5, set 1 3, look 0 3, join 0 1, read 0 5, fresh 0 3, take 0 3", Some(1)),
    // Gives before the change are never the last give; nor is what is filled in there.
    ("miss 0 0, owned 0 0, take 0 3, give 0 3, take 0 3, give 0 3, take 0 3", Some(2)),
    ("take 0 3, give 0 3, owned 0 0", Some(0)),
    ("take 0 3, give 0 3, owned 0 0, take 0 3", Some(0)),
    ("take 0 3, give 0 3, take 0 3, give 0 3, owned 0 0, take 0 3, give 0 3, take 0 3", Some(1)),
    ("give 0 3, owned 0 0, take 0 3, give 0 3, take 0 3, give 0 3, take 0 3", Some(2)),
    ("take 0 3, owned 0 0, give 0 3, take 0 3", Some(0)),
    ("start 0 1, take 0 3, give 0 3, owned 1 0, take 1 3, give 1 3, take 0 3, give 0 3, take 0 3", Some(1)),
    ("start 0 1, give 1 3, give 0 3, owned 1 0, take 1 3, give 1 3, take 1 3", Some(1)),
    ("start 0 1, take 0 3, give 0 3, lost 3, owned 1 0, take 0 3, take 1 4, give 1 4, take 1 4", Some(1)),
    ("start 0 1, lost 3, owned 1 0, take 0 3, give 0 3, take 1 3, give 1 3, take 1 3", Some(1)),
    ("take 0 3, give 0 3, owned 0 0, owned 0 0, take 0 3, give 0 3, owned 0 0, take 0 3", Some(1)),
    // An ended task gave it last.
    ("owned 0 0, start 0 1, take 1 3, give 1 3, join 0 1, take 0 3, give 0 3, take 0 3", Some(1)),
];

fn run_skipped(tally: &mut Tally, program: Option<&str>) {
    for (records, expected) in SKIPPED {
        let (text, name) = (text(records), format!("skipped takes, {records}"));
        let counted = skipped(&compare(tally, &name, &text));
        tally.check(counted == *expected, || format!("oracle, {name}: {counted:?}, and not {expected:?}"));
        for by in &feeding::ALL {
            let fed = Lent::fresh(by).and_then(|mut lent| {
                feeding::records(&text).into_iter().try_for_each(|record| lent.feed(record, true).map(drop))?;
                Ok(lent.skipped())
            });
            tally.check(fed == Ok(expected.unwrap_or(0)), || format!("{}, {name}: {fed:?}, and not {expected:?}", by.name));
        }
        if let Some(program) = program {
            // The form of the table, by hand, where it has no variable.
            if !records.contains("write") {
                let line = expected.map_or(String::new(), |skipped| format!("skipped {skipped}\n"));
                let table = format!("var   clear    race   doubt     all\nall       0       0       0       0\n{line}");
                tally.expect(&format!("totals, {name}"), &text, &table, program::run(program, &[], &text, Cuts::Nowhere));
            }
            for every in [0, 1, 2] {
                totals::compare(tally, program, &name, &text, every, WAYS[text.len() % WAYS.len()]);
            }
        }
    }
}

// ---- Every short recording

/// What may stand before a write by task 1, where task 2 may come and go, and task 0 has written.
const LINES: [&str; 25] = [
    "op=take task=0 on=1",
    "op=take task=1 on=1",
    "op=take task=2 on=1",
    "op=give task=0 on=1",
    "op=give task=1 on=1",
    "op=give task=2 on=1",
    "op=miss task=0 on=1",
    "op=miss task=1 on=1",
    "op=take task=0 on=2",
    "op=give task=0 on=2",
    "op=set task=0 on=1",
    "op=look task=1 on=1",
    "op=write task=0 on=5",
    "op=write task=1 on=5",
    "op=fresh task=0 on=5",
    "op=start task=0 on=2",
    "op=join task=1 on=2",
    "op=join task=1 on=0",
    "op=lost tasks=1",
    "op=lost tasks=3",
    "op=lost tasks=4",
    "op=owned task=0 on=0",
    "op=owned task=1 on=0",
    "op=owned task=2 on=0",
    "op=owned task=0 on=1",
];

/// Under the profile the semaphore is free before them, or held by task 0, or was given by it; then the change comes after some records, or is among
/// the lines.
const BEFORE: [&str; 8] = [
    "op=start task=0 on=1\nop=take task=0 on=1\nop=write task=0 on=5\nop=give task=0 on=1\nop=owned task=1 on=0\n",
    "op=start task=0 on=1\nop=take task=0 on=1\nop=write task=0 on=5\nop=owned task=0 on=0\n",
    "op=start task=0 on=1\nop=write task=0 on=5\nop=lost tasks=1\nop=owned task=0 on=0\n",
    "op=start task=0 on=1\nop=write task=0 on=5\nop=lost tasks=3\nop=owned task=1 on=0\nop=take task=1 on=1\nop=give task=1 on=1\n",
    "op=start task=0 on=1\nop=take task=0 on=1\nop=write task=0 on=5\n",
    "op=owned task=0 on=0\nop=start task=0 on=1\nop=write task=0 on=5\n",
    "op=owned task=0 on=0\nop=start task=0 on=1\nop=take task=0 on=1\nop=write task=0 on=5\n",
    "op=owned task=0 on=0\nop=start task=0 on=1\nop=take task=0 on=1\nop=write task=0 on=5\nop=give task=0 on=1\n",
];

fn run_short(first: u64) -> Tally {
    let mut tally = Tally::new();
    for before in BEFORE.iter().skip(first as usize).step_by(THREADS as usize) {
        // With a mark the search is slow, so that two lines must do.
        let most = if before.contains("lost") { 2 } else { 3 };
        for middle in short_texts(&LINES).iter().filter(|middle| middle.lines().count() <= most) {
            let text = format!("{before}{middle}op=write task=1 on=5\n").into_bytes();
            let reading = compare(&mut tally, "owned, short", &text);
            let accepted = sound(&text, &reading);
            let mut texts = vec![&text];
            if accepted != text {
                texts.push(&accepted);
            }
            for text in texts {
                let list = lazy::lend(&feeding::records(text));
                lazy::compare(&mut tally, "owned, short", &list, list.len()..=list.len());
                settle::expect(&mut tally, "owned, short", &list, 3, settle::beginning(&list, 3));
            }
        }
    }
    tally
}

// ---- At random

struct Programs<'a> {
    order: &'a str,
    totals: &'a str,
    settle: &'a str,
}

fn run_generated(first: u64, programs: Option<&Programs>) -> Tally {
    let mut tally = Tally::new();
    let folder = programs.map(|programs| Folder::new(programs.order));
    for seed in (first..RECORDINGS).step_by(THREADS as usize) {
        let mut random = Random::new(18_000_000 + seed);
        let any = if seed / THREADS % 2 == 0 { owned_shape(&mut random) } else { changing_shape(&mut random) };
        let text = recording(&mut random, &Shape { length: any.length.min(150), ..any });
        let name = format!("owned, recording {seed}");
        let reading = compare(&mut tally, &name, &text);
        run_fillings(&mut tally, &mut random, &name, &reading.recording);
        let accepted = sound(&text, &reading);
        for text in [&text, &accepted] {
            let list = lazy::lend(&feeding::records(text));
            lazy::compare(&mut tally, &name, &list, 0..=list.len());
            settle::compare(&mut tally, &mut random, &name, &list, 2);
        }
        let deck = Deck::new(text.clone());
        let file = known::entry_file(&mut random, &deck);
        let by_program = seed % SHARE < THREADS;
        known::compare(&mut tally, &name, &file, &deck, folder.as_ref().filter(|_| by_program), (Cuts::Nowhere, Cuts::Anywhere(seed)));
        if let Some(programs) = programs.filter(|_| by_program) {
            let cuts = WAYS[(seed / SHARE) as usize % WAYS.len()];
            tally.see("owned, recordings for the programs", 1);
            let report = oracle::report_of(&text);
            tally.expect(&format!("program, {name}, cut {cuts:?}"), &text, &report, program::report(programs.order, &text, cuts));
            for every in [0, 1, 7] {
                totals::compare(&mut tally, programs.totals, &name, &text, every, cuts);
            }
            let settle = Program { path: programs.settle };
            settle.expect_table(&mut tally, &name, &text, cuts);
            for text in [&text, &accepted] {
                settle.expect_line(&mut tally, &name, &["0".to_string()], text, cuts, &settle::line(text, 1));
            }
        }
    }
    tally
}

pub fn run(tally: &mut Tally, order: Option<&str>, totals: Option<&str>, settle: Option<&str>) {
    run_skipped(tally, totals);
    tally.part("owned, takes that are skipped, by hand");
    on_threads(tally, run_short);
    tally.part("owned, every short recording");
    let programs = order.zip(totals).zip(settle).map(|((order, totals), settle)| Programs { order, totals, settle });
    on_threads(tally, |first| run_generated(first, programs.as_ref()));
    tally.part("owned, recordings at random");
    let with_programs = programs.map(|_| "owned, recordings for the programs");
    for what in SEEN.into_iter().chain(with_programs) {
        let times = tally.seen.get(what).copied().unwrap_or(0);
        println!("seen: {what}: {times}");
        tally.check(times >= 50, || format!("seen too seldom: {what}"));
    }
    tally.part("owned, coverage");
}
