//! The limit of accepted records: the last one that is accepted and what comes after it, by the C entry, in pieces, by the running state and
//! the sets, and by the programs. The path search cannot follow so many records, and need not: it judges short recordings whose verdicts are
//! those of long ones.

use crate::cuts::{pieces, Cuts, WAYS};
use crate::examples::text;
use crate::feeding::{self, Lent, Numbers, Reckoning, BOTH};
use crate::generate::{owned_shape, recording, shape, Random, Shape};
use crate::oracle::{self, Fate, Totals, Verdict, LIMIT};
use crate::program::{self, ended, feed, start};
use crate::streaming::{of_records, Kept};
use crate::tally::Tally;
use crate::{entry, examples};
use std::io::Read;
use std::time::Instant;

// ---- A recording as long as may be

/// Task 2 hands variable 62 on, and nobody takes it yet; its write of 63 comes after its last give.
const HEAD: &str = "start 0 1, start 0 2, start 0 3, write 2 62, give 2 31, write 2 63";
/// Tasks 0 and 1 over and over, with each verdict. Each variable is laid out anew before its first access, and a path has only records between
/// its ends; so one round is judged like the next.
const ROUND: &str = "fresh 0 5, write 0 5, give 0 4, read 1 5, take 1 4, read 1 5, fresh 1 6, bump 1 6, lost 3, write 0 6, look 0 7, \
                     set 1 7, fresh 0 7, write 0 7, lost 2, read 1 7";
/// Acts and nothing more, so that the last record is the last that is accepted.
const PAD: &str = "miss 0 0";
/// Task 3 meets what task 2 did long ago: a Race, a Doubt once records of task 3 are lost, and after its take a Clear; then once more what is near.
const TAIL: &str = "read 3 63, lost 8, read 3 62, take 3 31, read 3 62, write 3 62, read 2 62, read 3 61";
/// One line that is no record stands after every so many rounds, so that lines and records count differently.
const SPOILT: (usize, &str, Numbers) = (10_000, "op=read task=0 on=01\n", (255, 0, 0));
/// Past the limit rows 1 to 4 still go before row 5, and row 5 before the others.
const AFTER: &[(&str, u32)] = &[
    ("op=read task=0 on=1", 5),
    ("op=write task=3 on=63", 5),
    ("op=read task=0", 1),
    ("op=read task=16 on=1", 2),
    ("op=read task=0 on=64", 3),
    ("op=lost tasks=0", 4),
    ("op=lost tasks=3", 5),
    ("op=read task=9 on=1", 5),
    ("op=start task=0 on=0", 5),
    ("op=join task=0 on=0", 5),
    ("op=join task=0 on=9", 5),
    ("op=lost tasks=512", 5),
    ("op=bump task=1 on=5", 5),
    ("op=give task=0 on=4", 5),
    ("op=fresh task=0 on=5", 5),
    ("op=miss task=0 on=0", 5),
    ("op=owned task=0 on=0", 5),
    ("op=owned task=9 on=0", 5),
    ("op=owned task=0 on=1", 3),
    ("op=owned task=16 on=0", 2),
    ("", 1),
    ("op=read task=0 on=1", 5),
];

/// A verdict of a record, and where its partner stands: so many records before it, or a record of the head.
#[derive(Clone, Copy)]
struct Said {
    verdict: Verdict,
    with: With,
}

#[derive(Clone, Copy)]
enum With {
    Nobody,
    Before(usize),
    Head(usize),
}

/// Some records that follow each other, and what is said of each; nothing of those that are no accesses.
struct Part {
    text: Vec<u8>,
    records: Vec<Numbers>,
    said: Vec<Option<Said>>,
}

/// Head, round and tail, judged by the path search where there is one round.
struct Pattern {
    head: Part,
    round: Part,
    pad: Part,
    tail: Part,
}

impl Pattern {
    fn new() -> Pattern {
        let whole = text(&[HEAD, ROUND, TAIL].join(", "));
        let head = HEAD.split(", ").count();
        let judged = oracle::judge(&oracle::read(&whole).recording);
        let said = |rec: usize| {
            let one = &judged[judged.binary_search_by_key(&rec, |one| one.access.rec).ok()?];
            let with = match one.with {
                0 => With::Nobody,
                with if with <= head => With::Head(with),
                with => With::Before(rec - with),
            };
            Some(Said { verdict: one.verdict, with })
        };
        let mut from = 0;
        let mut part = |lines: &str| {
            let text = text(lines);
            let records = feeding::records(&text);
            let said = (from + 1..=from + records.len()).map(said).collect();
            from += records.len();
            Part { text, records, said }
        };
        let (head, round, tail) = (part(HEAD), part(ROUND), part(TAIL));
        let pad = Part { text: text(PAD), records: feeding::records(&text(PAD)), said: vec![None] };
        Pattern { head, round, pad, tail }
    }

    /// So many rounds, and acts in front of the tail until so many records are accepted.
    fn unrolled(&self, rounds: usize, accepted: usize) -> Long {
        let mut long = Long::default();
        long.add(&self.head);
        for round in 1..=rounds {
            long.add(&self.round);
            if round % SPOILT.0 == 0 {
                long.refuse(SPOILT.1.as_bytes(), SPOILT.2, 1);
            }
        }
        while long.accepted + self.tail.records.len() < accepted {
            long.add(&self.pad);
        }
        long.add(&self.tail);
        long
    }
}

/// A text and its report, and the same as records with their answers.
#[derive(Default)]
struct Long {
    text: Vec<u8>,
    report: Vec<u8>,
    records: Vec<Numbers>,
    answers: Vec<[u32; 3]>,
    accepted: usize,
}

impl Long {
    fn add(&mut self, part: &Part) {
        self.text.extend(&part.text);
        for (&record, said) in part.records.iter().zip(&part.said) {
            self.accepted += 1;
            let rec = self.accepted;
            let answer = match said {
                None => [1, rec as u32, 0],
                Some(Said { verdict, with }) => {
                    let with = match with {
                        With::Nobody => 0,
                        With::Before(records) => rec - records,
                        With::Head(with) => *with,
                    };
                    self.report.extend(oracle::access_line(rec, record.1, record.2, oracle::word(*verdict), with).bytes());
                    [oracle::answer_of(*verdict), rec as u32, with as u32]
                }
            };
            self.records.push(record);
            self.answers.push(answer);
        }
    }

    fn refuse(&mut self, line: &[u8], record: Numbers, row: u32) {
        self.text.extend(line);
        self.records.push(record);
        self.answers.push([0, row, 0]);
        self.report.extend(format!("line={} refused={row}\n", self.records.len()).bytes());
    }

    /// The totals after each record.
    fn totals(&self) -> impl Iterator<Item = Totals> + '_ {
        let verdicts = [Verdict::Clear, Verdict::Race, Verdict::Doubt];
        let mut so_far = Totals::NONE;
        self.records.iter().zip(&self.answers).map(move |((_, _, on), [said, ..])| {
            let verdict = verdicts.into_iter().find(|verdict| oracle::answer_of(*verdict) == *said);
            verdict.into_iter().for_each(|verdict| so_far.count(*on, verdict));
            so_far
        })
    }
}

fn at_the_limit(pattern: &Pattern) -> Long {
    let beside = pattern.head.records.len() + pattern.tail.records.len();
    let mut long = pattern.unrolled((LIMIT - beside) / pattern.round.records.len(), LIMIT);
    assert_eq!(long.accepted, LIMIT);
    for (line, row) in AFTER {
        let line = format!("{line}\n").into_bytes();
        long.refuse(&line, feeding::records(&line)[0], *row);
    }
    long
}

/// Says where an answer differs.
fn same(got: &[u8], expected: &[u8]) -> Result<(), String> {
    let (mut got_lines, mut lines) = (got.split(|byte| *byte == b'\n'), expected.split(|byte| *byte == b'\n'));
    if got == expected {
        return Ok(());
    }
    for number in 1.. {
        let (one, other) = (got_lines.next(), lines.next());
        if one != other || one.is_none() {
            let shown = |line: Option<&[u8]>| line.map_or("nothing".to_string(), |line| line.escape_ascii().to_string());
            return Err(format!("line {number} of the report is {}, and not {}", shown(one), shown(other)));
        }
    }
    Ok(())
}

const PIECE: usize = 65_536;

/// In large pieces, with memory that is not looked at beyond what is written.
fn by_pieces(kept: &mut Kept, text: &[u8]) -> Result<Vec<u8>, String> {
    let mut memory = vec![0; 64 * PIECE];
    let mut whole = Vec::new();
    for piece in text.chunks(PIECE) {
        let wrote = of_records(kept, piece, &mut memory) as usize;
        whole.extend(memory.get(..wrote).ok_or("a piece is refused")?);
    }
    Ok(whole)
}

/// The peak of a running process's memory, in KB.
fn peak(process: u32) -> Result<usize, String> {
    let status = std::fs::read_to_string(format!("/proc/{process}/status")).map_err(|e| e.to_string())?;
    let line = status.lines().find_map(|line| line.strip_prefix("VmHWM:")).ok_or("there is no VmHWM")?;
    line.trim().trim_end_matches(" kB").parse().map_err(|_| format!("VmHWM is {line}"))
}

/// What `order` wrote of a text, and the peak of its memory once all is read.
fn by_program(order: &str, text: &[u8]) -> Result<(Vec<u8>, usize), String> {
    let since = Instant::now();
    let mut child = start(order, &[])?;
    let mut output = child.stdout.take().unwrap();
    let reader = std::thread::spawn(move || {
        let mut wrote = Vec::new();
        output.read_to_end(&mut wrote).map(|_| wrote)
    });
    let fed = feed(&mut child, &pieces(text, Cuts::Nowhere), since);
    let result = fed.and_then(|input| {
        let peak = peak(child.id());
        drop(input);
        ended(&mut child, since).and(peak)
    });
    let _ = child.kill();
    let _ = child.wait();
    let wrote = reader.join().unwrap().map_err(|e| e.to_string())?;
    result.map(|peak| (wrote, peak))
}

/// The program's memory is fixed: so much more than for a short recording, in KB, would be memory that grows.
const GROWTH: usize = 256;

fn run_program(tally: &mut Tally, order: &str, long: &Long) {
    let short = by_program(order, &examples::examples()[0].text);
    let answer = by_program(order, &long.text);
    let right = answer.as_ref().map_err(String::clone).and_then(|(wrote, _)| same(wrote, &long.report));
    tally.check(right.is_ok(), || format!("program, as long as may be: {}", right.unwrap_err()));
    let peaks = short.and_then(|(_, short)| answer.map(|(_, long)| (short, long)));
    let fixed = peaks.as_ref().is_ok_and(|(short, long)| *long <= short + GROWTH);
    tally.check(fixed, || format!("program, as long as may be: the peaks of its memory are {peaks:?} KB"));
}

/// Each answer, and the totals now and then and at the end.
fn by_records(by: &Reckoning, long: &Long) -> Result<(), String> {
    let mut lent = Lent::fresh(by)?;
    let last = long.records.len() - 1;
    for (at, ((record, expected), totals)) in long.records.iter().zip(&long.answers).zip(long.totals()).enumerate() {
        let answer = lent.feed(*record, expected[0] == 0)?;
        if answer != *expected {
            return Err(format!("record {} of those fed, {record:?}, is answered by {answer:?}, and not {expected:?}", at + 1));
        }
        if at % 500_000 == 0 || at == last {
            lent.expect_totals(&totals)?;
        }
    }
    Ok(())
}

fn run_long(tally: &mut Tally, order: Option<&str>, totals: Option<&str>) {
    let pattern = Pattern::new();
    for rounds in [1, 2, 3, 7] {
        for pad in [0, 1, 5] {
            let records = [&pattern.head, &pattern.tail].map(|part| part.records.len()).iter().sum::<usize>();
            let long = pattern.unrolled(rounds, records + rounds * pattern.round.records.len() + pad);
            tally.expect(&format!("oracle, {rounds} rounds and {pad} acts"), &long.text, &oracle::report_of(&long.text), Ok(long.report));
        }
    }
    let long = at_the_limit(&pattern);
    let verdicts = ["clear", "race", "doubt"].map(|word| long.report.windows(5).filter(|at| at.starts_with(word.as_bytes())).count());
    tally.check(verdicts.iter().all(|count| *count > LIMIT / 32), || format!("edge, too few of some verdicts: {verdicts:?}"));
    let refused = oracle::read(&long.text).fates.iter().filter(|fate| matches!(fate, Fate::Refused(_))).count();
    let expected = AFTER.len() + (LIMIT / pattern.round.records.len() - 1) / SPOILT.0;
    tally.check(refused == expected, || format!("oracle, as long as may be: {refused} lines refused, and not {expected}"));

    let right = entry::report(&long.text, 0).and_then(|got| same(&got, &long.report));
    tally.check(right.is_ok(), || format!("entry, as long as may be: {}", right.unwrap_err()));
    let right = Kept::begun().and_then(|mut kept| by_pieces(&mut kept, &long.text)).and_then(|got| same(&got, &long.report));
    tally.check(right.is_ok(), || format!("pieces, as long as may be: {}", right.unwrap_err()));
    for by in &BOTH {
        let right = by_records(by, &long);
        tally.check(right.is_ok(), || format!("{}, as long as may be: {}", by.name, right.unwrap_err()));
    }
    if let Some(order) = order {
        run_program(tally, order, &long);
    }
    if let Some(totals) = totals {
        run_totals(tally, totals, &long);
    }
}

/// The tables of the program `totals`, at the end, and after so many records too, of which one is the last.
fn run_totals(tally: &mut Tally, program: &str, long: &Long) {
    for every in [0, 50_000, 99_999] {
        let mut expected = String::new();
        let mut last = Totals::NONE;
        for (answer, totals) in long.answers.iter().zip(long.totals()) {
            last = totals;
            if answer[0] > 0 && every > 0 && answer[1] % every == 0 {
                expected += &(totals.table() + "\n");
            }
        }
        expected += &(last.table() + if every > 0 { "\n" } else { "" });
        let words: Vec<String> = (every > 0).then(|| every.to_string()).into_iter().collect();
        let right = program::run(program, &words, &long.text, Cuts::Nowhere).and_then(|got| same(&got, expected.as_bytes()));
        tally.check(right.is_ok(), || format!("totals {every}, as long as may be: {}", right.unwrap_err()));
    }
}

// ---- Recordings that meet the limit

/// So many records may follow when a recording begins.
const LEFT: usize = 120;
const RECORDINGS: u64 = 200;
/// So many of them are given to the entry and to the program.
const WHOLE: u64 = 2;

/// Recordings of all kinds of records, marks and damage, after so many acts of task 0 that the limit comes while they are under way. Where one
/// of them is an `owned`, the recordings are under the profile, and rows 14 to 16 are behind row 5.
fn run_met(tally: &mut Tally, order: Option<&str>, owned: bool) {
    let before = LIMIT - LEFT;
    let (pad, first) = (text(PAD), text(if owned { "owned 0 0" } else { PAD }));
    let (mut acts, act) = ([&first[..], &pad.repeat(before - 1)].concat(), feeding::records(&pad)[0]);
    let length = acts.len();
    let states = BOTH.each_ref().map(|by| {
        let mut lent = Lent::fresh(by)?;
        lent.feed(feeding::records(&first)[0], false)?;
        (1..before).try_for_each(|_| lent.feed(act, false).map(|_| ()))?;
        Ok(lent)
    });
    let kept = Kept::begun().and_then(|mut kept| {
        let wrote = by_pieces(&mut kept, &acts)?;
        wrote.is_empty().then_some(kept).ok_or("acts that are no accesses get a line".to_string())
    });
    for seed in 0..RECORDINGS {
        let mut random = Random::new(6_000_000 + seed + 100_000 * owned as u64);
        let shape = if owned { owned_shape(&mut random) } else { shape(&mut random) };
        let text = recording(&mut random, &Shape { length: LEFT / 2 + shape.length, ..shape });
        let reading = oracle::read_after(before, owned, &text);
        let judged = oracle::judge(&reading.recording);
        let report = oracle::report(&reading, &judged);
        let past = reading.fates.iter().filter(|fate| **fate == Fate::Refused(5)).count();
        tally.see("refused 5", past);
        let name = format!("recording {seed} at the limit{}", if owned { ", under the profile" } else { "" });
        for state in &states {
            feeding::expect_from(tally, &name, state, &feeding::records(&text), &reading, &judged);
        }
        let cuts = WAYS[seed as usize % WAYS.len()];
        let answer = kept.clone().and_then(|mut kept| kept.text(of_records, &text, cuts));
        tally.expect(&format!("pieces, {name}, cut {cuts:?}"), &text, &report, answer);
        if seed < WHOLE {
            acts.truncate(length);
            acts.extend(&text);
            tally.expect(&format!("entry, {name}"), &text, &report, entry::report(&acts, 0));
            if let Some(order) = order {
                tally.expect(&format!("program, {name}"), &text, &report, program::report(order, &acts, Cuts::Nowhere));
            }
        }
    }
}

/// The last record under the profile and what comes after it: row 5 goes before rows 14, 15 and 16, and nobody's holding is forgotten by then.
fn run_owned(tally: &mut Tally, order: Option<&str>) {
    let (head, tail) =
        ("owned 0 0, start 0 1, take 0 31, take 1 0", "take 1 31, give 1 31, lost 3, owned 0 0, give 1 0, take 0 0, give 0 31");
    let after = "take 1 31, give 0 31, give 1 31, take 0 1, lost 3, owned 0 0, lost 0, lost 4, take 0 32, take 16 0, owned 0 1, miss 0 0";
    let rows = [Some(16), Some(16), Some(15), Some(14), None, None, None];
    let rows_after = [5, 5, 5, 5, 5, 5, 4, 5, 3, 2, 3, 5];
    let accepted = LIMIT - rows.iter().filter(|row| row.is_none()).count();
    let mut whole = text(head);
    let mut lines = head.split(", ").count();
    whole.extend(text(PAD).repeat(accepted - lines));
    lines = accepted;
    let mut report = String::new();
    for row in rows.into_iter().chain(rows_after.map(Some)) {
        lines += 1;
        report += &row.map_or(String::new(), |row| format!("line={lines} refused={row}\n"));
    }
    whole.extend(text(&format!("{tail}, {after}")));
    let right = entry::report(&whole, 0).and_then(|got| same(&got, report.as_bytes()));
    tally.check(right.is_ok(), || format!("entry, under the profile at the limit: {}", right.unwrap_err()));
    let right = Kept::begun().and_then(|mut kept| by_pieces(&mut kept, &whole)).and_then(|got| same(&got, report.as_bytes()));
    tally.check(right.is_ok(), || format!("pieces, under the profile at the limit: {}", right.unwrap_err()));
    if let Some(order) = order {
        let right = program::report(order, &whole, Cuts::Nowhere).and_then(|got| same(&got, report.as_bytes()));
        tally.check(right.is_ok(), || format!("program, under the profile at the limit: {}", right.unwrap_err()));
    }
}

/// As many takes as may be that are skipped: one task takes and gives without end, so that all of its takes but the first are. Past the limit
/// nothing counts.
fn run_skipped(tally: &mut Tally, program: Option<&str>) {
    let whole = [text("owned 0 0"), text("take 0 31, give 0 31").repeat(LIMIT / 2), text("take 0 31, take 0 0")].concat();
    // The last of the takes is the last record that is accepted.
    let most = LIMIT as u32 / 2 - 1;
    let records = feeding::records(&whole);
    for by in &BOTH {
        let fed = Lent::fresh(by).and_then(|mut lent| {
            let mut counts = Vec::new();
            for (at, record) in records.iter().enumerate() {
                lent.feed(*record, false)?;
                counts.extend((at < 6 || at + 6 >= records.len()).then(|| lent.skipped()));
            }
            Ok(counts)
        });
        let expected = [0, 0, 0, 1, 1, 2, most - 1, most - 1, most, most, most, most];
        tally
            .check(fed == Ok(expected.to_vec()), || format!("{}, as many skipped takes as may be: {fed:?}, and not {expected:?}", by.name));
    }
    if let Some(program) = program {
        let table = format!("var   clear    race   doubt     all\nall       0       0       0       0\nskipped {most}\n");
        let right = program::run(program, &[], &whole, Cuts::Nowhere).and_then(|got| same(&got, table.as_bytes()));
        tally.check(right.is_ok(), || format!("totals, as many skipped takes as may be: {}", right.unwrap_err()));
    }
}

pub fn run(tally: &mut Tally, order: Option<&str>, totals: Option<&str>) {
    run_long(tally, order, totals);
    tally.part("as many records as may be");
    run_met(tally, order, false);
    tally.part("recordings that meet the limit");
    run_met(tally, order, true);
    run_owned(tally, order);
    run_skipped(tally, totals);
    tally.part("recordings under the profile that meet the limit");
}
