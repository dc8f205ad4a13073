//! Bad input at scale: random bytes, cut and spoilt texts, every length of report memory, and texts of megabytes.

use crate::cuts::{Cuts, WAYS};
use crate::generate::{self, Profile, Random, Shape};
use crate::oracle::{self, Fate, Judged, Record, Verdict, RECORD_DIGITS};
use crate::{entry, feeding, program, streaming, tally::Tally};

const SAMPLE: &str = "op=start task=0 on=1\nop=write task=0 on=5\nop=lost tasks=3\nop=read task=1 on=5\n\nop=join task=0 on=1";
const MEGABYTE: usize = 1 << 20;

/// One text in so many is given to the program too.
const SHARE: usize = 30;

/// The report of a text is that of the plain path search.
fn compare(tally: &mut Tally, order: Option<&str>, text: &[u8]) {
    let expected = oracle::report_of(text);
    tally.expect("entry, bad text", text, &expected, entry::report(text, 0));
    let cuts = streaming::way(text);
    tally.expect(&format!("pieces, bad text, cut {cuts:?}"), text, &expected, streaming::report(text, cuts));
    if let Some(order) = order.filter(|_| tally.passed % SHARE == 0) {
        let cuts = WAYS[tally.passed / SHARE % WAYS.len()];
        tally.expect(&format!("program, bad text, cut {cuts:?}"), text, &expected, program::report(order, text, cuts));
    }
}

fn random_texts(tally: &mut Tally, order: Option<&str>) {
    let pieces: Vec<&[u8]> =
        ["op=", "read", "write", "lost", " task=", " tasks=", " on=", "0", "1", "5", "16", "65535", "\n", "\r\n", " ", "\0"]
            .iter()
            .map(|piece| piece.as_bytes())
            .collect();
    for seed in 0..3_000 {
        let mut random = Random::new(seed);
        let mut text = Vec::new();
        let length = random.below(if seed % 10 == 0 { 4_000 } else { 200 });
        while text.len() < length {
            match seed % 3 {
                0 => text.push(random.next() as u8),
                1 => text.push(random.pick(SAMPLE.as_bytes())),
                _ => text.extend(random.pick(&pieces)),
            }
        }
        compare(tally, order, &text);
    }
}

/// The sample cut at each place from either side, and with each byte spoilt, left out or doubled.
fn spoilt_texts(tally: &mut Tally, order: Option<&str>) {
    let sample = SAMPLE.as_bytes();
    for at in 0..sample.len() {
        compare(tally, order, &sample[..at]);
        compare(tally, order, &sample[at..]);
        compare(tally, order, &[&sample[..at], &sample[at + 1..]].concat());
        for byte in [b'\n', b'\r', b' ', b'=', b'0', b'9', b'a', 0, 0x7f, 0x80, 0xff, sample[at]] {
            compare(tally, order, &[&sample[..at], &[byte], &sample[at + 1..]].concat());
            compare(tally, order, &[&sample[..at], &[byte], &sample[at..]].concat());
        }
    }
}

/// Below the need the entry answers row 11 and touches nothing; from there on it writes the same report.
fn every_length(tally: &mut Tally) {
    for text in ["", "\n", "\n\n", "x", "op=read task=0 on=1", "op=read task=0 on=1\n", "op=lost tasks=1\n\n", SAMPLE] {
        let text = text.as_bytes();
        let expected = oracle::report_of(text);
        let need = 64 * oracle::lines(text).len();
        for length in 0..need + 70 {
            let answer = entry::call(text, length);
            let right = match &answer {
                Ok((entry::TOO_SMALL, _)) => length < need,
                Ok((count, got)) => length >= need && *count == expected.len() as u64 && got == expected.as_bytes(),
                Err(_) => false,
            };
            tally.check(right, || format!("{length} bytes for {:?}: {answer:?}", text.escape_ascii().to_string()));
        }
    }
}

/// All get a large text and answer right, the program in pieces about as large as its reads may be.
fn large(tally: &mut Tally, order: Option<&str>, name: &str, text: &[u8], right: &dyn Fn(&[u8]) -> bool) {
    tally.check(entry::report(text, 0).is_ok_and(|got| right(&got)), || format!("entry, {name}"));
    tally.check(streaming::report(text, Cuts::Every(4_095)).is_ok_and(|got| right(&got)), || format!("pieces, {name}"));
    if let Some(order) = order {
        let cuts = [Cuts::Nowhere, Cuts::Every(4_095), Cuts::Every(65_537)][text.len() % 3];
        tally.check(program::report(order, text, cuts).is_ok_and(|got| right(&got)), || format!("program, {name}, cut {cuts:?}"));
    }
}

fn large_texts(tally: &mut Tally, order: Option<&str>) {
    for (name, line) in [
        ("a long line of letters", b"a".repeat(8 * MEGABYTE)),
        ("a long line of NUL", vec![0; 8 * MEGABYTE]),
        ("a long line of digits", [b"op=read task=0 on=", &b"1".repeat(8 * MEGABYTE)[..]].concat()),
        ("a long line that starts well", [b"op=read task=0 on=1", &b" ".repeat(8 * MEGABYTE)[..]].concat()),
    ] {
        large(tally, order, name, &line, &|got| got == b"line=1 refused=1\n");
        let more = [&line[..], b"\nop=read task=0 on=1\n"].concat();
        let report = b"line=1 refused=1\nrec=0000001 task=0 var=1 verdict=clear with=0000000\n";
        large(tally, order, name, &more, &|got| got == report);
    }
    let refused: String = (1..=300_000).map(|line| format!("line={line} refused=1\n")).collect();
    large(tally, order, "empty lines", &b"\n".repeat(300_000), &|got| got == refused.as_bytes());
    let mixed = b"op=write task=0 on=7\nop=write task=0 on=007\n".repeat(70_000);
    let both = |rec| oracle::access_line(rec, 0, 7, "clear", 0) + &format!("line={} refused=1\n", 2 * rec);
    let report: String = (1..=70_000).map(both).collect();
    large(tally, order, "every other line spoilt", &mixed, &|got| got == report.as_bytes());
}

/// One answer for each access and each refused line, in order, of the form of document 01; verdicts are not judged here.
fn orderly(text: &[u8], report: &[u8]) -> bool {
    let reading = oracle::read(text);
    let report = String::from_utf8_lossy(report);
    let mut answers = report.split_terminator('\n');
    for (at, fate) in reading.fates.iter().enumerate() {
        let answered = match *fate {
            Fate::Refused(row) => answers.next() == Some(&format!("line={} refused={row}", at + 1)),
            Fate::Accepted(rec) => match reading.recording[rec - 1] {
                Record::Act(act) if oracle::is_access(act.op) => answers.next().is_some_and(|line| is_verdict(line, rec, act)),
                _ => true,
            },
        };
        if !answered {
            return false;
        }
    }
    answers.next().is_none() && (report.is_empty() || report.ends_with('\n'))
}

fn is_verdict(line: &str, rec: usize, act: oracle::Act) -> bool {
    let start = format!("rec={rec:0RECORD_DIGITS$} task={} var={} verdict=", act.task, act.on);
    let Some((verdict, with)) = line.strip_prefix(&start).and_then(|rest| rest.split_once(" with=")) else { return false };
    let partner = with.len() == RECORD_DIGITS && with.parse::<usize>().is_ok_and(|with| with < rec && (with == 0) == (verdict == "clear"));
    partner && ["clear", "race", "doubt"].contains(&verdict)
}

/// The verdicts of an orderly report, read back.
fn judged(recording: &[Record], report: &[u8]) -> Vec<Judged> {
    let report = String::from_utf8_lossy(report);
    let verdicts = report.lines().filter_map(|line| line.split_once(" verdict=")?.1.split_once(" with="));
    let judge = |(access, (verdict, with)): (oracle::Access, (&str, &str))| {
        let verdict = match verdict {
            "clear" => Verdict::Clear,
            "race" => Verdict::Race,
            _ => Verdict::Doubt,
        };
        Judged { access, verdict, with: with.parse().unwrap_or(0), apart: Vec::new() }
    };
    oracle::accesses(recording).into_iter().zip(verdicts).map(judge).collect()
}

/// Recordings with all kinds of records, marks and damage, and more records than 16 bits can count. They are too long for the search, so the
/// running state and the sets are held against the entry.
fn long_texts(tally: &mut Tally, order: Option<&str>) {
    let profile = |after| Some(Profile { after, wrong: 10 });
    let kinds = [(5, 0, 0, None), (5, 10, 10, None), (5, 30, 40, None), (0, 0, 0, profile(0)), (5, 1, 10, profile(60_000))];
    for (seed, (marks, stray, damage, owned)) in kinds.into_iter().enumerate() {
        let (length, tasks, variables, objects, named) = (120_000, 16, 64, 32, usize::MAX);
        let shape = Shape { length, tasks, variables, objects, marks, named, idle: 30, stay: 0, stray, damage, owned };
        let text = generate::recording(&mut Random::new(seed as u64), &shape);
        large(tally, order, &format!("long, {seed}"), &text, &|got| orderly(&text, got));
        let reading = oracle::read(&text);
        let judged = judged(&reading.recording, &entry::report(&text, 0).unwrap_or_default());
        feeding::expect(tally, &format!("long, {seed}, as the entry"), &feeding::records(&text), &reading, &judged);
    }
    let text = generate::recording(&mut Random::new(9), &Shape { length: 200, ..generate::shape(&mut Random::new(9)) });
    let report = entry::report(&text, 0).unwrap_or_default();
    let cut = &report[..report.len() / 2];
    tally.check(orderly(&text, &report) && !orderly(&text, cut) && !orderly(&text, &report.repeat(2)), || "orderly() itself".to_string());
}

pub fn run(tally: &mut Tally, order: Option<&str>) {
    random_texts(tally, order);
    tally.part("random texts");
    spoilt_texts(tally, order);
    tally.part("spoilt texts");
    every_length(tally);
    tally.part("every length of report memory");
    large_texts(tally, order);
    tally.part("large texts");
    long_texts(tally, order);
    tally.part("long texts");
}
