//! The plain path search: document 01 read word for word over an explicit list of records. It shares nothing with the checker.

use std::fmt::Write;

pub const TASKS: u32 = 16;
pub const VARIABLES: usize = 64;
/// So many records are accepted, and no more.
pub const LIMIT: usize = 4_000_000;
/// So many digits have `rec` and `with` in a report.
pub const RECORD_DIGITS: usize = 7;

#[derive(Clone, Copy, PartialEq, Eq, Debug)]
pub enum Op {
    Read,
    Write,
    Take,
    Give,
    Look,
    Set,
    Start,
    Join,
    Fresh,
    Miss,
    Bump,
    Owned,
}

use Op::*;

/// The series that a number belongs to. They are separate, so that semaphore 3 is not flag 3.
#[derive(Clone, Copy, PartialEq, Eq, Debug)]
pub enum Series {
    Task,
    Semaphore,
    Flag,
    Variable,
    Profile,
}

impl Series {
    /// Its highest number.
    fn last(self) -> u32 {
        match self {
            Series::Task => 15,
            Series::Semaphore | Series::Flag => 31,
            Series::Variable => 63,
            Series::Profile => 0,
        }
    }
}

/// The ops: word, kind number, the series that `on` belongs to.
pub const OPS: &[(&str, u8, Op, Series)] = &[
    ("read", 0, Read, Series::Variable),
    ("write", 1, Write, Series::Variable),
    ("take", 2, Take, Series::Semaphore),
    ("give", 3, Give, Series::Semaphore),
    ("look", 4, Look, Series::Flag),
    ("set", 5, Set, Series::Flag),
    ("start", 6, Start, Series::Task),
    ("join", 7, Join, Series::Task),
    ("fresh", 9, Fresh, Series::Variable),
    ("miss", 10, Miss, Series::Semaphore),
    ("bump", 11, Bump, Series::Variable),
    ("owned", 12, Owned, Series::Profile),
];

/// The kind number of a loss mark.
pub const LOST: u8 = 8;

/// The first number of no kind.
pub const NO_KIND: u8 = {
    let (mut highest, mut at) = (LOST, 0);
    while at < OPS.len() {
        if highest < OPS[at].1 {
            highest = OPS[at].1;
        }
        at += 1;
    }
    highest + 1
};

/// What a task does: the op, the acting task and the number.
#[derive(Clone, Copy, Debug)]
pub struct Act {
    pub op: Op,
    pub task: u32,
    pub on: u32,
}

#[derive(Clone, Copy, Debug)]
pub enum Record {
    Act(Act),
    Lost(u32),
}

// ---- Text

/// The lines of a text: each ended by LF; a non-empty rest without LF is a line too.
pub fn lines(text: &[u8]) -> Vec<&[u8]> {
    let mut parts: Vec<&[u8]> = text.split(|&byte| byte == b'\n').collect();
    if parts.last() == Some(&&b""[..]) {
        parts.pop();
    }
    parts
}

/// `op=W task=T on=N` or `op=lost tasks=M`, single spaces; nothing else yields a record.
pub fn read_line(line: &[u8]) -> Option<Record> {
    let line = std::str::from_utf8(line).ok()?;
    let parts: Vec<&str> = line.split(' ').collect();
    match parts[..] {
        ["op=lost", tasks] => Some(Record::Lost(number(tasks.strip_prefix("tasks=")?)?)),
        [op, task, on] => {
            let word = op.strip_prefix("op=")?;
            let op = OPS.iter().find(|op| op.0 == word)?.2;
            let task = number(task.strip_prefix("task=")?)?;
            let on = number(on.strip_prefix("on=")?)?;
            Some(Record::Act(Act { op, task, on }))
        }
        _ => None,
    }
}

/// 1 to 5 digits and no needless leading zero.
fn number(digits: &str) -> Option<u32> {
    let right_length = (1..=5).contains(&digits.len());
    let only_digits = digits.bytes().all(|byte| byte.is_ascii_digit());
    let needless_zero = digits.len() > 1 && digits.starts_with('0');
    if right_length && only_digits && !needless_zero {
        digits.parse().ok()
    } else {
        None
    }
}

/// A record fed without text: its kind by number. A mark has its mask in `on` and no task.
pub fn record_of(kind: u8, task: u32, on: u32) -> Option<Record> {
    match OPS.iter().find(|op| op.1 == kind) {
        Some(&(_, _, op, _)) => Some(Record::Act(Act { op, task, on })),
        None => (kind == LOST).then_some(Record::Lost(on)),
    }
}

// ---- Refusals

#[derive(Clone, Copy, PartialEq, Eq)]
enum Life {
    Unseen,
    Live,
    Ended,
}

/// The accepted records so far and what became of each task.
struct Accepted {
    /// So many were accepted before these.
    before: usize,
    records: Vec<Record>,
    life: [Life; TASKS as usize],
    /// The recording follows the profile of owned semaphores.
    profile: bool,
}

fn fresh(before: usize, profile: bool) -> Accepted {
    let mut life = [Life::Unseen; TASKS as usize];
    life[0] = Life::Live;
    Accepted { before, records: Vec::new(), life, profile }
}

/// Under the profile, the task that holds a semaphore: going back, whoever took it and has not given it since. All are free where the profile
/// begins. A miss is no take, and a join frees nothing.
pub fn holder(records: &[Record], semaphore: u32) -> Option<u32> {
    for record in records.iter().rev() {
        match *record {
            Record::Act(Act { op: Take, task, on }) if on == semaphore => return Some(task),
            Record::Act(Act { op: Give, on, .. }) if on == semaphore => return None,
            Record::Act(Act { op: Owned, .. }) => return None,
            _ => {}
        }
    }
    None
}

fn named(mask: u32) -> impl Iterator<Item = u32> {
    (0..TASKS).filter(move |task| mask >> task & 1 == 1)
}

/// The series that an op's `on` belongs to.
pub fn series(op: Op) -> Series {
    OPS.iter().find(|known| known.2 == op).unwrap().3
}

/// The first of rows 1 to 9 and 14 to 16 that applies.
fn refusal(so_far: &Accepted, record: Option<Record>) -> Option<u32> {
    let live = |task: u32| so_far.life[task as usize] == Life::Live;
    let full = so_far.before + so_far.records.len() >= LIMIT;
    let holder = |semaphore: u32| holder(&so_far.records, semaphore);
    match record {
        None => Some(1),
        Some(Record::Act(Act { op, task, on })) => {
            if task > 15 {
                Some(2)
            } else if on > series(op).last() {
                Some(3)
            } else if full {
                Some(5)
            } else if !live(task) {
                Some(6)
            } else if op == Start && so_far.life[on as usize] != Life::Unseen {
                Some(7)
            } else if op == Join && on == task {
                Some(8)
            } else if op == Join && !live(on) {
                Some(9)
            } else if op == Owned && so_far.profile {
                Some(14)
            } else if so_far.profile && (op == Take && holder(on).is_some() || op == Give && holder(on) != Some(task)) {
                Some(16)
            } else {
                None
            }
        }
        Some(Record::Lost(mask)) => {
            if mask == 0 || mask > 65_535 {
                Some(4)
            } else if full {
                Some(5)
            } else if !named(mask).all(live) {
                Some(9)
            } else if so_far.profile {
                Some(15)
            } else {
                None
            }
        }
    }
}

fn accept(so_far: &mut Accepted, record: Record) {
    if let Record::Act(Act { op, on, .. }) = record {
        match op {
            Start => so_far.life[on as usize] = Life::Live,
            Join => so_far.life[on as usize] = Life::Ended,
            Owned => so_far.profile = true,
            _ => {}
        }
    }
    so_far.records.push(record);
}

/// What became of one line or record.
#[derive(Clone, Copy, PartialEq, Eq)]
pub enum Fate {
    /// Accepted, with its record number.
    Accepted(usize),
    /// Refused, with the row's number.
    Refused(u32),
}

pub struct Reading {
    /// So many records were accepted before, each the line of a text: they were acts of task 0 and nothing more, so that they make no pair
    /// and no path, and all that they do is to be counted. One of them may have been an `owned`.
    pub before: usize,
    /// It was.
    pub owned_before: bool,
    pub recording: Vec<Record>,
    pub fates: Vec<Fate>,
}

/// Feeds each line of a text to a state that starts fresh.
pub fn read(text: &[u8]) -> Reading {
    read_after(0, false, text)
}

/// The same after so many acts of task 0, one of them an `owned` or not.
pub fn read_after(before: usize, profile: bool, text: &[u8]) -> Reading {
    feed_after(fresh(before, profile), lines(text).into_iter().map(read_line))
}

/// Feeds records, or what stands for one and is none, to a state that starts fresh.
pub fn feed(records: impl Iterator<Item = Option<Record>>) -> Reading {
    feed_after(fresh(0, false), records)
}

fn feed_after(mut so_far: Accepted, records: impl Iterator<Item = Option<Record>>) -> Reading {
    let (before, owned_before) = (so_far.before, so_far.profile);
    let mut fates = Vec::new();
    for record in records {
        fates.push(match (refusal(&so_far, record), record) {
            (None, Some(record)) => {
                accept(&mut so_far, record);
                Fate::Accepted(so_far.records.len())
            }
            (row, _) => Fate::Refused(row.unwrap_or(1)),
        });
    }
    Reading { before, owned_before, recording: so_far.records, fates }
}

// ---- Order

/// A step from an event to a later one: the five rules.
pub fn step(i: &Act, j: &Act) -> bool {
    i.task == j.task
        || (i.op == Give && j.op == Take && i.on == j.on)
        || (i.op == Set && j.op == Look && i.on == j.on)
        || (i.op == Start && i.on == j.task)
        || (j.op == Join && j.on == i.task)
}

/// An act of a completion; `rec` is the record number if it arrived, 0 if it was filled in.
#[derive(Clone, Copy)]
pub struct Event {
    pub act: Act,
    pub rec: usize,
}

/// A completion: for each mark the list that `fill` makes of its mask; all else as it is.
pub fn complete(recording: &[Record], mut fill: impl FnMut(u32) -> Vec<Act>) -> Vec<Event> {
    let mut events = Vec::new();
    for (at, record) in recording.iter().enumerate() {
        match record {
            Record::Act(act) => events.push(Event { act: *act, rec: at + 1 }),
            Record::Lost(mask) => events.extend(fill(*mask).into_iter().map(|act| Event { act, rec: 0 })),
        }
    }
    events
}

/// The recording as it arrived: a mark has no step to or from it, so an empty list stands for it.
pub fn as_arrived(_mask: u32) -> Vec<Act> {
    Vec::new()
}

/// The fullest list for a mark: two rounds, lowest task first; each takes and looks at all, then gives and sets all.
pub fn fullest(mask: u32) -> Vec<Act> {
    let mut list = Vec::new();
    for _round in 0..2 {
        for task in named(mask) {
            for op in [Take, Look, Give, Set] {
                list.extend((0..32).map(|on| Act { op, task, on }));
            }
        }
    }
    list
}

/// A read, a write or a bump.
pub fn is_access(op: Op) -> bool {
    matches!(op, Read | Write | Bump)
}

/// Two accesses of which one writes at least; a bump and a read do too, and two bumps never.
fn clash(a: Op, b: Op) -> bool {
    match (a, b) {
        (Write, _) | (_, Write) => true,
        (Bump, Read) | (Read, Bump) => true,
        _ => false,
    }
}

/// An accepted access.
#[derive(Clone, Copy)]
pub struct Access {
    pub rec: usize,
    pub task: u32,
    pub var: u32,
    pub op: Op,
    /// The record number of the last fresh of its variable before it; 0 where there is none.
    pub since: usize,
}

pub fn accesses(recording: &[Record]) -> Vec<Access> {
    let mut list = Vec::new();
    let mut since = [0; VARIABLES];
    for (at, record) in recording.iter().enumerate() {
        match *record {
            Record::Act(Act { op: Fresh, on, .. }) => since[on as usize] = at + 1,
            Record::Act(Act { op, task, on }) if is_access(op) => {
                list.push(Access { rec: at + 1, task, var: on, op, since: since[on as usize] })
            }
            _ => {}
        }
    }
    list
}

/// The earlier access `a` conflicts with `b`, and is one of those since the last fresh of the variable.
pub fn conflict(a: &Access, b: &Access) -> bool {
    a.var == b.var && a.task != b.task && clash(a.op, b.op) && a.rec > b.since
}

/// Which event has a path to which, asked by places in the list of accesses.
pub struct Paths {
    /// Where each access stands among the events.
    pub places: Vec<usize>,
    words: usize,
    /// For each event, a bit for each event that has a path to it.
    bits: Vec<u64>,
}

impl Paths {
    pub fn has(&self, from: usize, to: usize) -> bool {
        self.leads(self.places[from], self.places[to])
    }

    /// The same, asked by places among the events.
    pub fn leads(&self, from: usize, to: usize) -> bool {
        holds(&self.bits[to * self.words..], from)
    }
}

fn holds(row: &[u64], at: usize) -> bool {
    row[at / 64] >> (at % 64) & 1 == 1
}

/// Closes the step relation: to an event leads each earlier one with a step to it, and all that leads to that one.
/// Going backwards, one already found brings nothing new.
pub fn paths(events: &[Event]) -> Paths {
    let words = events.len().div_ceil(64);
    let mut bits = vec![0u64; words * events.len()];
    for j in 0..events.len() {
        let (before, here) = bits.split_at_mut(j * words);
        for i in (0..j).rev() {
            if !holds(here, i) && step(&events[i].act, &events[j].act) {
                here[i / 64] |= 1 << (i % 64);
                for (to, from) in here.iter_mut().zip(&before[i * words..][..words]) {
                    *to |= from;
                }
            }
        }
    }
    let places = (0..events.len()).filter(|&at| events[at].rec > 0 && is_access(events[at].act.op)).collect();
    Paths { places, words, bits }
}

// ---- Verdicts

#[derive(Clone, Copy, PartialEq, Eq, Debug)]
pub enum Verdict {
    Clear,
    Race,
    Doubt,
}

/// Some earlier access of the recording conflicts with this one, and no path leads from that one to it.
pub fn racy(accesses: &[Access], paths: &Paths, this: usize) -> bool {
    (0..this).any(|earlier| conflict(&accesses[earlier], &accesses[this]) && !paths.has(earlier, this))
}

/// The latest conflicting earlier access of each task that has one, the lowest task first.
pub fn pairs(accesses: &[Access], this: usize) -> impl Iterator<Item = usize> {
    let mut latest = [None; TASKS as usize];
    for earlier in (0..this).filter(|&earlier| conflict(&accesses[earlier], &accesses[this])) {
        latest[accesses[earlier].task as usize] = Some(earlier);
    }
    latest.into_iter().flatten()
}

/// Those of them from which no path leads to this one.
fn apart(accesses: &[Access], paths: &Paths, this: usize) -> Vec<Access> {
    pairs(accesses, this).filter(|&latest| !paths.has(latest, this)).map(|latest| accesses[latest]).collect()
}

pub struct Judged {
    pub access: Access,
    pub verdict: Verdict,
    /// The record number of the partner: the first of those apart.
    pub with: usize,
    /// For Race the latest conflicting accesses without a path in any completion, for Doubt as it arrived; the lowest task first.
    pub apart: Vec<Access>,
}

/// Race: racy even in the fullest completion. Clear: not racy even as it arrived. Doubt: otherwise.
pub fn judge(recording: &[Record]) -> Vec<Judged> {
    let accesses = accesses(recording);
    let arrived = paths(&complete(recording, as_arrived));
    let full = paths(&complete(recording, fullest));
    let mut list = Vec::new();
    for this in 0..accesses.len() {
        let (verdict, apart) = match (racy(&accesses, &full, this), racy(&accesses, &arrived, this)) {
            (true, true) => (Verdict::Race, apart(&accesses, &full, this)),
            (false, true) => (Verdict::Doubt, apart(&accesses, &arrived, this)),
            (false, false) => (Verdict::Clear, Vec::new()),
            (true, false) => panic!("the oracle contradicts itself: racy in the fullest completion alone"),
        };
        assert_eq!(apart.is_empty(), verdict == Verdict::Clear, "the oracle contradicts itself: a racy access without a partner");
        list.push(Judged { access: accesses[this], verdict, with: apart.first().map_or(0, |lowest| lowest.rec), apart });
    }
    list
}

// ---- Takes without clock work

/// The task that gave a semaphore last, going back no further than where the profile began.
fn last_giver(records: &[Record], semaphore: u32) -> Option<u32> {
    for record in records.iter().rev() {
        match *record {
            Record::Act(Act { op: Give, task, on }) if on == semaphore => return Some(task),
            Record::Act(Act { op: Owned, .. }) => return None,
            _ => {}
        }
    }
    None
}

/// Under the profile, and after these records: a take whose semaphore was last given by the same task.
fn is_skipped(before: &[Record], record: &Record) -> bool {
    matches!(*record, Record::Act(Act { op: Take, task, on }) if last_giver(before, on) == Some(task))
}

// ---- Totals

/// How many accesses of each variable were Clear, Race and Doubt; and how many takes were skipped, where the recording is under the profile.
#[derive(Clone, Copy)]
pub struct Totals {
    pub accesses: [[u32; 3]; VARIABLES],
    pub skipped: Option<u32>,
}

impl Totals {
    pub const NONE: Totals = Totals { accesses: [[0; 3]; VARIABLES], skipped: None };

    /// One more accepted record, after these.
    pub fn follow(&mut self, before: &[Record], record: &Record) {
        if let Record::Act(Act { op: Owned, .. }) = record {
            self.skipped = Some(0);
        }
        self.skipped = self.skipped.map(|skipped| skipped + is_skipped(before, record) as u32);
    }

    pub fn count(&mut self, var: u32, verdict: Verdict) {
        let of_verdict = match verdict {
            Verdict::Clear => 0,
            Verdict::Race => 1,
            Verdict::Doubt => 2,
        };
        self.accesses[var as usize][of_verdict] += 1;
    }

    pub fn any_race(&self) -> bool {
        self.accesses.iter().any(|of_variable| of_variable[1] > 0)
    }

    /// The table: a head, a line for each variable that was accessed, and the sums, in five right-aligned columns; under the profile a line more.
    pub fn table(&self) -> String {
        let mut out = format!("{:>3} {:>7} {:>7} {:>7} {:>7}\n", "var", "clear", "race", "doubt", "all");
        let mut line = |name: &str, [clear, race, doubt]: [u32; 3]| {
            writeln!(out, "{name:>3} {clear:>7} {race:>7} {doubt:>7} {:>7}", clear + race + doubt).unwrap();
        };
        let mut sums = [0; 3];
        for (variable, of_variable) in self.accesses.iter().enumerate().filter(|(_, of_variable)| **of_variable != [0; 3]) {
            line(&variable.to_string(), *of_variable);
            sums.iter_mut().zip(of_variable).for_each(|(sum, count)| *sum += count);
        }
        line("all", sums);
        out + &self.skipped.map_or(String::new(), |skipped| format!("skipped {skipped}\n"))
    }
}

/// The totals after each line or record.
pub fn totals<'a>(reading: &'a Reading, judged: &'a [Judged]) -> impl Iterator<Item = Totals> + 'a {
    let mut so_far = Totals { skipped: reading.owned_before.then_some(0), ..Totals::NONE };
    let mut judged = judged.iter().peekable();
    reading.fates.iter().map(move |fate| {
        if let Fate::Accepted(rec) = *fate {
            so_far.follow(&reading.recording[..rec - 1], &reading.recording[rec - 1]);
            judged.next_if(|one| one.access.rec == rec).into_iter().for_each(|one| so_far.count(one.access.var, one.verdict));
        }
        so_far
    })
}

/// The tables of a recording: one after every so many accepted records, none where `every` is 0, and one at the end if it has ended. An empty
/// line follows each where there may be several.
pub fn tables(reading: &Reading, judged: &[Judged], every: usize, ended: bool) -> String {
    let mut out = String::new();
    let mut show = |totals: &Totals| out += &(totals.table() + if every > 0 { "\n" } else { "" });
    let mut last = Totals::NONE;
    for (fate, totals) in reading.fates.iter().zip(totals(reading, judged)) {
        last = totals;
        match *fate {
            Fate::Accepted(rec) if every > 0 && rec % every == 0 => show(&last),
            _ => {}
        }
    }
    if ended {
        show(&last);
    }
    out
}

// ---- Report

pub fn word(verdict: Verdict) -> &'static str {
    match verdict {
        Verdict::Clear => "clear",
        Verdict::Race => "race",
        Verdict::Doubt => "doubt",
    }
}

/// The word for a verdict, and the partner.
pub fn said(one: &Judged) -> (&'static str, usize) {
    (word(one.verdict), one.with)
}

/// The line of an accepted access.
pub fn access_line(rec: usize, task: u32, var: u32, verdict: &str, with: usize) -> String {
    format!("rec={rec:0RECORD_DIGITS$} task={task} var={var} verdict={verdict} with={with:0RECORD_DIGITS$}\n")
}

impl Reading {
    /// The number that a record has in an answer, by its place among these; 0 is none.
    fn number(&self, rec: usize) -> usize {
        (rec > 0).then_some(self.before + rec).unwrap_or(0)
    }
}

/// One line for an accepted access, one for a refused line, none for other records.
pub fn report(reading: &Reading, judged: &[Judged]) -> String {
    report_as(reading, judged, said)
}

/// The same with what `said` makes of each verdict.
pub fn report_as(reading: &Reading, judged: &[Judged], said: impl Fn(&Judged) -> (&'static str, usize)) -> String {
    let mut out = String::new();
    for (at, fate) in reading.fates.iter().enumerate() {
        match *fate {
            Fate::Refused(row) => writeln!(out, "line={} refused={row}", reading.before + at + 1).unwrap(),
            Fate::Accepted(rec) => {
                if let Ok(found) = judged.binary_search_by_key(&rec, |one| one.access.rec) {
                    let Access { task, var, .. } = judged[found].access;
                    let (verdict, with) = said(&judged[found]);
                    out += &access_line(reading.number(rec), task, var, verdict, reading.number(with));
                }
            }
        }
    }
    out
}

/// What the answer is to an access with this verdict, fed without text.
pub fn answer_of(verdict: Verdict) -> u32 {
    match verdict {
        Verdict::Clear => 2,
        Verdict::Race => 3,
        Verdict::Doubt => 4,
    }
}

/// The same for records fed without text, three numbers for each: what the answer is, the refusal's or the record's number, the partner's.
pub fn answers(reading: &Reading, judged: &[Judged]) -> Vec<[u32; 3]> {
    let answer = |fate: &Fate| match *fate {
        Fate::Refused(row) => [0, row, 0],
        Fate::Accepted(rec) => match judged.binary_search_by_key(&rec, |one| one.access.rec) {
            Ok(found) => {
                let Judged { verdict, with, .. } = judged[found];
                [answer_of(verdict), reading.number(rec) as u32, reading.number(with) as u32]
            }
            Err(_) => [1, reading.number(rec) as u32, 0],
        },
    };
    reading.fates.iter().map(answer).collect()
}

pub fn report_of(text: &[u8]) -> String {
    let reading = read(text);
    report(&reading, &judge(&reading.recording))
}
