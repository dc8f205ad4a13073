//! A planner's file of entries, and a report with them: document 02, F-7 and the entries of F-9, read word for word over the plain path search. It
//! shares nothing with the checker.

use crate::oracle::{self, Judged, Reading, Verdict, LIMIT, TASKS, VARIABLES};

/// So many entries are taken in, and no more.
pub const MOST: usize = 200;

/// So many digits may `rec` have, and no others. However many, they mean the same number.
pub const DIGITS: [usize; 2] = [5, 7];

#[derive(Clone, Copy, Debug)]
pub struct Entry {
    /// Where the fault was seen.
    pub rec: usize,
    /// In how many digits that is written.
    pub digits: usize,
    pub var: u32,
    /// The two tasks.
    pub low: u32,
    pub high: u32,
    pub accepted: bool,
}

impl Entry {
    pub fn line(&self) -> String {
        let Entry { rec, digits, var, low, high, accepted } = self;
        format!("rec={rec:0digits$} var={var} low={low} high={high} mark={}", if *accepted { "accepted" } else { "open" })
    }

    fn in_range(&self) -> bool {
        let rec = (1..=LIMIT).contains(&self.rec) && DIGITS.contains(&self.digits);
        rec && (self.var as usize) < VARIABLES && self.low < self.high && self.high < TASKS
    }
}

/// A line is an entry if it is just the text of one that is in its ranges.
pub fn read_line(line: &[u8]) -> Option<Entry> {
    let line = std::str::from_utf8(line).ok()?;
    let parts: Vec<&str> = line.split(' ').collect();
    let [rec, var, low, high, mark] = parts[..] else { return None };
    let number = |part: &str, name| part.strip_prefix(name)?.parse::<u32>().ok();
    let entry = Entry {
        rec: number(rec, "rec=")? as usize,
        digits: rec.len() - "rec=".len(),
        var: number(var, "var=")?,
        low: number(low, "low=")?,
        high: number(high, "high=")?,
        accepted: mark == "mark=accepted",
    };
    (entry.in_range() && entry.line() == line).then_some(entry)
}

/// What became of the lines of a file.
pub struct Entries {
    pub taken: Vec<Entry>,
    /// The others: each one's line in the file, and its refusal.
    pub refused: Vec<(usize, u32)>,
}

/// 12 is looked at first. Whatever is taken in counts, also where it replaces another.
pub fn read(file: &[u8]) -> Entries {
    let mut entries = Entries { taken: Vec::new(), refused: Vec::new() };
    for (at, line) in oracle::lines(file).into_iter().enumerate() {
        match read_line(line) {
            None => entries.refused.push((at + 1, 12)),
            Some(_) if entries.taken.len() >= MOST => entries.refused.push((at + 1, 13)),
            Some(entry) => entries.taken.push(entry),
        }
    }
    entries
}

impl Entries {
    /// Of the entries for a variable and a pair the latest holds.
    pub fn accepts(&self, var: u32, one: u32, other: u32) -> bool {
        let same = |entry: &&Entry| entry.var == var && (entry.low, entry.high) == (one.min(other), one.max(other));
        self.taken.iter().rev().find(same).is_some_and(|latest| latest.accepted)
    }

    /// The word for a verdict, and the partner. A Race is known where it is accepted with every task that it is apart from; otherwise its
    /// partner is among the others.
    fn said(&self, one: &Judged) -> (&'static str, usize) {
        let accepted = |task| self.accepts(one.access.var, one.access.task, task);
        match (one.verdict, one.apart.iter().find(|other| !accepted(other.task))) {
            (Verdict::Race, Some(other)) => ("race", other.rec),
            (Verdict::Race, None) => ("known", one.with),
            _ => oracle::said(one),
        }
    }

    /// The refused entries, and the report after them.
    pub fn report(&self, reading: &Reading, judged: &[Judged]) -> String {
        let refused: String = self.refused.iter().map(|(line, row)| format!("entry={line} refused={row}\n")).collect();
        refused + &oracle::report_as(reading, judged, |one| self.said(one))
    }
}
