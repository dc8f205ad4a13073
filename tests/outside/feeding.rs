//! The running state, by its tables and whole, and the sets, fed without text, in lent tables with guard cells on both sides.

use crate::oracle::{self, Act, Judged, Reading, Record, Totals, VARIABLES};
use crate::tally::Tally;

const GUARD: usize = 64;
const FILL: u32 = 0xa5a5_a5a5;
/// How many records before the one that differs are printed.
const SHOWN: usize = 60;

/// A record as it is fed: the number of its kind, its task, and its number or mask.
pub type Numbers = (u8, u32, u32);

type Begin = unsafe extern "C" fn(*mut u32, *mut u32, *mut u32, *mut u32);
type Feed = unsafe extern "C" fn(*mut u32, *mut u32, *mut u32, *mut u32, u8, u32, u32, *mut u32);

extern "C" {
    fn order_begin(control: *mut u32, last: *mut u32, clocks: *mut u32, fullclocks: *mut u32);
    fn order_feed(
        control: *mut u32,
        last: *mut u32,
        clocks: *mut u32,
        fullclocks: *mut u32,
        kind: u8,
        task: u32,
        on: u32,
        answer: *mut u32,
    );
    fn order_sets_begin(control: *mut u32, last: *mut u32, sets: *mut u32, fullsets: *mut u32);
    fn order_sets_feed(
        control: *mut u32,
        last: *mut u32,
        sets: *mut u32,
        fullsets: *mut u32,
        kind: u8,
        task: u32,
        on: u32,
        answer: *mut u32,
    );
    fn order_step(state: *mut u32, kind: u8, task: u32, on: u32, answer: *mut u32);
    fn order_totals(control: *const u32, variable: u32, totals: *mut u32) -> u32;
    fn order_any_race(control: *const u32) -> u32;
    fn order_skipped(control: *const u32) -> u32;
}

/// The whole state is lent by its first cell, and its tables follow each other.
unsafe extern "C" fn step(
    control: *mut u32,
    _last: *mut u32,
    _clocks: *mut u32,
    _fullclocks: *mut u32,
    kind: u8,
    task: u32,
    on: u32,
    answer: *mut u32,
) {
    order_step(control, kind, task, on, answer)
}

/// One of the reckonings: how large its tables are, how many guard cells stand before each and after the last, and its calls.
pub struct Reckoning {
    pub name: &'static str,
    sizes: [usize; 4],
    guards: [usize; 5],
    begin: Begin,
    feed: Feed,
}

const CONTROL: usize = 1301;
pub const CLOCKS: Reckoning =
    Reckoning { name: "clocks", sizes: [CONTROL, 3072, 1312, 1312], guards: [GUARD; 5], begin: order_begin, feed: order_feed };
pub const SETS: Reckoning =
    Reckoning { name: "sets", sizes: [CONTROL, 3072, 7872, 7872], guards: [GUARD; 5], begin: order_sets_begin, feed: order_sets_feed };
const WHOLE: Reckoning = Reckoning { name: "whole state", guards: [GUARD, 0, 0, 0, GUARD], feed: step, ..CLOCKS };
/// The clocks and the sets.
pub const BOTH: [Reckoning; 2] = [CLOCKS, SETS];
/// The same, and the clocks once more, as a whole state.
pub const ALL: [Reckoning; 3] = [CLOCKS, SETS, WHOLE];

/// A state in one piece of memory, a guard before, between and after its tables.
#[derive(Clone)]
pub struct Lent<'a> {
    by: &'a Reckoning,
    pub memory: Vec<u32>,
}

impl Lent<'_> {
    /// Tables that hold these numbers.
    pub fn holding(by: &Reckoning, mut cell: impl FnMut() -> u32) -> Lent<'_> {
        let mut memory = vec![FILL; by.guards[0]];
        for (size, guard) in by.sizes.into_iter().zip(&by.guards[1..]) {
            memory.extend((0..size).map(|_| cell()));
            memory.resize(memory.len() + guard, FILL);
        }
        Lent { by, memory }
    }

    /// Tables that held anything and are made those of a fresh state.
    pub fn fresh(by: &Reckoning) -> Result<Lent<'_>, String> {
        let mut lent = Lent::holding(by, || FILL);
        let [control, last, arrived, full] = lent.tables();
        // SAFETY: the pointers are valid for the sizes of the tables, which do not overlap.
        unsafe { (by.begin)(control, last, arrived, full) };
        lent.guarded().then_some(lent).ok_or("begin changed cells beside the tables".to_string())
    }

    pub fn tables(&mut self) -> [*mut u32; 4] {
        let mut after = self.memory.as_mut_ptr();
        [0, 1, 2, 3].map(|at| {
            let table = after.wrapping_add(self.by.guards[at]);
            after = table.wrapping_add(self.by.sizes[at]);
            table
        })
    }

    pub fn guarded(&self) -> bool {
        let mut place = 0;
        self.by.guards.iter().zip(self.by.sizes.iter().chain(&[0])).all(|(guard, size)| {
            let cells = &self.memory[place..][..*guard];
            place += guard + size;
            cells.iter().all(|cell| *cell == FILL)
        })
    }

    /// Feeds a record. Answers what was written, or says what was spoilt. If it is `watched` and refused, the state must be as it was.
    pub fn feed(&mut self, (kind, task, on): Numbers, watched: bool) -> Result<[u32; 3], String> {
        let before = if watched { self.memory.clone() } else { Vec::new() };
        let mut memory = [FILL; GUARD + 3 + GUARD];
        let [control, last, arrived, full] = self.tables();
        // SAFETY: as above, and the answer has its three cells.
        unsafe { (self.by.feed)(control, last, arrived, full, kind, task, on, memory[GUARD..].as_mut_ptr()) };
        let answer = [memory[GUARD], memory[GUARD + 1], memory[GUARD + 2]];
        if !self.guarded() || memory[..GUARD] != [FILL; GUARD] || memory[GUARD + 3..] != [FILL; GUARD] {
            return Err(format!("{answer:?}, and cells beside the tables or the answer are changed"));
        }
        if watched && answer[0] == 0 && self.memory != before {
            return Err(format!("{answer:?}, and the state is not as it was"));
        }
        Ok(answer)
    }

    /// A variable's totals, or what the memory for them held where there are none.
    fn totals(&mut self, variable: u32) -> (u32, [u32; 5]) {
        let mut memory = [FILL; 5];
        let [control, ..] = self.tables();
        // SAFETY: the control table and the three cells are valid and do not overlap.
        let known = unsafe { order_totals(control, variable, memory[1..].as_mut_ptr()) };
        (known, memory)
    }

    /// How many takes were skipped.
    pub fn skipped(&mut self) -> u32 {
        let [control, ..] = self.tables();
        // SAFETY: the control table is valid.
        unsafe { order_skipped(control) }
    }

    /// The totals of all variables, whether there was a Race anywhere, and the takes skipped are just these; there are none of other numbers.
    pub fn expect_totals(&mut self, expected: &Totals) -> Result<(), String> {
        for (variable, &[clear, race, doubt]) in expected.accesses.iter().enumerate() {
            let totals = self.totals(variable as u32);
            if totals != (1, [FILL, clear, race, doubt, FILL]) {
                return Err(format!("totals of variable {variable}: {totals:?}, and not {:?}", [clear, race, doubt]));
            }
        }
        for other in [VARIABLES as u32, 256, u32::MAX] {
            let totals = self.totals(other);
            if totals != (0, [FILL; 5]) {
                return Err(format!("totals of variable {other}, which is none: {totals:?}"));
            }
        }
        let skipped = self.skipped();
        if skipped != expected.skipped.unwrap_or(0) {
            return Err(format!("takes skipped: {skipped}, and not {:?}", expected.skipped));
        }
        let [control, ..] = self.tables();
        // SAFETY: the control table is valid.
        let any_race = unsafe { order_any_race(control) };
        (any_race == expected.any_race() as u32).then_some(()).ok_or(format!("a Race anywhere: {any_race}"))
    }
}

/// Feeds the records to a state that has seen no access and holds each answer, and all totals after it, against what is expected. Says what differs.
fn compare(mut lent: Lent, records: &[Numbers], expected: &[([u32; 3], Totals)]) -> Result<(), String> {
    lent.expect_totals(&Totals::NONE)?;
    for (at, (record, (expected, totals))) in records.iter().zip(expected).enumerate() {
        let fed = || {
            let last = &records[at.saturating_sub(SHOWN)..=at];
            format!("record {} of those fed; up to it, by kind, task and number\n{last:?}", at + 1)
        };
        let answer = lent.feed(*record, expected[0] == 0);
        if answer.as_ref() != Ok(expected) {
            let got = answer.map_or_else(|why| why, |got| format!("{got:?}"));
            return Err(format!("{}\n--- expected\n{expected:?}\n--- got\n{got}\n---", fed()));
        }
        lent.expect_totals(totals).map_err(|why| format!("{}\n--- {why}\n---", fed()))?;
    }
    Ok(())
}

/// All reckonings answer each of these records, as it was read, just as the path search does, and count its verdicts.
pub fn expect(tally: &mut Tally, name: &str, records: &[Numbers], reading: &Reading, judged: &[Judged]) {
    for by in &ALL {
        expect_from(tally, &format!("{}, {name}", by.name), &Lent::fresh(by), records, reading, judged);
    }
}

/// The same by one of them, from a state that has seen no access.
pub fn expect_from(tally: &mut Tally, name: &str, state: &Result<Lent, String>, records: &[Numbers], reading: &Reading, judged: &[Judged]) {
    let expected: Vec<_> = oracle::answers(reading, judged).into_iter().zip(oracle::totals(reading, judged)).collect();
    assert_eq!(records.len(), expected.len());
    let result = state.clone().and_then(|lent| compare(lent, records, &expected));
    tally.check(result.is_ok(), || format!("{name}: {}", result.unwrap_err()));
}

/// The records of a text. A mark gets any number as its task, which is not looked at; a line that yields no record is one of no known kind.
pub fn records(text: &[u8]) -> Vec<Numbers> {
    let numbers = |line: &&[u8]| match oracle::read_line(line) {
        Some(Record::Act(Act { op, task, on })) => (oracle::OPS.iter().find(|known| known.2 == op).unwrap().1, task, on),
        Some(Record::Lost(mask)) => (oracle::LOST, mask.wrapping_mul(0x9e37_79b9), mask),
        None => (u8::MAX - (line.len() % 200) as u8, 0, 0),
    };
    oracle::lines(text).iter().map(numbers).collect()
}
