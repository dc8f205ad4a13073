//! The lazy reckoning, `order_lazy`: the four numbers for the access that ends a list, against document 02 read word for word over the plain
//! path search, and its yes or no against the eager sets.

use crate::examples::text;
use crate::feeding::{self, Lent, Numbers, SETS};
use crate::generate::{recording, shape, Profile, Random, Shape};
use crate::oracle::{self, Access, Act, Event, Fate, Op, Paths, Record, LIMIT, LOST, NO_KIND, OPS};
use crate::tally::Tally;
use crate::{on_threads, short_texts, BETWEEN, THREADS};

/// A record as it is lent: the number of its kind, its task, and its number or mask.
type Lend = [u32; 3];

/// The number of the refusal; the mask of the tasks that have a pair; of those from whose access a path leads here; the records walked.
type Answer = [u64; 4];

const LISTS: u64 = 8_000;
const GUARD: usize = 16;
const FILL: u64 = 0xa5a5_a5a5_a5a5_a5a5;
/// How many records before the end that differs are printed.
const SHOWN: usize = 60;

/// What the lists must have met, each often.
pub const SEEN: [&str; 12] = [
    "lazy, walked: stopped by a take",
    "lazy, walked: stopped by a look",
    "lazy, walked: stopped by a start",
    "lazy, walked: stopped by a join",
    "lazy, walked: no path",
    "lazy, walked: an own bump after the older access",
    "lazy, walked: an own write with a pair out of order after the older access",
    "lazy, not walked",
    "lazy, not walked: by an older write than the latest",
    "lazy, walked: a join of a task that never acted",
    "lazy, an older access cut off by a fresh",
    "lazy, refused lists",
];

extern "C" {
    fn order_lazy(list: *const Lend, len: usize, answer: *mut u64);
}

/// The answer to a list, or what was spoilt.
fn said(list: &[Lend]) -> Result<Answer, String> {
    let mut memory = [FILL; GUARD + 4 + GUARD];
    // SAFETY: the pointers are valid for the list and for the four numbers, and do not overlap.
    unsafe { order_lazy(list.as_ptr(), list.len(), memory[GUARD..].as_mut_ptr()) };
    let answer = [0, 1, 2, 3].map(|at| memory[GUARD + at]);
    let guarded = memory[..GUARD] == [FILL; GUARD] && memory[GUARD + 4..] == [FILL; GUARD];
    guarded.then_some(answer).ok_or_else(|| format!("{answer:?}, and memory beside the answer is changed"))
}

fn shown(list: &[Lend]) -> String {
    let last = &list[list.len().saturating_sub(SHOWN)..];
    format!("{} records; the last of them, by kind, task and number\n{last:?}\n", list.len())
}

/// The answer to a list is just this.
pub fn expect(tally: &mut Tally, name: &str, list: &[Lend], expected: Answer) {
    let got = said(list);
    tally.check(got == Ok(expected), || format!("lazy, {name}: {}--- expected\n{expected:?}\n--- got\n{got:?}\n---", shown(list)));
}

// ---- Document 02, F-6

/// A recording and its paths as it arrived.
struct Deck {
    accesses: Vec<Access>,
    events: Vec<Event>,
    paths: Paths,
    /// For each access, whether every pair of it has a path to it.
    ordered: Vec<bool>,
}

/// The records that are walked; others are neither walked nor counted.
fn is_walked(op: Op) -> bool {
    matches!(op, Op::Take | Op::Give | Op::Look | Op::Set | Op::Start | Op::Join)
}

impl Deck {
    fn new(recording: &[Record]) -> Deck {
        let accesses = oracle::accesses(recording);
        let events = oracle::complete(recording, oracle::as_arrived);
        let paths = oracle::paths(&events);
        let ordered = (0..accesses.len()).map(|this| oracle::pairs(&accesses, this).all(|older| paths.has(older, this))).collect();
        Deck { accesses, events, paths, ordered }
    }

    /// The walked kinds of records between two accesses, by their places among the events.
    fn between(&self, older: usize, this: usize) -> impl Iterator<Item = usize> + '_ {
        let (from, to) = (self.paths.places[older], self.paths.places[this]);
        (from + 1..to).filter(|&at| is_walked(self.events[at].act.op))
    }

    /// An event brings order from the older access to a task: a path leads to it, and it is an act of the task or starts it.
    fn brings(&self, older: usize, at: usize, task: u32) -> bool {
        let act = self.events[at].act;
        (act.task == task || act.op == Op::Start && act.on == task) && self.paths.leads(self.paths.places[older], at)
    }

    /// The records walked for a pair, up to and with the first that brings order to the acting task; and that one's op, if there is one.
    fn walk(&self, older: usize, this: usize) -> (u64, Option<Op>) {
        let mut walked = 0;
        for at in self.between(older, this) {
            walked += 1;
            if self.brings(older, at, self.accesses[this].task) {
                return (walked, Some(self.events[at].act.op));
            }
        }
        (walked, None)
    }

    /// The acting task's own accesses of the variable by this op after the older access, this one left out.
    fn own(&self, older: usize, this: usize, op: Op) -> impl DoubleEndedIterator<Item = usize> + '_ {
        let same = move |at: &usize| {
            let (one, this) = (&self.accesses[*at], &self.accesses[this]);
            one.op == op && one.task == this.task && one.var == this.var
        };
        (older + 1..this).filter(same)
    }

    /// The answer for an access, and how many walked kinds of records there are in between, summed over the tasks.
    fn answer(&self, tally: &mut Tally, this: usize) -> (Answer, u64) {
        let (mut pairs, mut yes, mut count, mut most) = (0, 0, 0, 0);
        for older in oracle::pairs(&self.accesses, this) {
            let bit = 1 << self.accesses[older].task;
            pairs |= bit;
            yes |= if self.paths.has(older, this) { bit } else { 0 };
            most += self.between(older, this).count() as u64;
            // Some write of the variable by the acting task stands after the older access, and every pair of that write had a path.
            if self.own(older, this, Op::Write).any(|write| self.ordered[write]) {
                assert!(yes & bit != 0, "the oracle contradicts itself: an own write in order, and no path");
                let latest = self.own(older, this, Op::Write).next_back();
                tally.see("lazy, not walked", 1);
                tally.see("lazy, not walked: by an older write than the latest", !self.ordered[latest.unwrap()] as usize);
                continue;
            }
            let (walked, stopped) = self.walk(older, this);
            assert_eq!(
                stopped.is_some(),
                yes & bit != 0,
                "the oracle contradicts itself: a path that no walk finds, or the other way round"
            );
            count += walked;
            self.see(tally, older, this, stopped);
        }
        ([0, pairs, yes, count], most)
    }

    /// Notes what a walk was like.
    fn see(&self, tally: &mut Tally, older: usize, this: usize, stopped: Option<Op>) {
        tally.see(
            match stopped {
                Some(Op::Take) => "lazy, walked: stopped by a take",
                Some(Op::Look) => "lazy, walked: stopped by a look",
                Some(Op::Start) => "lazy, walked: stopped by a start",
                Some(Op::Join) => "lazy, walked: stopped by a join",
                Some(op) => panic!("the oracle contradicts itself: {op:?} brings order"),
                None => "lazy, walked: no path",
            },
            1,
        );
        let own = |op| self.own(older, this, op).next().is_some();
        tally.see("lazy, walked: an own bump after the older access", own(Op::Bump) as usize);
        tally.see("lazy, walked: an own write with a pair out of order after the older access", own(Op::Write) as usize);
        let idle = |at: usize| {
            let act = self.events[at].act;
            act.op == Op::Join && !self.events[..at].iter().any(|event| event.act.task == act.on)
        };
        tally.see("lazy, walked: a join of a task that never acted", self.between(older, this).any(idle) as usize);
    }
}

fn read(list: &[Lend]) -> oracle::Reading {
    // A kind that is no byte is none of the known ones.
    oracle::feed(list.iter().map(|&[kind, task, on]| oracle::record_of(u8::try_from(kind).ok()?, task, on)))
}

/// What document 02 says of each beginning of a list, from none of its records to all of them, and the most that may be walked for it.
fn beginnings(tally: &mut Tally, list: &[Lend]) -> Vec<(Answer, u64)> {
    let reading = read(list);
    let refused = reading.fates.iter().enumerate().find_map(|(at, fate)| match fate {
        Fate::Refused(row) => Some((at, *row)),
        Fate::Accepted(_) => None,
    });
    let (accepted, row) = refused.unwrap_or((list.len(), 0));
    let deck = Deck::new(&reading.recording[..accepted]);
    let mut said = vec![([0; 4], 0)];
    let mut accesses = (0..deck.accesses.len()).peekable();
    for rec in 1..=accepted {
        let access = accesses.next_if(|&access| deck.accesses[access].rec == rec);
        said.push(access.map_or(([0; 4], 0), |access| deck.answer(tally, access)));
    }
    tally.see("lazy, refused lists", refused.is_some() as usize);
    let cut_off = deck.accesses.iter().filter(|a| a.since > 0 && deck.accesses.iter().any(|b| b.rec < a.since && b.var == a.var));
    tally.see("lazy, an older access cut off by a fresh", cut_off.count());
    said.resize(list.len() + 1, ([row as u64, 0, 0, 0], 0));
    said
}

// ---- The eager sets

/// What the sets say of each record: the task of its partner, if it has one, and whether that is the lowest of those apart as it arrived.
fn partners(records: &[Numbers]) -> Result<Vec<Option<(u32, bool)>>, String> {
    let mut sets = Lent::fresh(&SETS)?;
    let mut partner = |record: &Numbers| match sets.feed(*record, false)? {
        [1 | 2, _, 0] => Ok(None),
        // A Race names the lowest of those apart in the fullest filling, which are some of those apart as it arrived.
        [said @ (3 | 4), _, with] => Ok(Some((records[with as usize - 1].1, said == 4))),
        other => Err(format!("the sets answer {record:?} with {other:?}")),
    };
    records.iter().map(&mut partner).collect()
}

/// The sets say of the same list, marks and all, that some task is apart exactly where the lazy reckoning has a pair without a path.
fn as_it_is(list: &[Lend], answers: &[(usize, Answer)]) -> Result<(), String> {
    let records: Vec<Numbers> = list.iter().map(|&[kind, task, on]| (kind as u8, task, on)).collect();
    let partners = partners(&records)?;
    for &(end, [_, pairs, yes, _]) in answers.iter().filter(|(end, _)| *end > 0) {
        let apart = pairs & !yes;
        let right = match partners[end - 1] {
            None => apart == 0,
            Some((task, lowest)) => apart >> task & 1 == 1 && (!lowest || task == apart.trailing_zeros()),
        };
        if !right {
            return Err(format!("the sets say {:?} of record {end}, the lazy reckoning {apart:#b}", partners[end - 1]));
        }
    }
    Ok(())
}

/// The same for each task by itself. The sets name the lowest task apart alone, so the list is fed to them with that task renamed to 1 and the
/// others to higher numbers; a new task 0 starts what was task 0, and does nothing else, for which a number must be free. Without the marks, as
/// a Race is then one as it arrived.
fn task_by_task(list: &[Lend], answers: &[(usize, Answer)]) -> Result<(), String> {
    let acts: Vec<Option<Act>> =
        read(list).recording.iter().map(|record| if let Record::Act(act) = record { Some(*act) } else { None }).collect();
    let names_task = |act: &Act| matches!(act.op, Op::Start | Op::Join);
    let mut tasks: Vec<u32> = acts.iter().flatten().flat_map(|act| [Some(act.task), names_task(act).then_some(act.on)]).flatten().collect();
    tasks.push(0);
    tasks.sort();
    tasks.dedup();
    if tasks.len() > 15 {
        return Ok(());
    }
    for &first in &tasks {
        let mut order = tasks.clone();
        order.sort_by_key(|&task| (task != first, task));
        let renamed = |task: u32| 1 + order.iter().position(|&one| one == task).unwrap() as u32;
        let mut records = vec![(kind(Op::Start), 0, renamed(0))];
        // The record, among those, of each of the list.
        let mut places = Vec::new();
        for act in &acts {
            places.push(act.map(|_| records.len()));
            if let Some(act) = act {
                let on = if names_task(act) { renamed(act.on) } else { act.on };
                records.push((kind(act.op), renamed(act.task), on));
            }
        }
        let partners = partners(&records)?;
        for &(end, [_, pairs, yes, _]) in answers.iter().filter(|(end, _)| *end > 0) {
            let apart = (pairs & !yes) >> first & 1 == 1;
            let by_sets = places[end - 1].and_then(|place| partners[place]).is_some_and(|(task, _)| task == 1);
            if apart != by_sets {
                return Err(format!("the sets say that task {first} is apart at record {end}: {by_sets}; the lazy reckoning: {apart}"));
            }
        }
    }
    Ok(())
}

// ---- Lists

fn kind(op: Op) -> u8 {
    OPS.iter().find(|known| known.2 == op).unwrap().1
}

pub fn lend(records: &[Numbers]) -> Vec<Lend> {
    records.iter().map(|&(kind, task, on)| [kind as u32, task, on]).collect()
}

/// Records in short, as in the examples.
fn short(records: &str) -> Vec<Lend> {
    lend(&feeding::records(&text(records)))
}

/// Lent in each of these lengths, a list is answered as document 02 says, and the sets say the same of its accesses.
pub fn compare(tally: &mut Tally, name: &str, list: &[Lend], ends: impl Iterator<Item = usize>) {
    let expected = beginnings(tally, list);
    let lent = list.to_vec();
    let mut answers = Vec::new();
    let mut wrong = None;
    for end in ends {
        let (answer, most) = expected[end];
        let got = said(&lent[..end]);
        if wrong.is_none() && got.as_ref().map_or(true, |got| *got != answer || got[3] > most) {
            wrong = Some(format!("{}--- expected\n{answer:?}, at most {most} walked\n--- got\n{got:?}\n---", shown(&list[..end])));
        }
        if answer[0] == 0 {
            answers.push((end, got.unwrap_or([0; 4])));
        }
    }
    if lent != list {
        wrong = Some("the list is changed".to_string());
    }
    tally.check(wrong.is_none(), || format!("lazy, {name}: {}", wrong.unwrap()));
    let accepted = &list[..answers.last().map_or(0, |(end, _)| *end)];
    let same = as_it_is(accepted, &answers).and_then(|()| task_by_task(accepted, &answers));
    tally.check(same.is_ok(), || format!("lazy and eager, {name}: {}\n{}", same.unwrap_err(), shown(accepted)));
}

// ---- By hand

/// Task 0 has the bit 1, task 1 the bit 2, task 2 the bit 4.
const SHORT: &[(&str, &str, Answer)] = &[
    ("no records", "", [0, 0, 0, 0]),
    ("an access alone", "write 0 5", [0, 0, 0, 0]),
    ("an access after the task's own", "write 0 5, give 0 1, read 0 5", [0, 0, 0, 0]),
    ("nothing between", "start 0 1, write 0 5, read 1 5", [0, 1, 0, 0]),
    ("two reads", "start 0 1, read 0 5, give 0 1, read 1 5", [0, 0, 0, 0]),
    ("two bumps", "start 0 1, bump 0 5, give 0 1, bump 1 5", [0, 0, 0, 0]),
    ("another variable", "start 0 1, write 0 5, give 0 1, read 1 6", [0, 0, 0, 0]),
    ("handed over", "start 0 1, write 0 5, give 0 2, take 1 2, read 1 5", [0, 1, 1, 2]),
    ("handed over by a flag", "start 0 1, write 0 5, set 0 2, look 1 2, read 1 5", [0, 1, 1, 2]),
    ("the ending write is no short circuit", "start 0 1, write 0 5, give 0 2, take 1 2, write 1 5", [0, 1, 1, 2]),
    ("what stands before the older access is not walked", "start 0 1, give 0 2, take 1 2, write 0 5, look 1 2, read 1 5", [0, 1, 0, 1]),
    (
        "nor what stands after the first that brings order",
        "start 0 1, write 0 5, give 0 2, take 1 2, give 1 3, look 1 1, read 1 5",
        [0, 1, 1, 2],
    ),
    ("order that comes twice", "start 0 1, write 0 5, give 0 2, set 0 3, take 1 2, look 1 3, read 1 5", [0, 1, 1, 3]),
    ("the latest access counts", "start 0 1, write 0 5, give 0 2, take 1 2, write 0 5, look 1 3, read 1 5", [0, 1, 0, 1]),
    ("a read hides no older write from a read", "start 0 1, write 0 5, give 0 2, read 0 5, take 1 2, read 1 5", [0, 1, 1, 2]),
    ("from a write it does", "start 0 1, write 0 5, give 0 2, read 0 5, take 1 2, write 1 5", [0, 1, 0, 1]),
    ("a bump hides no older read from a bump", "start 0 1, read 0 5, give 0 2, bump 0 5, take 1 2, bump 1 5", [0, 1, 1, 2]),
    ("from a read it does", "start 0 1, write 0 5, give 0 2, bump 0 5, take 1 2, read 1 5", [0, 1, 0, 1]),
    ("walked whoever acts", "start 0 1, start 0 2, write 0 5, give 2 7, set 1 7, take 0 7, look 2 9, read 1 5", [0, 1, 0, 4]),
    (
        "accesses, fresh and miss are not",
        "start 0 1, write 0 5, read 1 6, write 0 7, bump 1 7, fresh 0 8, miss 1 3, give 0 3, read 1 5",
        [0, 1, 0, 1],
    ),
    ("a miss brings nothing", "start 0 1, write 0 5, give 0 2, miss 1 2, read 1 5", [0, 1, 0, 1]),
    ("a take before the give", "start 0 1, write 0 5, take 1 2, give 0 2, read 1 5", [0, 1, 0, 2]),
    ("a look passes nothing on", "start 0 1, write 0 5, look 0 3, set 1 3, write 1 5", [0, 1, 0, 2]),
    ("nor to a later look", "start 0 1, write 0 5, look 0 3, look 1 3, write 1 5", [0, 1, 0, 2]),
    ("a give that is no overwriting", "start 0 1, start 0 2, write 1 5, give 1 4, give 2 4, take 0 4, read 0 5", [0, 2, 2, 3]),
    ("by way of a third task", "start 0 1, start 0 2, write 0 5, give 0 2, take 2 2, set 2 3, look 1 3, read 1 5", [0, 1, 1, 4]),
    ("two pairs are summed", "start 0 1, start 0 2, write 0 5, give 0 2, take 2 2, write 2 5, give 2 3, take 1 3, read 1 5", [0, 5, 5, 6]),
    ("one in order and one not", "start 0 1, start 0 2, write 2 5, write 0 5, give 0 2, take 1 2, read 1 5", [0, 5, 1, 4]),
    // A start of the acting task brings it order.
    ("started after the write", "write 0 5, start 0 1, read 1 5", [0, 1, 1, 1]),
    ("nothing is walked after that start", "write 0 5, start 0 1, give 0 2, take 1 2, read 1 5", [0, 1, 1, 1]),
    ("what stands before that start is", "start 0 2, write 0 5, give 0 2, take 2 2, start 2 1, read 1 5", [0, 1, 1, 3]),
    ("a start that no path leads to", "start 0 2, write 2 5, start 0 1, give 2 3, take 1 3, read 1 5", [0, 4, 4, 3]),
    ("a start of another task", "start 0 2, write 0 5, start 0 1, give 0 2, take 2 2, read 2 5", [0, 1, 1, 3]),
    ("an act of the acting task that no path leads to", "start 0 1, write 0 5, start 1 2, give 0 3, take 1 3, read 1 5", [0, 1, 1, 3]),
    // A join hears what the joined task did, and a task that never acted did nothing.
    ("joined after the write", "start 0 1, write 1 5, join 0 1, write 0 5", [0, 2, 2, 1]),
    ("a detour", "start 0 2, write 0 5, start 0 1, read 1 6, join 2 1, read 2 5", [0, 1, 1, 2]),
    ("a detour by a task that never acts", "start 0 2, write 0 5, start 0 1, join 2 1, read 2 5", [0, 1, 0, 2]),
    ("it acts by a miss", "start 0 2, write 0 5, start 0 1, miss 1 0, join 2 1, read 2 5", [0, 1, 1, 2]),
    ("by a fresh", "start 0 2, write 0 5, start 0 1, fresh 1 6, join 2 1, read 2 5", [0, 1, 1, 2]),
    ("by a give", "start 0 2, write 0 5, start 0 1, give 1 6, join 2 1, read 2 5", [0, 1, 1, 3]),
    ("it may have acted by a lost record", "start 0 2, write 0 5, start 0 1, lost 2, join 2 1, read 2 5", [0, 1, 0, 2]),
    ("two tasks that never act", "start 0 2, write 0 5, start 0 1, start 0 3, join 2 1, join 2 3, read 2 5", [0, 1, 0, 4]),
    ("one of them acted before the write", "start 0 2, start 0 1, read 1 6, write 0 5, join 2 1, read 2 5", [0, 1, 0, 1]),
    ("joined by another", "start 0 2, write 0 5, start 0 1, read 1 6, join 0 1, read 2 5", [0, 1, 0, 2]),
    (
        "joined by another, and handed over",
        "start 0 2, write 0 5, start 0 1, read 1 6, join 0 1, give 0 4, take 2 4, read 2 5",
        [0, 1, 1, 4],
    ),
    ("a detour by two", "start 0 2, write 0 5, start 0 1, start 1 3, read 3 6, join 1 3, join 2 1, read 2 5", [0, 1, 1, 4]),
    // No walk where an own write after the older access had all its pairs in order.
    ("an own write in order", "start 0 1, write 0 5, give 0 2, take 1 2, write 1 5, give 1 3, take 0 3, read 1 5", [0, 1, 1, 0]),
    ("before a write", "start 0 1, write 0 5, give 0 2, take 1 2, write 1 5, write 1 5", [0, 1, 1, 0]),
    ("before a bump", "start 0 1, write 0 5, give 0 2, take 1 2, write 1 5, bump 1 5", [0, 1, 1, 0]),
    ("an own read is none", "start 0 1, write 0 5, give 0 2, take 1 2, read 1 5, read 1 5", [0, 1, 1, 2]),
    ("an own bump is none", "start 0 1, write 0 5, give 0 2, take 1 2, bump 1 5, read 1 5", [0, 1, 1, 2]),
    ("0 bumps, 1 bumps, 1 reads", "start 0 1, bump 0 5, bump 1 5, read 1 5", [0, 1, 0, 0]),
    ("the same with a record to walk", "start 0 1, bump 0 5, bump 1 5, take 1 3, read 1 5", [0, 1, 0, 1]),
    ("an own write of another variable is none", "start 0 1, write 0 5, give 0 2, take 1 2, write 1 6, read 1 5", [0, 1, 1, 2]),
    ("another task's write is none", "start 0 1, start 0 2, write 0 5, give 0 2, take 2 2, write 2 5, take 1 2, read 1 5", [0, 5, 1, 4]),
    ("an own write before the older access", "start 0 1, write 1 5, write 0 5, give 0 1, read 1 5", [0, 1, 0, 1]),
    ("an own write that is not in order", "start 0 1, write 0 5, write 1 5, give 0 2, take 1 2, read 1 5", [0, 1, 1, 2]),
    (
        "an own write with one pair of two in order",
        "start 0 1, start 0 2, write 2 5, write 0 5, give 0 2, take 1 2, write 1 5, read 1 5",
        [0, 5, 1, 4],
    ),
    (
        "its pair is a later read, which a read has no pair with",
        "start 0 1, write 0 5, give 0 2, read 0 5, take 1 2, write 1 5, look 1 1, read 1 5",
        [0, 1, 1, 2],
    ),
    (
        "its pair is a later bump, which a bump has no pair with",
        "start 0 1, write 0 5, give 0 2, bump 0 5, take 1 2, write 1 5, look 1 1, bump 1 5",
        [0, 1, 1, 2],
    ),
    (
        "its pair is a read by a task that has no pair here",
        "start 0 1, start 0 2, read 2 5, write 0 5, give 0 2, take 1 2, write 1 5, read 1 5",
        [0, 1, 1, 2],
    ),
    (
        "an older write than the latest",
        "start 0 1, start 0 2, write 0 5, give 0 2, take 1 2, write 1 5, write 2 5, write 1 5, give 1 3, read 1 5",
        [0, 5, 1, 1],
    ),
    (
        "the latest is in order and an older one was not",
        "start 0 1, write 0 5, write 1 5, give 0 2, take 1 2, write 1 5, read 1 5",
        [0, 1, 1, 0],
    ),
    (
        "an own write in order, and the other task wrote again",
        "start 0 1, write 0 5, give 0 2, take 1 2, write 1 5, write 0 5, give 0 3, read 1 5",
        [0, 1, 0, 1],
    ),
    (
        "one pair known and one walked",
        "start 0 1, start 0 2, write 0 5, give 0 2, take 1 2, write 1 5, write 2 5, give 2 3, take 1 3, read 1 5",
        [0, 5, 5, 2],
    ),
    ("walks for the own write's pairs are not counted", "write 0 5, start 0 1, write 1 5, give 1 1, read 1 5", [0, 1, 1, 0]),
    // A fresh cuts off.
    ("a fresh between", "start 0 1, write 0 5, give 0 2, fresh 0 5, give 0 3, read 1 5", [0, 0, 0, 0]),
    ("a fresh by a third task", "start 0 1, start 0 2, write 0 5, give 0 2, fresh 2 5, read 1 5", [0, 0, 0, 0]),
    ("a fresh of another variable", "start 0 1, write 0 5, give 0 2, fresh 0 6, read 1 5", [0, 1, 0, 1]),
    ("a fresh before the older access", "start 0 1, write 0 5, fresh 0 5, write 0 5, give 0 2, take 1 2, read 1 5", [0, 1, 1, 2]),
    ("a fresh cuts off one of two", "start 0 1, start 0 2, write 2 5, fresh 0 5, write 0 5, give 0 2, read 1 5", [0, 1, 0, 1]),
    (
        "a fresh cuts off the pair that was not in order of an own write",
        "start 0 1, start 0 2, write 2 5, fresh 0 5, write 0 5, give 0 2, take 1 2, write 1 5, read 1 5",
        [0, 1, 1, 0],
    ),
    // Marks are accepted, and neither walked nor acts.
    ("a mark between", "start 0 1, write 0 5, lost 3, write 1 5", [0, 1, 0, 0]),
    ("marks among hand-overs", "start 0 1, lost 1, write 0 5, give 0 2, lost 3, take 1 2, lost 2, write 1 5", [0, 1, 1, 2]),
    ("a mark at the end", "start 0 1, write 0 5, give 0 2, take 1 2, read 1 5, lost 3", [0, 0, 0, 0]),
    // The edges of the series.
    ("the last numbers", "start 0 15, write 0 63, give 0 31, take 15 31, read 15 63", [0, 1, 1, 2]),
    ("the last numbers the other way", "start 0 15, write 15 63, set 15 31, look 0 31, bump 0 63", [0, 32768, 32768, 2]),
    // Under the profile of owned semaphores the walks are the same, and an `owned` is not walked.
    ("owned, nothing between", "owned 0 0, start 0 1, write 0 5, read 1 5", [0, 1, 0, 0]),
    ("owned, handed over", "owned 0 0, start 0 1, take 0 2, write 0 5, give 0 2, take 1 2, read 1 5", [0, 1, 1, 2]),
    ("owned, kept", "owned 0 0, start 0 1, take 0 2, write 0 5, miss 1 2, take 1 3, read 1 5", [0, 1, 0, 1]),
    (
        "owned, an own write in order",
        "owned 0 0, start 0 1, take 0 2, write 0 5, give 0 2, take 1 2, write 1 5, give 1 2, take 1 2, read 1 5",
        [0, 1, 1, 0],
    ),
    (
        "owned, taken again by the same task",
        "owned 0 0, start 0 1, take 0 2, write 0 5, give 0 2, take 0 2, give 0 2, take 1 2, read 1 5",
        [0, 1, 1, 4],
    ),
    ("owned, joined while it holds", "owned 0 0, start 0 1, take 1 2, write 1 5, join 0 1, write 0 5", [0, 2, 2, 1]),
    ("owned between", "start 0 1, write 0 5, owned 0 0, read 1 5", [0, 1, 0, 0]),
    ("owned between, by the reader", "start 0 1, write 0 5, owned 1 0, take 1 4, read 1 5", [0, 1, 0, 1]),
    ("a give before owned and a take after it", "start 0 1, write 0 5, give 0 2, owned 1 0, take 1 2, read 1 5", [0, 1, 1, 2]),
    ("taken before owned", "start 0 1, take 1 2, write 0 5, owned 0 0, take 0 2, give 0 2, take 1 2, read 1 5", [0, 1, 1, 3]),
    ("a mark before owned", "start 0 1, write 0 5, lost 3, owned 0 0, take 1 2, write 1 5", [0, 1, 0, 1]),
    ("a joined task acts by an owned", "start 0 2, write 0 5, start 0 1, owned 1 0, join 2 1, read 2 5", [0, 1, 1, 2]),
    (
        "owned between, an own write in order before it",
        "start 0 1, write 0 5, give 0 2, take 1 2, write 1 5, owned 0 0, take 0 2, read 1 5",
        [0, 1, 1, 0],
    ),
    ("row 14", "write 0 5, owned 0 0, read 0 5, owned 0 0, read 0 5", [14, 0, 0, 0]),
    ("row 14, twice", "owned 0 0, owned 0 0, read 0 5", [14, 0, 0, 0]),
    ("row 15 after a later owned", "start 0 1, lost 3, write 0 5, owned 1 0, lost 3, write 1 5", [15, 0, 0, 0]),
    ("row 16 after a later owned", "start 0 1, take 0 2, write 0 5, owned 1 0, give 0 2, read 0 5", [16, 0, 0, 0]),
    ("row 14 at the end", "owned 0 0, start 0 1, write 0 5, owned 1 0", [14, 0, 0, 0]),
    ("row 15", "owned 0 0, start 0 1, write 0 5, lost 3, write 1 5", [15, 0, 0, 0]),
    ("row 15 at the end", "owned 0 0, lost 1", [15, 0, 0, 0]),
    ("row 16, a take", "owned 0 0, start 0 1, take 0 2, write 0 5, take 1 2, read 1 5", [16, 0, 0, 0]),
    ("row 16, the holder's take", "owned 0 0, take 0 2, take 0 2, read 0 5", [16, 0, 0, 0]),
    ("row 16, a give", "owned 0 0, start 0 1, take 0 2, give 1 2, read 1 5", [16, 0, 0, 0]),
    ("row 16, nobody's give", "owned 0 0, give 0 2", [16, 0, 0, 0]),
    ("row 16 before 15", "owned 0 0, give 0 2, lost 1, owned 0 0", [16, 0, 0, 0]),
    ("row 15 before 14", "owned 0 0, lost 1, owned 0 0, give 0 2", [15, 0, 0, 0]),
    ("row 14 before 16", "owned 0 0, owned 0 0, give 0 2, lost 1", [14, 0, 0, 0]),
    // Refused.
    ("refused at the end", "start 0 1, write 0 5, give 0 2, read 2 5", [6, 0, 0, 0]),
    ("the first refused counts", "start 0 1, read 0 64, join 1 1, read 1 5", [3, 0, 0, 0]),
    ("a joined task is done", "start 0 1, write 0 5, join 0 1, read 1 5", [6, 0, 0, 0]),
    ("refused before an ending that is no access", "join 0 0, give 0 1", [8, 0, 0, 0]),
];

/// Records that are refused wherever they stand while task 0 is live and task 9 unseen, and with what.
const REFUSED: &[(Lend, u64)] = &[
    ([NO_KIND as u32, 0, 5], 1),
    ([255, 0, 5], 1),
    ([256, 0, 5], 1),
    ([257, 0, 5], 1),
    ([264, 0, 1], 1),
    ([65_536, 0, 5], 1),
    ([65_537, 16, 64], 1),
    ([1 << 31, 0, 5], 1),
    ([u32::MAX, u32::MAX, u32::MAX], 1),
    ([0, 16, 5], 2),
    ([1, 256, 5], 2),
    ([11, 65_536, 64], 2),
    ([9, u32::MAX, 5], 2),
    ([7, 1 << 31, 1 << 31], 2),
    ([12, 16, 0], 2),
    ([12, u32::MAX, 1], 2),
    ([0, 0, 64], 3),
    ([1, 0, 256], 3),
    ([11, 0, 65_541], 3),
    ([9, 0, 64], 3),
    ([2, 0, 32], 3),
    ([3, 9, 32], 3),
    ([4, 0, u32::MAX], 3),
    ([5, 0, 256], 3),
    ([10, 0, 32], 3),
    ([6, 0, 16], 3),
    ([7, 0, 256], 3),
    ([12, 0, 1], 3),
    ([12, 9, 256], 3),
    ([12, 0, 1 << 31], 3),
    ([8, 0, 0], 4),
    ([8, u32::MAX, 65_536], 4),
    ([8, 0, 65_537], 4),
    ([8, 0, u32::MAX], 4),
    ([0, 9, 5], 6),
    ([6, 9, 9], 6),
    ([7, 9, 0], 6),
    ([12, 9, 0], 6),
    ([6, 0, 0], 7),
    ([7, 0, 0], 8),
    ([7, 0, 9], 9),
    ([8, 0, 512], 9),
    ([8, 16, 65_535], 9),
];

fn run_short(tally: &mut Tally) {
    for (name, records, expected) in SHORT {
        let list = short(records);
        let by_search = beginnings(tally, &list).last().unwrap().0;
        tally.check(by_search == *expected, || format!("lazy, oracle, {name}: {by_search:?} and not {expected:?}"));
        expect(tally, name, &list, *expected);
        compare(tally, name, &list, 0..=list.len());
    }
}

/// Every kind of ending.
fn run_endings(tally: &mut Tally) {
    let before = "start 0 1, start 0 2, write 0 5, give 0 2, take 1 2, ";
    expect(tally, "ends in an owned, the first record", &short("owned 0 0"), [0; 4]);
    for (word, _, op, _) in OPS {
        let on = match op {
            Op::Owned => 0,
            Op::Start => 3,
            Op::Join => 2,
            _ => 5,
        };
        let expected = if oracle::is_access(*op) { [0, 1, 1, 2] } else { [0; 4] };
        expect(tally, &format!("ends in a {word}"), &short(&format!("{before}{word} 1 {on}")), expected);
    }
    // The task of a mark is not looked at.
    for task in [0, 1, 9, 16, 256, u32::MAX] {
        let mark = [LOST as u32, task, 2];
        expect(tally, "ends in a mark", &[short(before.trim_end_matches(", ")), vec![mark]].concat(), [0; 4]);
        let within = [short(before.trim_end_matches(", ")), vec![mark], short("read 1 5")].concat();
        expect(tally, "a mark of any task", &within, [0, 1, 1, 2]);
    }
}

/// A refused record at each place of a list, alone and before another that would be refused with another number.
fn run_refused(tally: &mut Tally) {
    let sound = short("start 0 1, start 0 2, write 0 5, give 0 2, lost 3, take 1 2, write 1 5, fresh 2 6, join 1 2, miss 1 2, bump 1 5");
    expect(tally, "the list that records are put into", &sound, [0, 1, 1, 0]);
    for place in 0..=sound.len() {
        for (at, &(record, row)) in REFUSED.iter().enumerate() {
            let mut list = sound.clone();
            list.insert(place, record);
            let name = format!("{record:?} at place {place}");
            expect(tally, &name, &list, [row, 0, 0, 0]);
            expect(tally, &name, &list[..=place], [row, 0, 0, 0]);
            list.insert(place + 1 + at % (sound.len() - place + 1), REFUSED[at * 7 % REFUSED.len()].0);
            expect(tally, &format!("{name} and another after it"), &list, [row, 0, 0, 0]);
            compare(tally, &name, &list, 0..=list.len());
        }
    }
}

/// As many records as there may be, and one more. The search would take too long; the numbers are by hand.
fn run_full(tally: &mut Tally) {
    let repeat = |before: &str, again: &str, after: &str| {
        let (mut list, again, after) = (short(before), short(again), short(after));
        while list.len() + again.len() + after.len() <= LIMIT {
            list.extend(&again);
        }
        list.extend(after);
        list
    };
    let full = repeat("start 0 1, write 0 5", "give 0 1", "read 1 5");
    assert_eq!(full.len(), LIMIT);
    expect(tally, "as many as there may be", &full, [0, 1, 0, LIMIT as u64 - 3]);
    // One record for each row, and some that only row 5 refuses.
    let each = (1..=9).filter_map(|row| REFUSED.iter().find(|refused| refused.1 == row)).copied();
    let mut list = full;
    for (record, row) in each.chain([([0, 0, 5], 5), ([11, 1, 63], 5), ([8, 0, 3], 5), ([3, 0, 1], 5)]) {
        let row = row.min(5);
        list.truncate(LIMIT);
        list.push(record);
        expect(tally, &format!("one past the limit, {record:?}"), &list, [row, 0, 0, 0]);
        list.push([255, 0, 0]);
        expect(tally, &format!("two past the limit, {record:?}"), &list, [row, 0, 0, 0]);
    }
    list[10] = [7, 0, 0];
    expect(tally, "refused long before the limit", &list, [8, 0, 0, 0]);

    let held = "owned 0 0, start 0 1, take 0 1, write 0 5";
    let mut list = repeat(held, "miss 1 1", "read 1 5");
    expect(tally, "under the profile, as many as there may be", &list, [0, 1, 0, 0]);
    for record in short("owned 0 0, lost 3, take 1 1, give 1 1, give 0 1, read 0 5") {
        list.truncate(LIMIT);
        list.push(record);
        expect(tally, &format!("under the profile, one past the limit, {record:?}"), &list, [5, 0, 0, 0]);
    }
    for (record, row) in short("owned 0 0, lost 3, take 1 1, take 0 1, give 1 1").into_iter().zip([14, 15, 16, 16, 16]) {
        list.truncate(LIMIT - 1);
        list.push(record);
        expect(tally, &format!("under the profile, the last of the limit, {record:?}"), &list, [row, 0, 0, 0]);
    }

    let all = |word: &str| (0..16).map(|task| format!("{word} {task} 5")).collect::<Vec<_>>().join(", ");
    let starts: String = (1..16).map(|task| format!("start 0 {task}")).collect::<Vec<_>>().join(", ");
    let writes = all("write");
    let name = "every task's pair walks to the end";
    // 31 records before and 1 after.
    expect(tally, name, &repeat(&format!("{starts}, {writes}"), "give 0 0", "read 0 5"), [0, 0xfffe, 0, 15 * (LIMIT as u64 - 32)]);
    expect(tally, "writes by all tasks in turn", &repeat(&starts, &writes, "write 15 5"), [0, 0x7fff, 0, 0]);
    let bumps = repeat(&format!("{starts}, write 3 5"), &all("bump"), "bump 15 5");
    expect(tally, "bumps by all tasks in turn, after a write", &bumps, [0, 8, 0, 0]);
    let name = "own writes without end, none in order";
    // 2 records before, 1 after, and every other one of those between is walked.
    expect(tally, name, &repeat("start 0 1, write 0 5", "write 1 5, give 1 1", "read 1 5"), [0, 1, 0, (LIMIT as u64 - 3) / 2]);
    let name = "own writes without end, all in order";
    expect(tally, name, &repeat("start 0 1, write 0 5, give 0 1, take 1 1", "write 1 5, give 1 1", "read 1 5"), [0, 1, 1, 0]);
    let back_and_forth = "write 0 5, give 0 1, take 1 1, write 1 5, give 1 2, take 0 2";
    expect(tally, "handed back and forth", &repeat("start 0 1", back_and_forth, "read 0 5"), [0, 2, 2, 2]);
    expect(tally, "the same, after an own write", &repeat("start 0 1", back_and_forth, "write 0 5, read 0 5"), [0, 2, 2, 0]);
    let name = "rebuilt over and over";
    expect(tally, name, &repeat("start 0 1, start 0 2", "write 0 5, give 0 1, fresh 2 5", "write 0 5, set 0 1, read 1 5"), [0, 1, 0, 1]);
}

/// Every list of a write by task 0, up to three records, and an access by task 1.
fn run_between(tally: &mut Tally) {
    let reads = ["op=read task=0 on=5", "op=read task=1 on=5"];
    for middle in short_texts(&[&BETWEEN[..], &reads].concat()) {
        for (word, ..) in OPS.iter().filter(|known| oracle::is_access(known.2)) {
            let text = format!("op=start task=0 on=1\nop=write task=0 on=5\n{middle}op={word} task=1 on=5\n");
            let list = lend(&feeding::records(text.as_bytes()));
            let (expected, _) = *beginnings(tally, &list).last().unwrap();
            expect(tally, "in between", &list, expected);
        }
    }
}

/// Quiet decks, where nearly all accesses are by the task that came before, and busy ones, by their seeds.
fn run_generated(first: u64) -> Tally {
    let mut tally = Tally::new();
    for seed in (first..LISTS).step_by(THREADS as usize) {
        let mut random = Random::new(7_000_000 + seed);
        let (stay, stray) = (random.pick(&[0, 0, 60, 80, 90, 95]), random.pick(&[0, 0, 0, 0, 0, 4]));
        let shape = Shape { stay, stray, damage: stray / 4, ..shape(&mut random) };
        let list = lend(&feeding::records(&recording(&mut random, &shape)));
        compare(&mut tally, &format!("list {seed}"), &list, 0..=list.len());
    }
    tally
}

/// A few that are long.
fn run_long(first: u64) -> Tally {
    let mut tally = Tally::new();
    let base = |stay, tasks| Shape {
        length: 3_000,
        tasks,
        variables: 3,
        objects: 4,
        marks: 2,
        named: 1_000,
        idle: 30,
        stay,
        stray: 0,
        damage: 0,
        owned: None,
    };
    let owned = |after, stay, tasks| Shape { marks: 1, owned: Some(Profile { after, wrong: 0 }), ..base(stay, tasks) };
    let shapes = [
        base(0, 4),
        base(95, 4),
        base(0, 16),
        base(95, 16),
        Shape { variables: 64, objects: 32, ..base(80, 16) },
        base(80, 2),
        owned(0, 0, 4),
        Shape { objects: 32, ..owned(0, 80, 16) },
        owned(1_000, 0, 4),
        Shape { objects: 32, ..owned(300, 80, 16) },
    ];
    for (at, shape) in shapes.iter().enumerate().skip(first as usize).step_by(THREADS as usize) {
        let list = lend(&feeding::records(&recording(&mut Random::new(8_000_000 + at as u64), shape)));
        compare(&mut tally, &format!("long list {at}"), &list, (0..=list.len()).step_by(7));
    }
    tally
}

pub fn run(tally: &mut Tally) {
    run_short(tally);
    run_endings(tally);
    run_refused(tally);
    tally.part("lazy, by hand");
    run_full(tally);
    tally.part("lazy, as long as may be");
    run_between(tally);
    tally.part("lazy, every short list between two accesses");
    on_threads(tally, run_generated);
    tally.part("lazy, quiet and busy lists");
    on_threads(tally, run_long);
    tally.part("lazy, long lists");
}
