//! Which controller could have settled it: document 02, F-10. The rule by which the search answers is held to the words of the request, by every small
//! filling of both sides in every interleaving; then `order_settle` and the program `settle` are held to that rule.

use crate::cuts::{pieces, Cuts, WAYS};
use crate::examples::text;
use crate::feeding::{self, Lent, Numbers, CLOCKS};
use crate::generate::{filling, recording, shape, Profile, Random, Shape};
use crate::oracle::{self, Access, Act, Fate, Op, Record, Verdict, LIMIT, LOST, NO_KIND, OPS, RECORD_DIGITS, TASKS};
use crate::program::{self, PATIENCE};
use crate::tally::Tally;
use crate::{on_threads, pauses, short_texts, BETWEEN, THREADS};
use std::ffi::{OsStr, OsString};
use std::io::Read;
use std::os::unix::ffi::OsStrExt;
use std::process::{Command, Stdio};
use std::time::{Duration, Instant};

/// A record as it is lent: the number of its kind, its task, and its number or mask.
type Lend = [u32; 3];

/// The number of the refusal, and whether home can force Clear.
type Answer = [u32; 2];
const NEITHER: u32 = 0;
const NO: u32 = 1;
const YES: u32 = 2;

/// Short recordings for every filling, lists of records, and recordings for the program.
const SHORT_RECORDINGS: u64 = 4_000;
const LISTS: u64 = 1_200;
const PROGRAM_RECORDINGS: u64 = 120;
const GUARD: usize = 16;
const FILL: u32 = 0xa5a5_a5a5;
/// How many records before the end that differs are printed.
const SHOWN: usize = 60;

/// What must have been met, each often.
const SEEN: [&str; 14] = [
    "settle, every filling: yes, and an owned",
    "settle, every filling: no, and an owned",
    "settle, every filling: yes",
    "settle, every filling: yes, far could add records",
    "settle, every filling: yes, by two home tasks of one mark",
    "settle, every filling: yes, by two tasks at two marks",
    "settle, every filling: no",
    "settle, every filling: no, home could write some",
    "settle, Doubt: yes, by a part of the marked tasks",
    "settle, Doubt: no, by a part of the marked tasks",
    "settle, Doubt: yes, by one task alone",
    "settle, Clear",
    "settle, Race",
    "settle, refused lists",
];

extern "C" {
    fn order_settle(list: *const Lend, len: usize, home: u16, answer: *mut u32);
}

/// The answer to a list and a home set, or what was spoilt.
fn said(list: &[Lend], home: u32) -> Result<Answer, String> {
    let mut memory = [FILL; GUARD + 2 + GUARD];
    // SAFETY: the pointers are valid for the list and for the two numbers, and do not overlap.
    unsafe { order_settle(list.as_ptr(), list.len(), home as u16, memory[GUARD..].as_mut_ptr()) };
    let answer = [memory[GUARD], memory[GUARD + 1]];
    let guarded = memory[..GUARD] == [FILL; GUARD] && memory[GUARD + 2..] == [FILL; GUARD];
    guarded.then_some(answer).ok_or_else(|| format!("{answer:?}, and memory beside the answer is changed"))
}

fn shown(list: &[Lend], home: u32) -> String {
    let last = &list[list.len().saturating_sub(SHOWN)..];
    format!("home {home:#018b}, {} records; the last of them, by kind, task and number\n{last:?}\n", list.len())
}

/// The answer is just this.
pub fn expect(tally: &mut Tally, name: &str, list: &[Lend], home: u32, expected: Answer) {
    let got = said(list, home);
    tally.check(got == Ok(expected), || format!("settle, {name}: {}--- expected\n{expected:?}\n--- got\n{got:?}\n---", shown(list, home)));
}

fn kind(op: Op) -> u8 {
    OPS.iter().find(|known| known.2 == op).unwrap().1
}

fn lend(records: &[Numbers]) -> Vec<Lend> {
    records.iter().map(|&(kind, task, on)| [kind as u32, task, on]).collect()
}

/// Records in short, as in the examples.
fn short(records: &str) -> Vec<Lend> {
    lend(&feeding::records(&text(records)))
}

fn lend_all(recording: &[Record]) -> Vec<Lend> {
    let one = |record: &Record| match *record {
        Record::Act(Act { op, task, on }) => [kind(op) as u32, task, on],
        Record::Lost(mask) => [LOST as u32, mask.wrapping_mul(0x9e37_79b9), mask],
    };
    recording.iter().map(one).collect()
}

fn tasks_of(mask: u32) -> Vec<u32> {
    (0..TASKS).filter(|task| mask >> task & 1 == 1).collect()
}

/// The tasks that some mark names.
fn marked(recording: &[Record]) -> u32 {
    recording.iter().fold(0, |all, record| if let Record::Lost(mask) = record { all | mask } else { all })
}

// ---- The rule

/// Whether home can force Clear, for each access of a recording: home plays the two whole rounds over those of its tasks that a mark names, far plays
/// nothing, and the search looks for paths.
fn forced(recording: &[Record], home: u32) -> Vec<bool> {
    let accesses = oracle::accesses(recording);
    let paths = oracle::paths(&oracle::complete(recording, |mask| oracle::fullest(mask & home)));
    (0..accesses.len()).map(|this| !oracle::racy(&accesses, &paths, this)).collect()
}

// ---- The words of the request: every small filling

/// What each side may write at a mark: these, each by any of its tasks that the mark names, so many at most.
struct Reach<'a> {
    home_ops: &'a [(Op, u32)],
    home_most: usize,
    far_ops: &'a [(Op, u32)],
    far_most: usize,
}

/// Every list of at most so many of these records, the empty one first.
fn lists(tasks: &[u32], ops: &[(Op, u32)], most: usize) -> Vec<Vec<Act>> {
    let mut all = vec![Vec::new()];
    let mut from = 0;
    for _ in 0..most {
        let upto = all.len();
        for at in from..upto {
            for (task, (op, on)) in tasks.iter().flat_map(|task| ops.iter().map(move |op| (*task, *op))) {
                all.push([&all[at][..], &[Act { op, task, on }]].concat());
            }
        }
        from = upto;
    }
    all
}

/// Every way to put the far records among the home ones, each side's staying in their order.
fn merges(home: &[Act], far: &[Act]) -> Vec<Vec<Act>> {
    match (home, far) {
        (_, []) => vec![home.to_vec()],
        ([], _) => vec![far.to_vec()],
        ([a, home_rest @ ..], [b, far_rest @ ..]) => {
            let before =
                |first: &Act, rest: Vec<Vec<Act>>| rest.into_iter().map(|list| [&[*first], &list[..]].concat()).collect::<Vec<_>>();
            [before(a, merges(home_rest, far)), before(b, merges(home, far_rest))].concat()
        }
    }
}

/// One of these lists for each mark; true as soon as `found` is of some choice.
fn some_choice<'a>(of: &'a [Vec<Vec<Act>>], chosen: &mut Vec<&'a [Act]>, found: &mut dyn FnMut(&[&[Act]]) -> bool) -> bool {
    let Some(options) = of.get(chosen.len()) else { return found(chosen) };
    options.iter().any(|option| {
        chosen.push(option);
        let yes = some_choice(of, chosen, found);
        chosen.pop();
        yes
    })
}

/// The same for the far side's lists, each put among the home records of its mark in every way.
fn some_far(home: &[&[Act]], far: &[Vec<Vec<Act>>], both: &mut Vec<Vec<Act>>, found: &mut dyn FnMut(&[Vec<Act>]) -> bool) -> bool {
    let Some(options) = far.get(both.len()) else { return found(both) };
    options.iter().any(|option| {
        merges(home[both.len()], option).into_iter().any(|merged| {
            both.push(merged);
            let yes = some_far(home, far, both, found);
            both.pop();
            yes
        })
    })
}

/// The access that ends the recording is racy where the marks are filled so: going back along steps from it, some earlier one that conflicts with
/// it is not met.
fn racy_with(recording: &[Record], accesses: &[Access], fillings: &[Vec<Act>]) -> bool {
    let mut fillings = fillings.iter();
    let events = oracle::complete(recording, |_| fillings.next().unwrap().clone());
    let mut leads = vec![false; events.len()];
    leads[events.len() - 1] = true;
    for j in (0..events.len()).rev() {
        if leads[j] {
            (0..j).for_each(|i| leads[i] |= oracle::step(&events[i].act, &events[j].act));
        }
    }
    let (last, earlier) = accesses.split_last().unwrap();
    let place = |access: &Access| events.iter().position(|event| event.rec == access.rec).unwrap();
    earlier.iter().any(|access| oracle::conflict(access, last) && !leads[place(access)])
}

/// There are home records for the marks such that, with any far records put among them at the same marks, the access that ends the recording is not
/// racy. Each side writes only for its own tasks that the mark names.
fn can_force(recording: &[Record], home: u32, reach: &Reach) -> bool {
    let accesses = oracle::accesses(recording);
    let masks: Vec<u32> = recording.iter().filter_map(|record| if let Record::Lost(mask) = record { Some(*mask) } else { None }).collect();
    let of_home: Vec<_> = masks.iter().map(|mask| lists(&tasks_of(mask & home), reach.home_ops, reach.home_most)).collect();
    let of_far: Vec<_> = masks.iter().map(|mask| lists(&tasks_of(mask & !home), reach.far_ops, reach.far_most)).collect();
    some_choice(&of_home, &mut Vec::new(), &mut |home| {
        !some_far(home, &of_far, &mut Vec::new(), &mut |both| racy_with(recording, &accesses, both))
    })
}

/// Objects of one kind and number, so that a task can do no more at a mark than learn from it and then pass on what it knows.
const SEMAPHORE: [(Op, u32); 2] = [(Op::Take, 0), (Op::Give, 0)];
const FLAG: [(Op, u32); 2] = [(Op::Look, 0), (Op::Set, 0)];
const ANY: [(Op, u32); 5] = [(Op::Take, 0), (Op::Give, 0), (Op::Look, 0), (Op::Set, 0), (Op::Miss, 0)];
/// Two semaphores and a flag: a task that passes on what two others know takes twice and gives once.
const THREE: [(Op, u32); 7] = [(Op::Take, 0), (Op::Take, 1), (Op::Give, 0), (Op::Give, 1), (Op::Look, 0), (Op::Set, 0), (Op::Miss, 0)];

/// What short recordings are like, and how far the fillings must reach to leave nothing out.
#[derive(Clone, Copy, PartialEq)]
enum Family {
    /// One mark, three objects, one home task that it names, and three others at most: three records.
    OneTask,
    /// Two marks, one object, at most one home task that each of them names: two records at each.
    TwoMarks,
    /// One mark, one object, two home tasks that it names: five records, the one learning from the other and back.
    TwoTasks,
}

struct Brief {
    family: Family,
    recording: Vec<Record>,
    /// The objects that its records use.
    objects: &'static [(Op, u32)],
}

impl Brief {
    /// The reach that leaves nothing out for this home set; none where the family has none.
    fn reach(&self, home: u32) -> Option<Reach<'static>> {
        let most =
            self.recording.iter().map(|record| if let Record::Lost(mask) = record { (mask & home).count_ones() } else { 0 }).max()?;
        match (self.family, most) {
            (Family::OneTask, 0..=1) => Some(Reach { home_ops: &THREE, home_most: 3, far_ops: &ANY, far_most: 2 }),
            (Family::TwoMarks, 0..=1) => Some(Reach { home_ops: &ANY, home_most: 2, far_ops: &ANY, far_most: 1 }),
            (Family::TwoTasks, 0..=1) => Some(Reach { home_ops: &ANY, home_most: 2, far_ops: &ANY, far_most: 2 }),
            (Family::TwoTasks, 2) => Some(Reach { home_ops: self.objects, home_most: 5, far_ops: &ANY, far_most: 1 }),
            _ => None,
        }
    }

    /// Up to four tasks, few records, and an access at the end that is in Doubt; one in some is not.
    fn new(random: &mut Random) -> Brief {
        loop {
            let family = random.pick(&[Family::OneTask, Family::TwoMarks, Family::TwoTasks]);
            let objects: &[(Op, u32)] = match family {
                Family::OneTask => &THREE,
                _ => random.pick(&[&SEMAPHORE[..], &FLAG[..]]),
            };
            let recording = brief(random, family, objects);
            let Some(Record::Act(last)) = recording.last() else { continue };
            if oracle::is_access(last.op) && (in_doubt(&recording) || random.percent(1)) {
                return Brief { family, recording, objects };
            }
        }
    }
}

/// Two to four tasks, one of which may be a courier: started before the first mark, named by it, joined after it, and otherwise idle.
fn brief(random: &mut Random, family: Family, objects: &[(Op, u32)]) -> Vec<Record> {
    let courier = random.percent(25);
    let tasks = 2 + random.below(if courier { 2 } else { 3 }) as u32;
    let act = |op, task, on| Record::Act(Act { op, task, on });
    let any = |random: &mut Random| random.below(tasks as usize) as u32;
    let access = |random: &mut Random| act(random.pick(&[Op::Write, Op::Write, Op::Read, Op::Bump]), any(random), 0);
    let mark = |random: &mut Random| if random.percent(50) { 1 << any(random) } else { 1 + random.below((1 << tasks) - 1) as u32 };
    let some = |random: &mut Random, records: &mut Vec<Record>, most: usize| {
        for _ in 0..random.below(most + 1) {
            let (op, on) = match random.below(20) {
                0..=11 => random.pick(objects),
                12 => (Op::Miss, 0),
                13 => (Op::Fresh, 0),
                14 => (Op::Join, any(random)),
                15 => (Op::Start, any(random)),
                16 => (Op::Owned, 0),
                _ => (random.pick(&[Op::Write, Op::Read, Op::Bump]), 0),
            };
            records.push(act(op, any(random), on));
        }
    };
    // One task may be started late or never.
    let late = if random.percent(20) { any(random) } else { 0 };
    let mut records: Vec<Record> = (1..tasks).filter(|task| *task != late).map(|task| act(Op::Start, 0, task)).collect();
    records.push(access(random));
    some(random, &mut records, 3);
    if courier {
        records.push(act(Op::Start, any(random), tasks));
    }
    let named = if courier && random.percent(50) { 0 } else { mark(random) };
    records.push(Record::Lost(named | (courier as u32) << tasks));
    some(random, &mut records, 2);
    if courier {
        records.push(act(Op::Join, any(random), tasks));
    }
    if family == Family::TwoMarks {
        records.push(Record::Lost(mark(random)));
        some(random, &mut records, 2);
    }
    records.push(access(random));
    // What is refused is left out.
    oracle::feed(records.into_iter().map(Some)).recording
}

/// In Doubt, by rounds over the few numbers that are used: enough to choose recordings by.
fn in_doubt(recording: &[Record]) -> bool {
    let accesses = oracle::accesses(recording);
    let racy =
        |fill: &dyn Fn(u32) -> Vec<Act>| oracle::racy(&accesses, &oracle::paths(&oracle::complete(recording, fill)), accesses.len() - 1);
    racy(&oracle::as_arrived) && !racy(&|mask| oracle::fullest(mask).into_iter().filter(|act| act.on < 2).collect())
}

/// The rule says what the words of the request say, and so does the archive.
fn run_every_filling(first: u64) -> Tally {
    let mut tally = Tally::new();
    for seed in (first..SHORT_RECORDINGS).step_by(THREADS as usize) {
        let mut random = Random::new(13_000_000 + seed);
        let brief = Brief::new(&mut random);
        let (recording, all) = (&brief.recording, marked(&brief.recording));
        let mut can = Vec::new();
        for part in (0..=all).filter(|part| part & !all == 0) {
            let Some(reach) = brief.reach(part) else { continue };
            // Tasks that no mark names are of no use to either side.
            let home = part | random.next() as u32 & 0xffff & !all;
            let yes = can_force(recording, home, &reach);
            let by_rule = *forced(recording, home).last().unwrap();
            let list = lend_all(recording);
            tally.check(yes == by_rule, || format!("settle, rule, short recording {seed}: every filling {yes}, {}", shown(&list, home)));
            expect(&mut tally, &format!("every filling, short recording {seed}"), &list, home, [0, if yes { YES } else { NO }]);
            see_filling(&mut tally, &brief, part, yes, &can);
            can.extend(yes.then_some(part));
        }
    }
    tally
}

/// Notes what a home set was like; `can` are smaller ones that can.
fn see_filling(tally: &mut Tally, brief: &Brief, home: u32, yes: bool, can: &[u32]) {
    let masks = || brief.recording.iter().filter_map(|record| if let Record::Lost(mask) = record { Some(*mask) } else { None });
    // A Clear is had with no records at all.
    if can.contains(&0) || yes && home == 0 {
        return tally.see("settle, every filling: Clear", 1);
    }
    tally.see(if yes { "settle, every filling: yes" } else { "settle, every filling: no" }, 1);
    if brief.recording.iter().any(|record| matches!(record, Record::Act(Act { op: Op::Owned, .. }))) {
        tally.see(if yes { "settle, every filling: yes, and an owned" } else { "settle, every filling: no, and an owned" }, 1);
    }
    tally.see("settle, every filling: no, home could write some", (!yes && home != 0) as usize);
    if yes && !can.iter().any(|smaller| smaller & !home == 0) {
        tally.see("settle, every filling: yes, far could add records", masks().any(|mask| mask & !home != 0) as usize);
        tally
            .see("settle, every filling: yes, by two home tasks of one mark", masks().any(|mask| (mask & home).count_ones() == 2) as usize);
        tally.see(
            "settle, every filling: yes, by two tasks at two marks",
            (masks().all(|mask| mask & home != 0 && mask & home != home)) as usize,
        );
    }
}

// ---- By hand

/// The records, and for home sets as 16 bits whether home can force Clear. Task 0 has the bit 1, task 1 the bit 2, task 2 the bit 4.
const SHORT: &[(&str, &str, &[u32], &[u32])] = &[
    // The name, the records, the sets that can, the sets that cannot.
    ("an access alone", "write 0 5", &[0, 1, 0xffff], &[]),
    ("K2, a Race", "start 0 1, write 0 5, read 1 5", &[], &[0, 1, 2, 3, 0xffff]),
    ("K3, Clear", "write 0 5, start 0 1, read 1 5", &[0, 1, 2, 3, 0xffff], &[]),
    ("K7, Clear", "start 0 1, start 0 2, write 1 5, give 1 4, give 2 4, take 0 4, read 0 5", &[0, 1, 0xffff], &[]),
    ("K8, a Race before the loss", "start 0 1, write 0 5, lost 3, read 0 6, write 1 6", &[], &[0, 1, 2, 3, 0xffff]),
    ("K9", "start 0 1, write 0 5, lost 3, write 1 5", &[3, 7, 0x8003, 0xffff], &[0, 1, 2, 0xfffc, 0xfffd, 0xfffe]),
    ("K10, a Race", "start 0 1, write 0 5, lost 2, write 1 5", &[], &[0, 1, 2, 3, 0xffff]),
    ("K11 with a take", "start 0 1, write 0 5, lost 1, take 1 9, write 1 5", &[1, 3, 0xffff], &[0, 2, 0xfffe]),
    ("K12", "start 0 1, write 0 5, lost 1, lost 2, write 1 5", &[3, 0xffff], &[0, 1, 2, 0xfffe, 0xfffd]),
    ("K12 the other way round", "start 0 1, write 0 5, lost 2, lost 1, write 1 5", &[], &[0, 1, 2, 3, 0xffff]),
    ("K12 with both named at both", "start 0 1, write 0 5, lost 3, lost 3, write 1 5", &[3], &[0, 1, 2]),
    ("the reader's lost take", "start 0 1, write 0 5, give 0 2, lost 2, read 1 5", &[2, 3, 0xfffe], &[0, 1, 0xfffd]),
    ("the writer's lost give", "start 0 1, write 0 5, lost 1, take 1 2, read 1 5", &[1, 3, 0xfffd], &[0, 2, 0xfffe]),
    ("the writer's lost set", "start 0 1, write 0 5, lost 1, look 1 2, read 1 5", &[1, 3, 0xfffd], &[0, 2, 0xfffe]),
    ("by flags", "start 0 1, write 0 5, set 0 2, lost 2, read 1 5", &[2, 3], &[0, 1]),
    ("a look gives nothing", "start 0 1, write 0 5, look 0 2, lost 2, read 1 5", &[], &[0, 1, 2, 3, 0xffff]),
    ("either", "start 0 1, write 0 5, give 0 2, lost 2, lost 1, take 1 9, read 1 5", &[1, 2, 3, 0xffff], &[0, 0xfffc]),
    // An idle task that a mark names and a later join ends.
    (
        "a task that may have acted",
        "start 0 2, write 0 5, start 0 1, lost 2, join 2 1, read 2 5",
        &[2, 3, 6, 0xffff],
        &[0, 1, 4, 5, 0xfffd],
    ),
    ("it acted", "start 0 2, write 0 5, start 0 1, lost 2, read 1 6, join 2 1, read 2 5", &[0, 1, 2, 4], &[]),
    ("the mark before its start tells nothing", "start 0 2, start 0 1, lost 2, write 0 5, join 2 1, read 2 5", &[], &[0, 2, 7, 0xffff]),
    // Each side writes for tasks that the mark names.
    (
        "a third task carries it",
        "start 0 1, start 0 2, write 0 5, give 0 3, lost 4, take 1 9, read 1 5",
        &[4, 5, 0xfffc],
        &[0, 1, 2, 3, 0xfffb],
    ),
    (
        "a third task, and one step too many",
        "start 0 1, start 0 2, write 0 5, give 0 3, lost 4, lost 2, read 1 5",
        &[2, 6, 0xffff],
        &[0, 1, 4, 5, 0xfffd],
    ),
    (
        "named at one mark and wanted at the other",
        "start 0 1, write 0 5, lost 1, give 0 7, lost 1, read 1 6, write 0 6, lost 2, read 1 6",
        &[],
        &[0, 1, 2],
    ),
    (
        "two partners, each wants its own",
        "start 0 1, start 0 2, write 1 5, write 2 5, lost 2, lost 4, take 0 1, read 0 5",
        &[6, 7, 0xffff],
        &[0, 1, 2, 4, 5, 3],
    ),
    (
        "two partners, and the reader takes for both",
        "start 0 1, start 0 2, write 1 5, give 1 1, write 2 5, set 2 1, lost 1, read 0 5",
        &[1, 0xffff],
        &[0, 2, 4, 6, 0xfffe],
    ),
    (
        "two partners, one apart whatever is lost",
        "start 0 1, start 0 2, write 1 5, give 1 1, write 2 5, lost 1, read 0 5",
        &[],
        &[0, 1, 2, 4, 7, 0xffff],
    ),
    // In a mark's list the home tasks come in any order, and more than once.
    ("from the higher task to the lower", "start 0 1, write 1 5, lost 3, read 0 5", &[3], &[0, 1, 2]),
    (
        "either of two tasks at one mark",
        "start 0 1, start 0 2, write 1 5, give 1 1, lost 6, write 2 6, give 2 2, take 0 2, write 0 5",
        &[2, 4, 6, 0xffff],
        &[0, 1, 0xfff9],
    ),
    (
        "two home tasks of one mark and none alone",
        "start 0 1, start 0 2, write 1 5, lost 6, read 2 5",
        &[6, 7, 0xffff],
        &[0, 2, 4, 3, 5, 0xfffb, 0xfffd],
    ),
    // Two controllers, tasks 0 to 3 and 4 to 7.
    (
        "only the second controller",
        "start 0 1, start 0 4, start 4 5, write 1 10, give 1 3, lost 32, read 5 10",
        &[32, 0xf0, 0xff],
        &[0, 0x0f, 2, 0xd0],
    ),
    (
        "either controller",
        "start 0 1, start 0 4, start 4 5, write 1 11, give 1 3, lost 2, lost 32, take 5 4, read 5 11",
        &[2, 32, 0x0f, 0xf0, 0xff],
        &[0, 0xdd, 0xff00],
    ),
    ("neither controller alone", "start 0 1, start 0 4, start 4 5, write 1 12, lost 34, read 5 12", &[34, 0xff], &[0, 0x0f, 0xf0, 2, 32]),
    // What a fresh cuts off is out of the question, and so are two bumps.
    ("fresh after the mark", "start 0 1, write 0 5, lost 3, fresh 1 5, write 1 5", &[0, 1, 2, 3], &[]),
    ("fresh before the mark", "start 0 1, fresh 0 5, write 0 5, lost 3, write 1 5", &[3], &[0, 1, 2]),
    ("two bumps", "start 0 1, bump 0 5, lost 3, bump 1 5", &[0, 1, 2, 3], &[]),
    ("a bump and a read", "start 0 1, bump 0 5, lost 3, read 1 5", &[3], &[0, 1, 2]),
    ("a mark at the start tells nothing", "lost 1, start 0 1, lost 3, write 0 5, write 1 5", &[], &[0, 1, 2, 3, 0xffff]),
    // Under the profile nothing is lost: a Clear or a Race, whatever home is.
    ("owned, Clear", "owned 0 0, start 0 1, take 0 2, write 0 5, give 0 2, take 1 2, read 1 5", &[0, 1, 2, 3, 0xffff], &[]),
    ("owned, a Race", "owned 0 0, start 0 1, take 0 2, write 0 5, give 0 2, miss 1 2, read 1 5", &[], &[0, 1, 2, 3, 0xffff]),
    // Marks before the profile are filled in as ever, and what is filled in holds and frees nothing.
    ("K9 and then owned", "start 0 1, write 0 5, lost 3, owned 0 0, write 1 5", &[3, 7, 0xffff], &[0, 1, 2, 0xfffd, 0xfffe]),
    ("K12 and then owned", "start 0 1, write 0 5, lost 1, lost 2, owned 1 0, write 1 5", &[3, 0xffff], &[0, 1, 2]),
    ("a lost give, taken after owned", "start 0 1, write 0 5, lost 1, owned 0 0, take 1 2, read 1 5", &[1, 3, 0xfffd], &[0, 2, 0xfffe]),
    (
        "a lost give, taken and passed on after owned",
        "start 0 1, start 0 2, write 0 5, lost 1, owned 2 0, take 2 2, give 2 2, take 2 2, give 2 2, take 1 2, read 1 5",
        &[1, 3, 0xfffd],
        &[0, 2, 4, 0xfffe],
    ),
    ("a lost take before owned", "start 0 1, write 0 5, give 0 2, lost 2, owned 0 0, take 0 2, read 1 5", &[2, 3, 0xfffe], &[0, 1, 0xfffd]),
    ("it acts by an owned", "start 0 2, write 0 5, start 0 1, lost 2, owned 1 0, join 2 1, read 2 5", &[0, 1, 2, 4], &[]),
    (
        "it may have acted before an owned",
        "start 0 2, write 0 5, start 0 1, lost 2, owned 0 0, join 2 1, read 2 5",
        &[2, 3, 6],
        &[0, 1, 4, 5],
    ),
    // The edges of the series.
    ("the last numbers", "start 0 15, write 0 63, give 0 31, lost 32768, read 15 63", &[0x8000, 0xffff], &[0, 1, 0x7fff]),
    ("the last flag", "start 0 15, write 15 63, set 15 31, lost 1, bump 0 63", &[1, 0x7fff], &[0, 0x8000, 0xfffe]),
    ("the last semaphore is taken", "start 0 15, write 15 0, lost 32768, take 0 31, bump 0 0", &[0x8000], &[0, 1, 0x7fff]),
];

/// Neither yes nor no, whatever the set.
const NO_ANSWER: &[(&str, &str, u32)] = &[
    ("no records", "", 0),
    ("ends in a mark", "start 0 1, write 0 5, lost 3, write 1 5, lost 3", 0),
    ("ends in a take", "start 0 1, write 0 5, lost 3, write 1 5, take 1 3", 0),
    ("ends in a give", "start 0 1, write 0 5, lost 3, write 1 5, give 1 3", 0),
    ("ends in a look", "start 0 1, write 0 5, lost 3, write 1 5, look 1 3", 0),
    ("ends in a set", "start 0 1, write 0 5, lost 3, write 1 5, set 1 3", 0),
    ("ends in a start", "start 0 1, write 0 5, lost 3, write 1 5, start 1 3", 0),
    ("ends in a join", "start 0 1, write 0 5, lost 3, write 1 5, join 0 1", 0),
    ("ends in a fresh", "start 0 1, write 0 5, lost 3, write 1 5, fresh 1 5", 0),
    ("ends in a miss", "start 0 1, write 0 5, lost 3, write 1 5, miss 1 3", 0),
    ("refused at the end", "start 0 1, write 0 5, lost 3, write 2 5", 6),
    ("the first refused counts", "start 0 1, read 0 64, join 1 1, lost 3, read 1 5", 3),
    ("refused before an ending that is no access", "join 0 0, give 0 1", 8),
    ("a mark that is refused", "start 0 1, write 0 5, lost 7, write 1 5", 9),
    ("a mark of nobody", "start 0 1, write 0 5, lost 0, write 1 5", 4),
    ("ends in an owned", "owned 0 0", 0),
    ("owned, ends in a take", "owned 0 0, start 0 1, write 0 5, write 1 5, take 1 3", 0),
    ("ends in a later owned", "start 0 1, write 0 5, lost 3, write 1 5, owned 1 0", 0),
    ("row 14", "start 0 1, owned 0 0, write 0 5, owned 1 0, write 1 5", 14),
    ("row 14, twice", "owned 0 0, owned 0 0", 14),
    ("row 15 after a later owned", "start 0 1, write 0 5, lost 3, owned 0 0, lost 3, write 1 5", 15),
    ("row 16 after a later owned", "start 0 1, take 0 3, write 0 5, lost 3, owned 0 0, give 0 3, write 1 5", 16),
    ("row 15", "owned 0 0, start 0 1, write 0 5, lost 3, write 1 5", 15),
    ("row 15 at the end", "owned 0 0, start 0 1, lost 3", 15),
    ("row 16, a take", "owned 0 0, start 0 1, take 0 3, write 0 5, take 1 3, write 1 5", 16),
    ("row 16, a give", "owned 0 0, start 0 1, take 0 3, write 0 5, give 1 3, write 1 5", 16),
    ("row 16 before 15", "owned 0 0, give 0 3, lost 1", 16),
    ("row 15 before 16", "owned 0 0, lost 1, give 0 3", 15),
];

const HOMES: [u32; 8] = [0, 1, 2, 3, 0x00ff, 0xaaaa, 0xfffe, 0xffff];

fn run_short(tally: &mut Tally) {
    for (name, records, can, cannot) in SHORT {
        let (list, reading) = (short(records), oracle::read(&text(records)));
        assert!(reading.recording.len() == reading.fates.len(), "every record is accepted: {records}");
        for (homes, yes) in [(can, true), (cannot, false)] {
            for &home in homes.iter() {
                let by_rule = *forced(&reading.recording, home).last().unwrap();
                tally.check(by_rule == yes, || format!("settle, rule, {name}: {by_rule}, {}", shown(&list, home)));
                expect(tally, name, &list, home, [0, if yes { YES } else { NO }]);
            }
        }
        // A larger home never turns yes into no, and none turns a Clear into no or a Race into yes.
        let verdict = oracle::judge(&reading.recording).last().unwrap().verdict;
        for home in HOMES {
            let expected = match verdict {
                Verdict::Clear => YES,
                Verdict::Race => NO,
                Verdict::Doubt if can.iter().any(|yes| yes & !home == 0) => YES,
                Verdict::Doubt if cannot.iter().any(|no| home & !no == 0) => NO,
                Verdict::Doubt => continue,
            };
            expect(tally, &format!("{name}, {verdict:?}"), &list, home, [0, expected]);
        }
        if verdict == Verdict::Doubt {
            expect(tally, &format!("{name}, the empty set"), &list, 0, [0, NO]);
            expect(tally, &format!("{name}, the full set"), &list, 0xffff, [0, YES]);
        }
    }
    for (name, records, row) in NO_ANSWER {
        for home in HOMES {
            expect(tally, name, &short(records), home, [*row, NEITHER]);
        }
    }
}

/// Records that are refused wherever they stand while task 0 is live and task 9 unseen, and with what.
const REFUSED: &[(Lend, u32)] = &[
    ([NO_KIND as u32, 0, 5], 1),
    ([255, 0, 5], 1),
    ([256, 0, 5], 1),
    ([257, 0, 5], 1),
    ([264, 0, 1], 1),
    ([65_537, 16, 64], 1),
    ([u32::MAX, u32::MAX, u32::MAX], 1),
    ([0, 16, 5], 2),
    ([1, 256, 5], 2),
    ([11, 65_536, 64], 2),
    ([9, u32::MAX, 5], 2),
    ([12, 16, 0], 2),
    ([0, 0, 64], 3),
    ([11, 0, 65_541], 3),
    ([3, 9, 32], 3),
    ([4, 0, u32::MAX], 3),
    ([6, 0, 16], 3),
    ([12, 0, 1], 3),
    ([12, 9, 65_536], 3),
    ([8, 0, 0], 4),
    ([8, u32::MAX, 65_536], 4),
    ([8, 0, u32::MAX], 4),
    ([0, 9, 5], 6),
    ([12, 9, 0], 6),
    ([6, 0, 0], 7),
    ([7, 0, 0], 8),
    ([7, 0, 9], 9),
    ([8, 16, 65_535], 9),
];

/// A refused record at each place of a list, alone and before another that would be refused with another number.
fn run_refused(tally: &mut Tally) {
    let sound = short("start 0 1, start 0 2, write 0 5, give 0 2, lost 2, write 1 5, fresh 2 6, join 1 2, miss 1 2, lost 3, bump 1 5");
    expect(tally, "the list that records are put into", &sound, 2, [0, YES]);
    expect(tally, "the list that records are put into", &sound, 1, [0, NO]);
    for place in 0..=sound.len() {
        for (at, &(record, row)) in REFUSED.iter().enumerate() {
            let mut list = sound.clone();
            list.insert(place, record);
            let (name, home) = (format!("{record:?} at place {place}"), HOMES[(at + place) % HOMES.len()]);
            expect(tally, &name, &list, home, [row, NEITHER]);
            expect(tally, &name, &list[..=place], home, [row, NEITHER]);
            expect(tally, &name, &list[..place], home, beginning(&list[..place], home));
            list.insert(place + 1 + at % (sound.len() - place + 1), REFUSED[at * 7 % REFUSED.len()].0);
            expect(tally, &format!("{name} and another after it"), &list, home, [row, NEITHER]);
        }
    }
    // The task of a mark is not looked at.
    for task in [0, 1, 9, 16, 256, u32::MAX] {
        let list = [short("start 0 1, write 0 5, give 0 2"), vec![[LOST as u32, task, 2]], short("read 1 5")].concat();
        expect(tally, "a mark of any task", &list, 2, [0, YES]);
        expect(tally, "a mark of any task", &list, 1, [0, NO]);
        expect(tally, "a mark of any task at the end", &list[..4], 2, [0, NEITHER]);
    }
}

/// As many records as there may be, and one more. The search would take too long; the answers are by hand.
fn run_full(tally: &mut Tally) {
    let mut list = short("start 0 1, write 0 5, give 0 2");
    list.resize(LIMIT - 2, [kind(Op::Give) as u32, 0, 3]);
    list.extend(short("lost 2, read 1 5"));
    expect(tally, "as many as there may be", &list, 2, [0, YES]);
    expect(tally, "as many as there may be", &list, 0xfffd, [0, NO]);
    list.push([0, 0, 5]);
    expect(tally, "one past the limit", &list, 2, [5, NEITHER]);
    list[LIMIT] = [LOST as u32, 0, 3];
    expect(tally, "one past the limit, a mark", &list, 0xffff, [5, NEITHER]);
    list[LIMIT] = [0, 16, 64];
    expect(tally, "one past the limit, refused before that", &list, 0xffff, [2, NEITHER]);
    list[10] = [7, 0, 0];
    expect(tally, "refused long before the limit", &list, 2, [8, NEITHER]);

    let mut list = short("owned 0 0, start 0 1, take 0 2, write 0 5, give 0 2, take 1 2");
    list.resize(LIMIT - 1, [kind(Op::Miss) as u32, 0, 2]);
    list.extend(short("read 1 5"));
    expect(tally, "under the profile, as many as there may be", &list, 0, [0, YES]);
    for record in short("owned 0 0, lost 3, take 0 2, give 0 2") {
        list.truncate(LIMIT);
        list.push(record);
        expect(tally, &format!("under the profile, one past the limit, {record:?}"), &list, 3, [5, NEITHER]);
    }
    for (record, row) in short("owned 0 0, lost 3, take 0 2, take 1 2, give 0 2").into_iter().zip([14, 15, 16, 16, 16]) {
        list.truncate(LIMIT - 1);
        list.push(record);
        expect(tally, &format!("under the profile, the last of the limit, {record:?}"), &list, 3, [row, NEITHER]);
    }
}

// ---- Lists

fn read(list: &[Lend]) -> oracle::Reading {
    // A kind that is no byte is none of the known ones.
    oracle::feed(list.iter().map(|&[kind, task, on]| oracle::record_of(u8::try_from(kind).ok()?, task, on)))
}

/// What document 02 says of a list, by the rule.
pub fn beginning(list: &[Lend], home: u32) -> Answer {
    let reading = read(list);
    let row = reading.fates.iter().find_map(|fate| if let Fate::Refused(row) = fate { Some(*row) } else { None });
    match (row, reading.recording.last()) {
        (Some(row), _) => [row, NEITHER],
        (None, Some(Record::Act(act))) if oracle::is_access(act.op) => {
            [0, if *forced(&reading.recording, home).last().unwrap() { YES } else { NO }]
        }
        _ => [0, NEITHER],
    }
}

/// Home sets for a recording: none, all, one marked task, some of the marked tasks and some of the others, and those against each other.
fn homes(random: &mut Random, recording: &[Record]) -> Vec<u32> {
    let all = marked(recording);
    let mut one = |among: u32| tasks_of(among).get(random.below(TASKS as usize) % tasks_of(among).len().max(1)).map_or(0, |task| 1 << task);
    let (alone, single) = (one(all), one(all) | one(0xffff & !all));
    let part = random.next() as u32 & 0xffff;
    let larger = part | random.next() as u32 & 0xffff;
    vec![0, 0xffff, alone, single, part, larger, 0xffff & !part]
}

/// What feeding answers to each record of an accepted list: its verdict, if it is an access.
fn verdicts(list: &[Lend]) -> Result<Vec<Option<Verdict>>, String> {
    let mut state = Lent::fresh(&CLOCKS)?;
    let mut one = |&[kind, task, on]: &Lend| match state.feed((kind as u8, task, on), false)? {
        [1, ..] => Ok(None),
        [2, ..] => Ok(Some(Verdict::Clear)),
        [3, ..] => Ok(Some(Verdict::Race)),
        [4, ..] => Ok(Some(Verdict::Doubt)),
        other => Err(format!("{other:?}")),
    };
    list.iter().map(&mut one).collect()
}

/// Lent in some of its lengths, with some home sets, a list is answered by the rule; and the answers agree with the verdicts and with each other.
pub fn compare(tally: &mut Tally, random: &mut Random, name: &str, list: &[Lend], most: usize) {
    let reading = read(list);
    let refused = reading.fates.iter().position(|fate| matches!(fate, Fate::Refused(_)));
    let accepted = refused.unwrap_or(list.len());
    let recording = &reading.recording[..accepted];
    let (accesses, all) = (oracle::accesses(recording), marked(recording));
    let verdicts = verdicts(&list[..accepted]);
    let Ok(verdicts) = verdicts else {
        return tally.check(false, || format!("settle, {name}: feeding answers {}", verdicts.unwrap_err()));
    };
    tally.see("settle, refused lists", refused.is_some() as usize);
    let doubtful: Vec<usize> = (1..=accepted).filter(|end| verdicts[end - 1] == Some(Verdict::Doubt)).collect();
    let mut ends: Vec<usize> = (0..most).map(|_| random.below(list.len() + 1)).chain([list.len()]).collect();
    ends.extend((0..most).filter(|_| !doubtful.is_empty()).map(|_| random.pick(&doubtful)));
    let homes = homes(random, recording);
    let lent = list.to_vec();
    let mut yes = vec![Vec::new(); ends.len()];
    for &home in &homes {
        let forced = forced(recording, home);
        let mut wrong = None;
        for (at, &end) in ends.iter().enumerate() {
            let expected = match (refused.filter(|refused| *refused < end), accesses.binary_search_by_key(&end, |access| access.rec)) {
                (Some(refused), _) => match reading.fates[refused] {
                    Fate::Refused(row) => [row, NEITHER],
                    Fate::Accepted(_) => unreachable!(),
                },
                (None, Ok(access)) => [0, if forced[access] { YES } else { NO }],
                (None, Err(_)) => [0, NEITHER],
            };
            let got = said(&lent[..end], home);
            if wrong.is_none() && got != Ok(expected) {
                wrong = Some(format!("{}--- expected\n{expected:?}\n--- got\n{got:?}\n---", shown(&list[..end], home)));
            }
            if let Some(verdict) = verdicts.get(end.wrapping_sub(1)).copied().flatten().filter(|_| end <= accepted) {
                see(tally, verdict, home & all, all, expected[1] == YES);
                yes[at].push((home, got.is_ok_and(|got| got[1] == YES), verdict));
            }
        }
        tally.check(wrong.is_none(), || format!("settle, {name}: {}", wrong.unwrap()));
    }
    tally.check(lent == list, || format!("settle, {name}: the list is changed"));
    let agrees = |&(home, yes, verdict): &(u32, bool, Verdict)| match verdict {
        Verdict::Clear => yes,
        Verdict::Race => !yes,
        Verdict::Doubt => (home != 0 || !yes) && (home != 0xffff || yes),
    };
    let grows = |of: &[(u32, bool, Verdict)]| of.iter().all(|one| of.iter().all(|other| one.0 & !other.0 != 0 || !one.1 || other.1));
    let right = yes.iter().all(|of| of.iter().all(agrees) && grows(of));
    tally.check(right, || format!("settle, {name}: the answers and the verdicts\n{yes:?}\n{}", shown(list, 0)));
}

fn see(tally: &mut Tally, verdict: Verdict, home: u32, all: u32, yes: bool) {
    match verdict {
        Verdict::Clear => tally.see("settle, Clear", 1),
        Verdict::Race => tally.see("settle, Race", 1),
        Verdict::Doubt if home != 0 && home != all => {
            tally.see(
                if yes { "settle, Doubt: yes, by a part of the marked tasks" } else { "settle, Doubt: no, by a part of the marked tasks" },
                1,
            );
            tally.see("settle, Doubt: yes, by one task alone", (yes && home.count_ones() == 1) as usize);
        }
        Verdict::Doubt => {}
    }
}

/// Longer recordings than every filling can be tried on: where home can, its rounds hold against far records at random; where it cannot, records at
/// random of its own do not help it.
fn run_fillings(tally: &mut Tally, random: &mut Random, name: &str, recording: &[Record]) {
    let accesses = oracle::accesses(recording);
    let part = random.next() as u32 & 0xffff;
    for home in [0, part, 0xffff & !part, 0xffff] {
        let forced = forced(recording, home);
        let objects = random.pick(&[1, 2, 3]);
        let fill = |random: &mut Random, mask: u32| if mask == 0 { Vec::new() } else { filling(random, mask, objects) };
        let with_far = oracle::paths(&oracle::complete(recording, |mask| {
            let far = fill(random, mask & !home);
            shuffled(random, oracle::fullest(mask & home), far)
        }));
        let without = oracle::paths(&oracle::complete(recording, |mask| fill(random, mask & home)));
        let wrong: Vec<usize> = (0..accesses.len())
            .filter(|&this| if forced[this] { oracle::racy(&accesses, &with_far, this) } else { !oracle::racy(&accesses, &without, this) })
            .collect();
        tally.check(wrong.is_empty(), || format!("settle, fillings, {name}: accesses {wrong:?}, {}", shown(&lend_all(recording), home)));
    }
}

/// Two lists put among each other at random.
fn shuffled(random: &mut Random, one: Vec<Act>, other: Vec<Act>) -> Vec<Act> {
    let (mut one, mut other) = (one.into_iter().peekable(), other.into_iter().peekable());
    let mut both = Vec::new();
    while one.peek().is_some() || other.peek().is_some() {
        let first = other.peek().is_none() || one.peek().is_some() && random.percent(50);
        both.extend(if first { one.next() } else { other.next() });
    }
    both
}

fn run_generated(first: u64) -> Tally {
    let mut tally = Tally::new();
    for seed in (first..LISTS).step_by(THREADS as usize) {
        let mut random = Random::new(14_000_000 + seed);
        let (any, stray) = (shape(&mut random), random.pick(&[0, 0, 0, 4]));
        let (marks, named) = (random.pick(&[5, 10, 25]), random.pick(&[2, 4, 6]));
        let shape = Shape { length: any.length.min(150), marks, named, stray, damage: stray / 4, ..any };
        let text = recording(&mut random, &shape);
        let list = lend(&feeding::records(&text));
        let name = format!("list {seed}");
        compare(&mut tally, &mut random, &name, &list, 12);
        if seed % 8 < THREADS {
            run_fillings(&mut tally, &mut random, &name, &oracle::read(&text).recording);
        }
    }
    tally
}

/// Every list of a write by task 0, up to two records, and a write by task 1, with each home set of three tasks.
fn run_between(tally: &mut Tally) {
    for middle in short_texts(&BETWEEN).into_iter().filter(|middle| middle.lines().count() < 3 && middle.contains("lost")) {
        let text = format!("op=start task=0 on=1\nop=write task=0 on=5\n{middle}op=write task=1 on=5\n").into_bytes();
        let list = lend(&feeding::records(&text));
        for home in 0..8 {
            expect(tally, "in between", &list, home, beginning(&list, home));
        }
    }
}

/// A few that are long.
fn run_long(first: u64) -> Tally {
    let mut tally = Tally::new();
    let base = |tasks, marks, named| Shape {
        length: 1_500,
        tasks,
        variables: 3,
        objects: 4,
        marks,
        named,
        idle: 30,
        stay: 0,
        stray: 0,
        damage: 0,
        owned: None,
    };
    let shapes = [
        base(4, 1, 8),
        base(16, 1, 12),
        Shape { variables: 64, objects: 32, ..base(16, 2, 12) },
        Shape { length: 200, ..base(4, 8, 20) },
        Shape { owned: Some(Profile { after: 0, wrong: 0 }), ..base(4, 0, 0) },
        Shape { owned: Some(Profile { after: 400, wrong: 0 }), ..base(4, 2, 8) },
    ];
    for (at, shape) in shapes.iter().enumerate().skip(first as usize).step_by(THREADS as usize) {
        let mut random = Random::new(15_000_000 + at as u64);
        let list = lend(&feeding::records(&recording(&mut random, shape)));
        compare(&mut tally, &mut random, &format!("long list {at}"), &list, 60);
    }
    tally
}

// ---- The program

/// What a program wrote, what it said on standard error, and its exit status.
type Ended = (Vec<u8>, String, Option<i32>);

fn collect(mut output: impl Read + Send + 'static) -> std::thread::JoinHandle<Vec<u8>> {
    std::thread::spawn(move || {
        let mut all = Vec::new();
        let _ = output.read_to_end(&mut all);
        all
    })
}

/// Runs the program on a text, or on a pipe that stays open where there is none. An answer may come before the end of the input.
fn ended(program: &str, words: &[OsString], text: Option<(&[u8], Cuts)>, patience: Duration) -> Result<Ended, String> {
    let mut command = Command::new(program);
    let spawned = command.args(words).stdin(Stdio::piped()).stdout(Stdio::piped()).stderr(Stdio::piped()).spawn();
    let mut child = spawned.map_err(|e| format!("{program} cannot be started: {e}"))?;
    let (wrote, said) = (collect(child.stdout.take().unwrap()), collect(child.stderr.take().unwrap()));
    let since = Instant::now();
    let open = match text {
        Some((text, cuts)) => {
            drop(program::feed(&mut child, &pieces(text, cuts), since));
            None
        }
        None => child.stdin.take(),
    };
    let status = loop {
        match child.try_wait().map_err(|e| e.to_string())? {
            Some(status) => break Ok(status.code()),
            None if since.elapsed() > patience => break Err("the program does not end".to_string()),
            None => std::thread::sleep(Duration::from_micros(200)),
        }
    };
    drop(open);
    let _ = child.kill();
    let _ = child.wait();
    let (wrote, said) = (wrote.join().unwrap(), String::from_utf8_lossy(&said.join().unwrap()).into_owned());
    Ok((wrote, said, status?))
}

/// What it wrote, where it ended well and had nothing to say.
fn ran(program: &str, words: &[String], text: &[u8], cuts: Cuts) -> Result<Vec<u8>, String> {
    let words: Vec<OsString> = words.iter().map(OsString::from).collect();
    match ended(program, &words, Some((text, cuts)), PATIENCE)? {
        (wrote, said, Some(0)) if said.is_empty() => Ok(wrote),
        (wrote, said, status) => Err(format!("it ends with {status:?}, says {said:?} and wrote {} bytes", wrote.len())),
    }
}

/// The words that name a home set, in any order, some of them twice.
fn words(random: &mut Random, home: u32) -> Vec<String> {
    let mut tasks = tasks_of(home);
    for at in (1..tasks.len()).rev() {
        tasks.swap(at, random.below(at + 1));
    }
    for _ in 0..random.pick(&[0, 0, 1, 3]) {
        tasks.extend(tasks.first().copied());
    }
    if tasks.is_empty() {
        return vec!["none".to_string()];
    }
    tasks.iter().map(u32::to_string).collect()
}

/// The line for a home set and the access that ends a recording.
pub fn line(text: &[u8], home: u32) -> String {
    let reading = oracle::read(text);
    let first =
        reading.fates.iter().enumerate().find_map(|(at, fate)| if let Fate::Refused(row) = fate { Some((at + 1, row)) } else { None });
    if let Some((line, row)) = first {
        return format!("line={line} refused={row}\n");
    }
    let word = match reading.recording.last() {
        Some(Record::Act(act)) if oracle::is_access(act.op) => match *forced(&reading.recording, home).last().unwrap() {
            true => "yes",
            false => "no",
        },
        _ => "neither",
    };
    format!("settle={word}\n")
}

/// The table of a whole recording: refused lines and Doubts as the report has them, each Doubt with the tasks whose lost records could settle it
/// alone; and at the end, for each task, how many it could.
fn table(text: &[u8], ended: bool) -> String {
    let reading = oracle::read(text);
    let judged = oracle::judge(&reading.recording);
    // A task that no mark names writes nothing.
    let (all, nothing) = (marked(&reading.recording), forced(&reading.recording, 0));
    let alone = |task: u32| if all >> task & 1 == 1 { forced(&reading.recording, 1 << task) } else { nothing.clone() };
    let by_task: Vec<Vec<bool>> = (0..TASKS).map(alone).collect();
    let (mut out, mut doubts, mut settles) = (String::new(), 0, [0; TASKS as usize]);
    for (at, fate) in reading.fates.iter().enumerate() {
        let rec = match fate {
            Fate::Refused(row) => {
                out += &format!("line={} refused={row}\n", at + 1);
                continue;
            }
            Fate::Accepted(rec) => *rec,
        };
        let Ok(this) = judged.binary_search_by_key(&rec, |one| one.access.rec) else { continue };
        let one = &judged[this];
        if one.verdict != Verdict::Doubt {
            continue;
        }
        doubts += 1;
        let alone: Vec<usize> = (0..TASKS as usize).filter(|task| by_task[*task][this]).collect();
        alone.iter().for_each(|task| settles[*task] += 1);
        let listed: Vec<String> = alone.iter().map(usize::to_string).collect();
        let listed = if alone.is_empty() { "none".to_string() } else { listed.join(",") };
        let (Access { var, task, .. }, with) = (one.access, one.with);
        out += &format!("rec={rec:0RECORD_DIGITS$} task={task} var={var} verdict=doubt with={with:0RECORD_DIGITS$} alone={listed}\n");
    }
    if ended {
        for (task, times) in settles.iter().enumerate().filter(|(_, times)| **times > 0) {
            out += &format!("task={task} settles={times}\n");
        }
        out += &format!("doubts={doubts}\n");
    }
    out
}

pub struct Program<'a> {
    pub path: &'a str,
}

impl Program<'_> {
    pub fn expect_line(&self, tally: &mut Tally, name: &str, words: &[String], text: &[u8], cuts: Cuts, expected: &str) {
        tally.expect(&format!("settle {words:?}, {name}, cut {cuts:?}"), text, expected, ran(self.path, words, text, cuts));
    }

    pub fn expect_table(&self, tally: &mut Tally, name: &str, text: &[u8], cuts: Cuts) {
        tally.expect(&format!("settle, {name}, cut {cuts:?}"), text, &table(text, true), ran(self.path, &[], text, cuts));
    }

    fn run_by_hand(&self, tally: &mut Tally) {
        let mut random = Random::new(16_000_000);
        for (at, (name, records, can, cannot)) in SHORT.iter().enumerate() {
            let (text, cuts) = (text(records), WAYS[at % WAYS.len()]);
            let pick = |random: &mut Random, of: &[u32]| (!of.is_empty()).then(|| random.pick(of));
            for (home, answer) in [(pick(&mut random, can), "settle=yes\n"), (pick(&mut random, cannot), "settle=no\n")] {
                if let Some(home) = home {
                    self.expect_line(tally, name, &words(&mut random, home), &text, cuts, answer);
                }
            }
            self.expect_table(tally, name, &text, cuts);
        }
        let given = |words: &str| words.split(' ').filter(|word| !word.is_empty()).map(String::from).collect::<Vec<_>>();
        let all = "15 14 13 12 11 10 9 8 7 6 5 4 3 2 1 0";
        let k9 = text("start 0 1, write 0 5, lost 3, write 1 5");
        let cut = &k9[..k9.len() - 1];
        let cases: &[(&str, &str, &[u8], &str)] = &[
            ("K9", "none", &k9, "settle=no\n"),
            ("K9", all, &k9, "settle=yes\n"),
            ("K9, each named twice", &format!("{all} {all}"), &k9, "settle=yes\n"),
            ("K9, one named forty times", &"1 ".repeat(40), &k9, "settle=no\n"),
            ("K9", "1 0", &k9, "settle=yes\n"),
            ("K9", "0 1 0", &k9, "settle=yes\n"),
            ("K9", "0 10", &k9, "settle=no\n"),
            ("no LF at the end", "0 1", cut, "settle=yes\n"),
            ("no LF at the end", "0", cut, "settle=no\n"),
            ("cut within the last line", "0 1", &cut[..cut.len() - 1], "line=4 refused=1\n"),
            ("no input", "none", b"", "settle=neither\n"),
            ("no input", all, b"", "settle=neither\n"),
            ("LF alone", "0", b"\n", "line=1 refused=1\n"),
            ("an empty line at the end", "0 1", &[&k9[..], b"\n"].concat(), "line=5 refused=1\n"),
            ("two refused lines", "3", b"op=read task=0 on=64\n\n\nop=read task=1 on=1\n", "line=1 refused=3\n"),
            ("refused at the end", "3", b"op=read task=0 on=1\nop=read task=9 on=1", "line=2 refused=6\n"),
            ("CR LF", "0", b"op=read task=0 on=1\r\n", "line=1 refused=1\n"),
            ("another ending", "0", b"op=read task=0 on=1\nop=give task=0 on=1\n", "settle=neither\n"),
            ("a mark at the end", "0", b"op=read task=0 on=1\nop=lost tasks=1", "settle=neither\n"),
            ("a Clear", "none", b"op=read task=0 on=1\n", "settle=yes\n"),
        ];
        for (name, words, text, expected) in cases {
            for cuts in WAYS {
                self.expect_line(tally, name, &given(words), text, cuts, expected);
            }
            self.expect_table(tally, name, text, Cuts::Nowhere);
        }
        // The form of a table, by hand.
        let doubtful = text("start 0 1, write 0 5, give 0 2, lost 2, lost 1, take 1 9, write 2 5, read 1 5, lost 3, read 0 6, write 1 6");
        let whole =
            "line=7 refused=6\nrec=0000007 task=1 var=5 verdict=doubt with=0000002 alone=0,1\ntask=0 settles=1\ntask=1 settles=1\ndoubts=1\n";
        for cuts in WAYS {
            tally.expect("settle, a table by hand", &doubtful, whole, ran(self.path, &[], &doubtful, cuts));
        }
        let none = "rec=0000004 task=1 var=5 verdict=doubt with=0000002 alone=none\ndoubts=1\n";
        tally.expect("settle, a table by hand, K9", &k9, none, ran(self.path, &[], &k9, Cuts::Nowhere));
        for (text, whole) in [(&b""[..], "doubts=0\n"), (b"\n", "line=1 refused=1\ndoubts=0\n")] {
            tally.expect("settle, a table by hand, nearly empty", text, whole, ran(self.path, &[], text, Cuts::Nowhere));
        }
    }

    /// Arguments that name no home set: one line on standard error, nothing on standard output, and no waiting for input. A program of the kit has
    /// no exit status.
    fn run_bad_words(&self, tally: &mut Tally) {
        let cases: &[&[&str]] = &[
            &["16"],
            &["17"],
            &["99"],
            &["100"],
            &["256"],
            &["65536"],
            &["4294967296"],
            &["4294967297"],
            &["18446744073709551616"],
            &["18446744073709551617"],
            &["00000000000000001"],
            &["99999999999999999999999999"],
            &["01"],
            &["00"],
            &["015"],
            &["-1"],
            &["-0"],
            &["+1"],
            &["x"],
            &["1x"],
            &["x1"],
            &["0x1"],
            &["1.0"],
            &[""],
            &[" 1"],
            &["1 "],
            &["1 2"],
            &["1,2"],
            &["1\n"],
            &["None"],
            &["NONE"],
            &["non"],
            &["nones"],
            &["all"],
            &["-"],
            &["--"],
            &["--help"],
            &["none", "0"],
            &["0", "none"],
            &["none", "none"],
            &["none", ""],
            &["", "none"],
            &["1", "x"],
            &["x", "1"],
            &["1", "2", "16"],
            &["16", "1", "2"],
            &["1", ""],
            &["", "1"],
        ];
        let bytes: [&[&[u8]]; 2] = [&[b"\xff"], &[b"1", b"\x31\x80"]];
        let spoken = cases.iter().map(|words| words.iter().map(OsString::from).collect::<Vec<_>>());
        let raw = bytes.iter().map(|words| words.iter().map(|word| OsStr::from_bytes(word).to_os_string()).collect());
        // A program that waits for input takes long to fail, so that three are enough.
        let mut failures = 0;
        for words in spoken.chain(raw) {
            let got = ended(self.path, &words, None, Duration::from_secs(5));
            let right = got.as_ref().is_ok_and(|(wrote, said, status)| {
                wrote.is_empty() && *status == Some(0) && said.len() > 1 && said.ends_with('\n') && said.lines().count() == 1
            });
            tally.check(right, || format!("settle {words:?}: {got:?}"));
            failures += !right as usize;
            if failures == 3 {
                break;
            }
        }
    }

    /// A table is written as the recording comes in; a line for a home set when it has ended.
    fn run_pauses(&self, tally: &mut Tally) {
        let doubtful = text("start 0 1, write 0 5, give 0 2, lost 2, read 1 5, read 2 5, write 0 6, lost 3, write 1 6");
        let doubtful = String::from_utf8(doubtful).unwrap();
        let mut cases = pauses::cases().to_vec();
        cases.push(("Doubts line by line", doubtful.split_inclusive('\n').map(String::from).collect()));
        cases.push(("Doubts, cut within lines", doubtful.split_inclusive("task").map(String::from).collect()));
        for (name, parts) in cases {
            let due = |text: &[u8], ended: bool| table(text, ended);
            let seen = program::start(self.path, &[]).and_then(|child| pauses::watch(child, &parts, &due));
            tally.check(seen.is_ok(), || format!("settle, pauses, {name}: {}", seen.unwrap_err()));
            if parts.concat().contains("on=64") || parts.concat().contains("task=2") {
                // With a home set a refused line may be answered at once, or at the end.
                continue;
            }
            let due = |text: &[u8], ended: bool| if ended { line(text, 2) } else { String::new() };
            let seen = program::start(self.path, &["1".to_string()]).and_then(|child| pauses::watch(child, &parts, &due));
            tally.check(seen.is_ok(), || format!("settle 1, pauses, {name}: {}", seen.unwrap_err()));
        }
        // Nobody reads the table: the program ends all the same.
        let closed = program::start(self.path, &[]).map(|mut child| {
            drop(child.stdout.take());
            let wrote = std::io::Write::write_all(&mut child.stdin.take().unwrap(), "op=read task=1 on=1\n".repeat(100_000).as_bytes());
            let _ = child.wait();
            wrote.is_err()
        });
        tally.check(closed == Ok(true), || "settle, its output closed: it reads on".to_string());
    }

    fn run_generated(&self, tally: &mut Tally, first: u64, order: &str) {
        for seed in (first..PROGRAM_RECORDINGS).step_by(THREADS as usize) {
            let mut random = Random::new(17_000_000 + seed);
            let any = shape(&mut random);
            let (marks, named) = (random.pick(&[5, 10, 25]), random.pick(&[2, 6, 10]));
            let text = recording(&mut random, &Shape { length: any.length.min(120), marks, named, ..any });
            let cuts = if seed % 2 == 0 { Cuts::Anywhere(seed) } else { WAYS[seed as usize / 2 % (WAYS.len() - 1)] };
            let name = format!("recording {seed}");
            self.expect_table(tally, &name, &text, cuts);
            self.same_doubts(tally, &name, &text, order);
            let sound = oracle::read(&text).recording;
            let sets = homes(&mut random, &sound);
            let home = random.pick(&sets);
            self.expect_line(tally, &name, &words(&mut random, home), &text, cuts, &line(&text, home));
            // Up to some access, without what is refused.
            let until = oracle::accesses(&sound).get(random.below(sound.len() + 1)).map_or(sound.len(), |access| access.rec);
            let lines = oracle::lines(&text);
            let accepted = oracle::read(&text)
                .fates
                .iter()
                .enumerate()
                .filter(|(_, fate)| matches!(fate, Fate::Accepted(_)))
                .map(|(at, _)| lines[at])
                .collect::<Vec<_>>();
            let cut = accepted[..until].join(&b'\n');
            self.expect_line(tally, &name, &words(&mut random, home), &cut, cuts, &line(&cut, home));
        }
    }

    /// The lines of a table are the Doubts and the refused lines of the report that `order` writes, byte for byte, but for what stands after them.
    fn same_doubts(&self, tally: &mut Tally, name: &str, text: &[u8], order: &str) {
        let lines = |report: Result<Vec<u8>, String>, wanted: [&str; 2]| -> Result<Vec<String>, String> {
            let report = String::from_utf8(report?).map_err(|e| e.to_string())?;
            let wanted = report.lines().filter(|line| wanted.iter().any(|wanted| line.contains(wanted)));
            Ok(wanted.map(|line| line.split(" alone=").next().unwrap().to_string()).collect())
        };
        let (one, other) = (
            lines(ran(self.path, &[], text, Cuts::Nowhere), [" alone=", " refused="]),
            lines(program::report(order, text, Cuts::Nowhere), ["verdict=doubt", " refused="]),
        );
        tally.check(one.is_ok() && one == other, || format!("settle and order, {name}: {one:?} and {other:?}\n{}", text.escape_ascii()));
    }

    /// As many records as there may be, and more. The search would take too long; the lines are by hand.
    fn run_full(&self, tally: &mut Tally) {
        let mut most = text("start 0 1, write 0 5, give 0 2");
        most.extend(text("give 0 3").repeat(LIMIT - 5));
        most.extend(text("lost 2, read 1 5"));
        let more = [&most[..], &text("read 1 5, read 16 5")].concat();
        let (at, past) = (LIMIT, LIMIT + 1);
        let doubt = format!("rec={at:0RECORD_DIGITS$} task=1 var=5 verdict=doubt with={:0RECORD_DIGITS$} alone=1\n", 2);
        let refused = format!("line={past} refused=5\n");
        let table = format!("{doubt}{refused}line={} refused=2\ntask=1 settles=1\ndoubts=1\n", past + 1);
        let cases = [("1", &most, "settle=yes\n"), ("0", &most, "settle=no\n"), ("1", &more, &refused), ("", &more, &table)];
        for (words, text, expected) in cases {
            let given: Vec<String> = words.split(' ').filter(|word| !word.is_empty()).map(String::from).collect();
            let wrote = ran(self.path, &given, text, Cuts::Nowhere);
            let right = wrote.as_ref().is_ok_and(|wrote| wrote == expected.as_bytes());
            tally.check(right, || format!("settle {words}, row 5: {:?}", wrote.map(|wrote| String::from_utf8_lossy(&wrote).into_owned())));
        }
    }
}

pub fn run(tally: &mut Tally, order: Option<&str>, program: Option<&str>) {
    run_short(tally);
    run_refused(tally);
    tally.part("settle, by hand");
    run_full(tally);
    tally.part("settle, as long as may be");
    on_threads(tally, run_every_filling);
    tally.part("settle, every small filling of both sides");
    run_between(tally);
    on_threads(tally, run_generated);
    tally.part("settle, lists and home sets");
    on_threads(tally, run_long);
    tally.part("settle, long lists");
    if let (Some(order), Some(path)) = (order, program) {
        let program = Program { path };
        program.run_by_hand(tally);
        program.run_bad_words(tally);
        tally.part("settle, the program by hand");
        program.run_pauses(tally);
        program.run_full(tally);
        tally.part("settle, the program, pauses and row 5");
        on_threads(tally, |first| {
            let mut tally = Tally::new();
            program.run_generated(&mut tally, first, order);
            tally
        });
        tally.part("settle, the program at random");
    }
    for what in SEEN {
        let times = tally.seen.get(what).copied().unwrap_or(0);
        println!("seen: {what}: {times}");
        tally.check(times >= 50, || format!("seen too seldom: {what}"));
    }
    tally.part("settle, coverage");
}
