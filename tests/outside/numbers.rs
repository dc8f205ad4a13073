//! Records with numbers that no text can say, and tables of any content.

use crate::feeding::{self, Lent, Numbers, ALL};
use crate::generate::{recording, shape, Random};
use crate::oracle::{self, Act, Fate, Op, Reading, Record, LIMIT, NO_KIND};
use crate::tally::Tally;

/// Task 1 is live, task 2 has ended, and task 0 has written variable 5.
const BEFORE: [Numbers; 4] = [(6, 0, 1), (6, 0, 2), (7, 0, 2), (1, 0, 5)];
/// Under the profile, and tasks 0 and 1 hold some semaphores.
const OWNED: [Numbers; 1] = [(12, 0, 0)];
const HELD: [Numbers; 4] = [(2, 0, 1), (2, 1, 5), (2, 0, 0), (2, 1, 31)];
const AFTER: [Numbers; 2] = [(1, 0, 5), (1, 1, 5)];

/// Live tasks, an ended one, unseen ones and none, among these some that are a task in their low bits.
const TASKS: [u32; 12] = [0, 1, 2, 3, 15, 16, 255, 256, 65_536, 65_537, 1 << 31, u32::MAX];

/// The ends of the series and of the masks, and numbers that are within them in their low bits.
const NUMBERS: [u32; 20] =
    [0, 1, 2, 3, 5, 15, 16, 31, 32, 63, 64, 255, 256, 65_535, 65_536, 65_537, 100_000, 1 << 31, (1 << 31) + 1, u32::MAX];

/// The highest number that a text can say.
const SAYABLE: u32 = 99_999;

fn read(records: &[Numbers]) -> Reading {
    oracle::feed(records.iter().map(|&(kind, task, on)| oracle::record_of(kind, task, on)))
}

/// All reckonings answer as the path search does. Counts the refusals of records that no text can say.
fn compare(tally: &mut Tally, name: &str, records: &[Numbers]) {
    let reading = read(records);
    for (&(kind, task, on), fate) in records.iter().zip(&reading.fates) {
        match fate {
            Fate::Refused(row) if kind >= NO_KIND || task.max(on) > SAYABLE => tally.see(&format!("unsayable, refused {row}"), 1),
            _ => {}
        }
    }
    feeding::expect(tally, name, records, &reading, &oracle::judge(&reading.recording));
}

/// Each kind that a byte can be, by each of these tasks, with all of these numbers.
fn each_kind(tally: &mut Tally) {
    for kind in 0..=u8::MAX {
        for task in TASKS {
            let records = [&BEFORE[..], &NUMBERS.map(|on| (kind, task, on)), &AFTER].concat();
            compare(tally, &format!("kind {kind} of task {task}"), &records);
            let numbers = NUMBERS.map(|on| (kind, task, on));
            let records = [&OWNED[..], &BEFORE, &HELD, &numbers, &numbers, &AFTER].concat();
            compare(tally, &format!("kind {kind} of task {task} under the profile"), &records);
        }
    }
}

fn is_access((kind, task, on): Numbers) -> bool {
    matches!(oracle::record_of(kind, task, on), Some(oracle::Record::Act(act)) if oracle::is_access(act.op))
}

/// A record that this row may refuse: an `owned`, a mark, a take or a give.
fn of_profile((kind, task, on): Numbers, row: u32) -> bool {
    match oracle::record_of(kind, task, on) {
        Some(Record::Act(Act { op: Op::Owned, .. })) => row == 14,
        Some(Record::Lost(_)) => row == 15,
        Some(Record::Act(Act { op: Op::Take | Op::Give, .. })) => row == 16,
        _ => false,
    }
}

fn any(random: &mut Random) -> Numbers {
    let kinds = if random.percent(70) { NO_KIND as usize } else { 256 };
    let kind = random.below(kinds) as u8;
    let number = random.next() as u32;
    let task = if random.percent(90) { random.pick(&TASKS) } else { number };
    let on = if random.percent(90) { random.pick(&NUMBERS) } else { number };
    (kind, task, on)
}

/// Such records among those of a recording.
fn among_others(tally: &mut Tally) {
    for seed in 0..300 {
        let mut random = Random::new(2_000_000 + seed);
        let shape = shape(&mut random);
        let mut records = Vec::new();
        for record in feeding::records(&recording(&mut random, &shape)) {
            while random.percent(20) {
                records.push(any(&mut random));
            }
            records.push(record);
        }
        compare(tally, &format!("recording {seed} with unsayable records"), &records);
    }
}

/// Tables to which no list of records leads: each record is answered still, in the form of an answer. Rows 1 to 4 do not ask the state.
fn any_tables(tally: &mut Tally) {
    for seed in 0..300 {
        for by in &ALL {
            let mut random = Random::new(3_000_000 + seed);
            let end = random.pick(&[2, 3, LIMIT, 1 << 32]);
            let mut lent = Lent::holding(by, || random.below(end) as u32);
            let mut wrong = Vec::new();
            for _ in 0..100 {
                let record = any(&mut random);
                let answer = lent.feed(record, true);
                let right = match (read(&[record]).fates[0], &answer) {
                    (Fate::Refused(row @ 1..=4), Ok(answer)) => *answer == [0, row, 0],
                    (_, Ok([0, row @ (5..=9 | 14..=16), with])) => (*row < 14 || of_profile(record, *row)) && *with == 0,
                    // Accesses have a verdict, and no others.
                    (_, Ok([said, number, _])) => {
                        tally.see("tables of any content, accepted", 1);
                        (1..=LIMIT as u32).contains(number) && *said <= 4 && (*said == 1) == !is_access(record)
                    }
                    (_, Err(_)) => false,
                };
                if !right {
                    wrong.push((record, answer));
                }
            }
            tally.check(wrong.is_empty(), || format!("{}, tables {seed} of any content below {end}: {wrong:?}", by.name));
        }
    }
}

pub fn run(tally: &mut Tally) {
    each_kind(tally);
    tally.part("every kind, and numbers of any size");
    among_others(tally);
    tally.part("unsayable records among others");
    any_tables(tally);
    tally.part("tables of any content");
}
