//! The same run, logged in another order: document 02, F-11. Any number of the swaps that it allows changes no verdict and no partner task, by the
//! archive and by the program, with a planner's entries and without; where one of its premises does not hold, a swap can change something.

use crate::cuts::Cuts;
use crate::entries;
use crate::examples::text;
use crate::feeding::{self, Lent, Reckoning};
use crate::generate::{changing_shape, recording, shape, Random, Shape};
use crate::known::Folder;
use crate::oracle::{self, Act, Op, Record, Series, Totals, LOST, OPS, TASKS};
use crate::tally::Tally;
use crate::{entry, on_threads, program, streaming, THREADS};
use std::collections::{BTreeMap, BTreeSet};
use std::io::Write;
use std::process::{Command, Stdio};

const RUNS: u64 = 1_500;
/// One run in so many is given to the program too, without entries and with them.
const SHARE: u64 = 40;
/// The command of the planner's page that lays a report out by task, as seen from where the tests are started.
const BY_TASK: &str = "../../tools/by-task";

// ---- Document 02, F-11

/// The premises, one by one.
#[derive(Clone, Copy, PartialEq, Eq, Debug)]
enum Premise {
    /// Different tasks act.
    Tasks,
    /// Neither is a loss mark.
    Marks,
    /// Neither names a task that acts in the other.
    Acting,
    /// Neither names a task that the other names.
    Named,
    /// They have no semaphore in common.
    Semaphores,
    /// They have no flag in common.
    Flags,
    /// They have no variable in common, except two reads or two bumps.
    Variables,
    /// Neither is an `owned`, which no swap moves (F-12).
    Owned,
}

use Premise::*;

const PREMISES: [Premise; 8] = [Tasks, Marks, Acting, Named, Semaphores, Flags, Variables, Owned];

fn act(record: &Record) -> Option<&Act> {
    if let Record::Act(act) = record {
        Some(act)
    } else {
        None
    }
}

/// The acting task; a mark has none.
fn acting(record: &Record) -> Option<u32> {
    act(record).map(|act| act.task)
}

/// The tasks that a record names.
fn named(record: &Record) -> Vec<u32> {
    match *record {
        Record::Lost(mask) => (0..TASKS).filter(|task| mask >> task & 1 == 1).collect(),
        Record::Act(Act { op: Op::Start | Op::Join, on, .. }) => vec![on],
        Record::Act(_) => Vec::new(),
    }
}

/// Both have the same number of a series.
fn common(a: &Record, b: &Record, of: Series) -> bool {
    let has = |act: &Act| oracle::series(act.op) == of;
    matches!((act(a), act(b)), (Some(a), Some(b)) if has(a) && has(b) && a.on == b.on)
}

impl Premise {
    fn holds(self, a: &Record, b: &Record) -> bool {
        match self {
            Tasks => acting(a).is_none() || acting(a) != acting(b),
            Marks => act(a).is_some() && act(b).is_some(),
            Acting => [(a, b), (b, a)].iter().all(|(one, other)| !named(one).iter().any(|task| acting(other) == Some(*task))),
            Named => !named(a).iter().any(|task| named(b).contains(task)),
            Semaphores => !common(a, b, Series::Semaphore),
            Flags => !common(a, b, Series::Flag),
            Variables => {
                let both = |op| act(a).unwrap().op == op && act(b).unwrap().op == op;
                !common(a, b, Series::Variable) || both(Op::Read) || both(Op::Bump)
            }
            Owned => [a, b].iter().all(|record| act(record).is_none_or(|act| act.op != Op::Owned)),
        }
    }
}

/// The premises that do not hold of two neighbours.
fn broken(a: &Record, b: &Record) -> Vec<Premise> {
    PREMISES.into_iter().filter(|premise| !premise.holds(a, b)).collect()
}

// ---- What is compared

/// A list of records. Each has a name that it keeps wherever it stands: its place in the list that was there first.
type Run = Vec<(usize, Record)>;

fn run_of(recording: &[Record]) -> Run {
    recording.iter().copied().enumerate().collect()
}

fn word(op: Op) -> &'static str {
    OPS.iter().find(|known| known.2 == op).unwrap().0
}

fn line(record: &Record) -> String {
    match *record {
        Record::Act(Act { op, task, on }) => format!("op={} task={task} on={on}\n", word(op)),
        Record::Lost(mask) => format!("op=lost tasks={mask}\n"),
    }
}

fn text_of(run: &Run) -> Vec<u8> {
    run.iter().map(|(_, record)| line(record)).collect::<String>().into_bytes()
}

/// What is said of each access, by its name: the verdict, and the partner's task.
type Said = BTreeMap<usize, (String, Option<u32>)>;

/// What stands at a record number, and at that of its partner.
fn put(said: &mut Said, run: &Run, verdict: &str, rec: usize, with: usize) -> Result<(), String> {
    let (name, record) = run.get(rec.wrapping_sub(1)).ok_or(format!("there is no record {rec}"))?;
    let access = act(record).filter(|act| oracle::is_access(act.op)).ok_or(format!("record {rec} is no access"))?;
    let partner = match with {
        0 => None,
        _ if with >= rec => return Err(format!("record {rec} has the partner {with}")),
        _ => Some(acting(&run[with - 1].1).ok_or(format!("record {with} is a mark"))?),
    };
    if partner == Some(access.task) || said.insert(*name, (verdict.to_string(), partner)).is_some() {
        return Err(format!("record {rec} is its own task's partner, or stands twice"));
    }
    Ok(())
}

/// Each access has its line, and no line is anything else: a report in which nothing is refused.
fn by_report(run: &Run, report: &[u8]) -> Result<Said, String> {
    let mut said = Said::new();
    for line in String::from_utf8_lossy(report).lines() {
        let value = |part: Option<&str>, name| part.and_then(|part| part.strip_prefix(name)).map(String::from);
        let mut parts = line.split(' ');
        let (rec, task, var) = (value(parts.next(), "rec="), value(parts.next(), "task="), value(parts.next(), "var="));
        let (verdict, with) = (value(parts.next(), "verdict="), value(parts.next(), "with="));
        let number = |digits: Option<String>| digits.and_then(|digits| digits.parse::<usize>().ok()).ok_or(format!("the line {line:?}"));
        let (rec, task, var, with) = (number(rec)?, number(task)?, number(var)?, number(with)?);
        put(&mut said, run, &verdict.ok_or(format!("the line {line:?}"))?, rec, with)?;
        let access = act(&run[rec - 1].1).unwrap();
        if (access.task as usize, access.on as usize) != (task, var) {
            return Err(format!("another access in the line {line:?}"));
        }
    }
    whole(run, said)
}

fn whole(run: &Run, said: Said) -> Result<Said, String> {
    let accesses = run.iter().filter(|(_, record)| act(record).is_some_and(|act| oracle::is_access(act.op))).count();
    (said.len() == accesses).then_some(said).ok_or("an access has no verdict".to_string())
}

/// What feeding says. After the last record the totals are these, where some are given.
fn by_feeding(by: &Reckoning, run: &Run, counted: Option<&Totals>) -> Result<Said, String> {
    let mut lent = Lent::fresh(by)?;
    let mut said = Said::new();
    for (at, (_, record)) in run.iter().enumerate() {
        let numbers = match *record {
            Record::Act(Act { op, task, on }) => (OPS.iter().find(|known| known.2 == op).unwrap().1, task, on),
            Record::Lost(mask) => (LOST, 0, mask),
        };
        match lent.feed(numbers, false)? {
            [1, _, 0] => {}
            [verdict @ 2..=4, rec, with] if rec as usize == at + 1 => {
                put(&mut said, run, ["clear", "race", "doubt"][verdict as usize - 2], at + 1, with as usize)?
            }
            other => return Err(format!("record {} is answered by {other:?}", at + 1)),
        }
    }
    counted.map_or(Ok(()), |totals| lent.expect_totals(totals))?;
    whole(run, said)
}

fn by_search(run: &Run) -> Result<Said, String> {
    let text = text_of(run);
    by_report(run, oracle::report_of(&text).as_bytes())
}

/// A count over what was said.
fn totals(run: &Run, said: &Said) -> Totals {
    let mut totals = Totals::NONE;
    let records: Vec<Record> = run.iter().map(|(_, record)| *record).collect();
    for (at, (name, record)) in run.iter().enumerate() {
        totals.follow(&records[..at], record);
        if let Some((verdict, _)) = said.get(name) {
            let of_verdict = ["clear", "race", "doubt"].iter().position(|word| word == verdict).unwrap();
            totals.accesses[act(record).unwrap().on as usize][of_verdict] += 1;
        }
    }
    totals
}

fn shown(run: &Run) -> String {
    String::from_utf8(text_of(run)).unwrap()
}

/// Both are what they should be, and alike.
fn same(tally: &mut Tally, name: &str, (first, second): (&Run, &Run), said: (Result<Said, String>, Result<Said, String>)) {
    let right = said.0.is_ok() && said.0 == said.1;
    tally.check(right, || {
        let differing = match &said {
            (Ok(one), Ok(other)) => one.iter().filter(|(name, said)| other.get(name) != Some(said)).map(|(name, _)| name + 1).collect(),
            _ => Vec::new(),
        };
        let why = (said.0.as_ref().err(), said.1.as_ref().err());
        format!("swaps, {name}: records {differing:?}, {why:?}\n--- one\n{}--- the other\n{}---", shown(first), shown(second))
    });
}

/// By the archive: fed as records, with the totals after the last, and as one text.
fn compare(tally: &mut Tally, name: &str, first: &Run, second: &Run) {
    for by in &feeding::BOTH {
        let said = by_feeding(by, first, None);
        let counted = said.as_ref().ok().map(|said| totals(first, said));
        let other = by_feeding(by, second, counted.as_ref());
        same(tally, &format!("{name}, {}", by.name), (first, second), (said, other));
    }
    let report = |run| entry::report(&text_of(run), 0).and_then(|report| by_report(run, &report));
    same(tally, &format!("{name}, entry"), (first, second), (report(first), report(second)));
}

/// By the search, so that the claim itself is tried, and not the checker alone.
fn compare_by_search(tally: &mut Tally, name: &str, first: &Run, second: &Run) {
    same(tally, &format!("{name}, search"), (first, second), (by_search(first), by_search(second)));
}

/// By the program, where a file of entries may lie.
fn compare_by_program(tally: &mut Tally, name: &str, order: &Folder, file: Option<&[u8]>, first: &Run, second: &Run) {
    let said = [first, second].map(|run| {
        let text = text_of(run);
        let report = match file {
            Some(file) => order.report_with(file, &text, Cuts::Nowhere),
            None => order.report(&text, Cuts::Nowhere),
        };
        let said = by_report(run, report.as_ref()?);
        if let (Ok(said), Ok(report)) = (&said, &report) {
            let laid_out = by_task(order, &text, report);
            tally.expect(&format!("by-task, {name}"), &text, &expected_by_task(run, said), laid_out);
        }
        said
    });
    let [one, other] = said;
    same(tally, &format!("{name}, program"), (first, second), (one, other));
}

/// By pieces after a file of entries. A known Race is counted as a Race.
fn compare_with_entries(tally: &mut Tally, name: &str, file: &[u8], first: &Run, second: &Run) {
    let counted = by_feeding(&feeding::CLOCKS, first, None).map(|said| totals(first, &said));
    let said = [first, second].map(|run| {
        let report = streaming::report_with((file, Cuts::Nowhere), (&text_of(run), Cuts::AfterLf), counted.as_ref()?);
        by_report(run, &report?)
    });
    if let Ok(said) = &said[0] {
        tally.see("swaps, known", said.values().filter(|(verdict, _)| verdict == "known").count());
    }
    let [one, other] = said;
    same(tally, &format!("{name}, with entries"), (first, second), (one, other));
}

// ---- The command that lays a report out by task

/// What it makes of a recording and its report.
fn by_task(folder: &Folder, text: &[u8], report: &[u8]) -> Result<Vec<u8>, String> {
    let path = folder.path.join("recording.txt");
    std::fs::write(&path, text).map_err(|e| e.to_string())?;
    let mut command = Command::new(BY_TASK);
    let mut child = command
        .arg(&path)
        .stdin(Stdio::piped())
        .stdout(Stdio::piped())
        .stderr(Stdio::null())
        .spawn()
        .map_err(|e| format!("{BY_TASK}: {e}"))?;
    let mut input = child.stdin.take().unwrap();
    let report = report.to_vec();
    let writer = std::thread::spawn(move || input.write_all(&report));
    let output = child.wait_with_output().map_err(|e| e.to_string())?;
    let _ = writer.join();
    output.status.success().then_some(output.stdout).ok_or(format!("it ends with {}", output.status))
}

/// Each task's accesses, the lowest task first: task, op, variable, verdict and the partner's task.
fn expected_by_task(run: &Run, said: &Said) -> String {
    let mut out = String::new();
    for task in 0..TASKS {
        for (name, record) in run.iter().filter(|(name, record)| acting(record) == Some(task) && said.contains_key(name)) {
            let (Act { op, on, .. }, (verdict, partner)) = (act(record).unwrap(), &said[name]);
            let partner = partner.map_or("-".to_string(), |task| task.to_string());
            out += &format!("{task} {} {on} {verdict} {partner}\n", word(*op));
        }
    }
    out
}

/// Refused lines and entries are laid out too, and what is no report of the recording is not.
fn run_by_task(tally: &mut Tally, order: &str) {
    let folder = Folder::new(order);
    let some = text("start 0 1, write 2 5, write 0 5, lost 4, lost 3, read 1 5, bump 0 5");
    let report = |file: &[u8], text: &[u8]| folder.report_with(file, text, Cuts::Nowhere);
    let right = "0 write 5 clear -\n0 bump 5 race 1\n1 read 5 doubt 0\nrefused=6 op=write task=2 on=5\nrefused=9 op=lost tasks=4\n";
    let with_entry = format!("entry=2 refused=12\n{}", right.replace("race", "known"));
    let cases: [(&str, &[u8], &[u8], &str); 5] = [
        ("refused lines", b"", &some, right),
        ("no LF at the end", b"", &some[..some.len() - 1], right),
        ("a refused entry", b"rec=00001 var=5 low=0 high=1 mark=accepted\nx\n", &some, &with_entry),
        ("no recording", b"", b"", ""),
        ("no access", b"", b"op=start task=0 on=1\nop=give task=1 on=3\n", ""),
    ];
    for (name, file, text, expected) in cases {
        let laid_out = report(file, text).and_then(|report| by_task(&folder, text, &report));
        tally.expect(&format!("by-task, {name}"), text, expected, laid_out);
    }
    let others =
        ["", "write 0 5", "start 0 1, write 1 5, read 0 5", "start 0 1, write 0 5, read 1 5, read 1 5", "start 0 1, write 0 6, read 1 6"];
    for other in others {
        let laid_out = report(b"", &text(other)).and_then(|report| by_task(&folder, &text("start 0 1, write 0 5, read 1 5"), &report));
        tally.check(laid_out.is_err(), || format!("by-task, the report of another recording: {other}"));
    }
}

// ---- By hand

/// The records, the place of the first of the two that are swapped, and the report before and after. The two have this premise broken, and no
/// other.
const FORBIDDEN: &[(Premise, &str, usize, &str, &str)] = &[
    (Tasks, "write 0 5, start 0 1, read 1 5", 1, "1 0 clear 0, 3 1 clear 0", "2 0 clear 0, 3 1 race 2"),
    (Tasks, "start 0 1, write 0 5, give 0 2, take 1 2, read 1 5", 2, "2 0 clear 0, 5 1 clear 0", "3 0 clear 0, 5 1 race 3"),
    (Marks, "start 0 1, write 0 5, lost 1, lost 2, write 1 5", 3, "2 0 clear 0, 5 1 doubt 2", "2 0 clear 0, 5 1 race 2"),
    (Marks, "start 0 1, write 0 5, lost 1, take 1 9, write 1 5", 3, "2 0 clear 0, 5 1 doubt 2", "2 0 clear 0, 5 1 race 2"),
    (Marks, "start 0 1, write 0 5, give 0 2, lost 2, write 1 5", 3, "2 0 clear 0, 5 1 doubt 2", "2 0 clear 0, 5 1 race 2"),
    (Acting, "start 0 1, write 1 5, write 0 5", 1, "2 1 clear 0, 3 0 race 2", "!1 6, 2 0 clear 0"),
    (Acting, "start 0 1, write 1 5, join 0 1, write 0 5", 2, "2 1 clear 0, 4 0 clear 0", "!3 6, 3 0 clear 0"),
    (Named, "start 0 2, start 0 1, join 2 1, write 2 5", 2, "4 2 clear 0", "!2 9, 3 2 clear 0"),
    (Semaphores, "start 0 1, write 0 5, give 0 2, take 1 2, read 1 5", 3, "2 0 clear 0, 5 1 clear 0", "2 0 clear 0, 5 1 race 2"),
    (Semaphores, "start 0 1, write 0 5, take 1 2, give 0 2, read 1 5", 3, "2 0 clear 0, 5 1 race 2", "2 0 clear 0, 5 1 clear 0"),
    (
        Semaphores,
        "owned 0 0, start 0 1, take 0 2, write 0 5, give 0 2, take 1 2, read 1 5",
        5,
        "4 0 clear 0, 7 1 clear 0",
        "4 0 clear 0, !5 16, 6 1 race 4",
    ),
    (
        Owned,
        "start 0 1, take 1 2, owned 0 0, take 0 2, write 0 5, give 0 2, write 1 5",
        2,
        "5 0 clear 0, 7 1 race 5",
        "!4 16, 4 0 clear 0, !6 16, 5 1 race 4",
    ),
    (Owned, "start 0 1, owned 0 0, take 1 2, give 1 2, write 1 5", 2, "5 1 clear 0", "!4 16, 4 1 clear 0"),
    (
        Owned,
        "start 0 1, write 1 5, give 1 2, owned 0 0, take 0 2, write 0 5",
        3,
        "2 1 clear 0, 6 0 clear 0",
        "2 1 clear 0, !4 16, 5 0 race 2",
    ),
    (Flags, "start 0 1, write 0 5, set 0 2, look 1 2, read 1 5", 3, "2 0 clear 0, 5 1 clear 0", "2 0 clear 0, 5 1 race 2"),
    (Flags, "start 0 1, write 0 5, look 1 2, set 0 2, read 1 5", 3, "2 0 clear 0, 5 1 race 2", "2 0 clear 0, 5 1 clear 0"),
    (Variables, "start 0 1, write 0 5, write 1 5", 2, "2 0 clear 0, 3 1 race 2", "2 1 clear 0, 3 0 race 2"),
    (Variables, "start 0 1, write 0 5, read 1 5", 2, "2 0 clear 0, 3 1 race 2", "2 1 clear 0, 3 0 race 2"),
    (Variables, "start 0 1, write 0 5, bump 1 5", 2, "2 0 clear 0, 3 1 race 2", "2 1 clear 0, 3 0 race 2"),
    (Variables, "start 0 1, bump 0 5, read 1 5", 2, "2 0 clear 0, 3 1 race 2", "2 1 clear 0, 3 0 race 2"),
    (Variables, "start 0 1, start 0 2, write 0 5, fresh 2 5, write 1 5", 3, "3 0 clear 0, 5 1 clear 0", "4 0 clear 0, 5 1 race 4"),
    (Variables, "start 0 1, start 0 2, write 0 5, fresh 2 5, write 1 5", 4, "3 0 clear 0, 5 1 clear 0", "3 0 clear 0, 4 1 race 3"),
];

/// The same where no premise is broken.
const ALLOWED: &[(&str, &str, usize, &str, &str)] = &[
    (
        "two reads of one variable",
        "start 0 1, start 0 2, write 0 5, read 1 5, read 2 5, write 0 5",
        4,
        "3 0 clear 0, 4 1 race 3, 5 2 race 3, 6 0 race 4",
        "3 0 clear 0, 4 2 race 3, 5 1 race 3, 6 0 race 5",
    ),
    (
        "two bumps of one variable",
        "start 0 1, start 0 2, bump 1 5, bump 2 5, write 0 5",
        3,
        "3 1 clear 0, 4 2 clear 0, 5 0 race 3",
        "3 2 clear 0, 4 1 clear 0, 5 0 race 4",
    ),
    (
        "a semaphore and a variable of one number",
        "start 0 1, take 0 5, write 1 5, read 0 5",
        2,
        "3 1 clear 0, 4 0 race 3",
        "2 1 clear 0, 4 0 race 2",
    ),
    (
        "a task and a variable of one number",
        "start 0 1, start 0 5, write 1 5, read 0 5",
        2,
        "3 1 clear 0, 4 0 race 3",
        "2 1 clear 0, 4 0 race 2",
    ),
    (
        "a semaphore and a flag of one number",
        "start 0 1, write 0 5, give 0 2, look 1 2, read 1 5",
        3,
        "2 0 clear 0, 5 1 race 2",
        "2 0 clear 0, 5 1 race 2",
    ),
    ("two starts", "start 0 1, start 0 2, start 1 3, write 3 5, read 2 5", 2, "4 3 clear 0, 5 2 race 4", "4 3 clear 0, 5 2 race 4"),
    (
        "a join and an access",
        "start 0 1, start 0 2, write 2 5, join 0 1, read 0 5",
        3,
        "3 2 clear 0, 5 0 race 3",
        "4 2 clear 0, 5 0 race 4",
    ),
    (
        "after a mark",
        "start 0 1, start 0 2, write 0 5, lost 3, take 2 9, write 1 5",
        5,
        "3 0 clear 0, 6 1 doubt 3",
        "3 0 clear 0, 5 1 doubt 3",
    ),
    (
        "before a mark, the partner among the two",
        "start 0 1, start 0 2, write 0 5, miss 2 1, lost 3, write 1 5",
        3,
        "3 0 clear 0, 6 1 doubt 3",
        "4 0 clear 0, 6 1 doubt 4",
    ),
    (
        "under the profile, two takes",
        "owned 0 0, start 0 1, take 0 2, take 1 3, write 0 5, give 0 2, take 1 2, read 1 5",
        3,
        "5 0 clear 0, 8 1 clear 0",
        "5 0 clear 0, 8 1 clear 0",
    ),
    (
        "under the profile, two gives",
        "owned 0 0, start 0 1, take 0 2, take 1 3, write 0 5, give 0 2, give 1 3, take 1 2, take 0 3, read 1 5",
        6,
        "5 0 clear 0, 10 1 clear 0",
        "5 0 clear 0, 10 1 clear 0",
    ),
    (
        "before the profile, two takes of what is free in it",
        "start 0 1, take 0 2, take 1 3, owned 0 0, write 0 5, take 1 2, take 0 3, read 1 5",
        2,
        "5 0 clear 0, 8 1 race 5",
        "5 0 clear 0, 8 1 race 5",
    ),
    (
        "under the profile, a take and a write",
        "owned 0 0, start 0 1, take 0 2, write 1 5, read 0 5",
        3,
        "4 1 clear 0, 5 0 race 4",
        "3 1 clear 0, 5 0 race 3",
    ),
    ("a fresh of another variable", "start 0 1, write 0 5, fresh 1 6, write 1 5", 2, "2 0 clear 0, 4 1 race 2", "3 0 clear 0, 4 1 race 3"),
];

/// Records in short, and the same with two neighbours swapped, the first of them being this record.
fn swapped(records: &str, first: usize) -> (Run, Run) {
    let whole = oracle::read(&text(records));
    assert!(whole.recording.len() == whole.fates.len(), "every record is accepted: {records}");
    let run = run_of(&whole.recording);
    let mut other = run.clone();
    other.swap(first - 1, first);
    (run, other)
}

/// The report of a run is just this, by the search, the archive and the program.
fn expect(tally: &mut Tally, name: &str, run: &Run, report: &str, order: Option<&str>) {
    let (text, expected) = (text_of(run), crate::examples::report(report));
    tally.expect(&format!("swaps, search, {name}"), &text, &expected, Ok(oracle::report_of(&text).into_bytes()));
    tally.expect(&format!("swaps, entry, {name}"), &text, &expected, entry::report(&text, 0));
    if let Some(order) = order {
        tally.expect(&format!("swaps, program, {name}"), &text, &expected, program::report(order, &text, Cuts::Nowhere));
    }
}

fn run_by_hand(tally: &mut Tally, order: Option<&str>) {
    for (premise, records, first, before, after) in FORBIDDEN {
        let name = format!("{premise:?}, {records}");
        let (run, other) = swapped(records, *first);
        let found = broken(&run[first - 1].1, &run[*first].1);
        tally.check(found == [*premise], || format!("swaps, forbidden, {name}: {found:?} are broken"));
        expect(tally, &name, &run, before, order);
        expect(tally, &name, &other, after, order);
        let alike = by_search(&run).is_ok_and(|said| by_search(&other) == Ok(said));
        tally.check(!alike, || format!("swaps, forbidden, {name}: nothing changes"));
    }
    for (name, records, first, before, after) in ALLOWED {
        let (run, other) = swapped(records, *first);
        let found = broken(&run[first - 1].1, &run[*first].1);
        tally.check(found.is_empty(), || format!("swaps, {name}: {found:?} are broken"));
        expect(tally, name, &run, before, order);
        expect(tally, name, &other, after, order);
        compare(tally, name, &run, &other);
        compare_by_search(tally, name, &run, &other);
    }
}

// ---- At random

/// Swaps neighbours at so many places, wherever no premise is broken.
fn swap_about(tally: &mut Tally, random: &mut Random, run: &mut Run, times: usize) {
    for _ in 0..if run.len() < 2 { 0 } else { times } {
        let at = random.below(run.len() - 1);
        let (a, b) = (run[at].1, run[at + 1].1);
        if broken(&a, &b).is_empty() {
            see(tally, act(&a).unwrap(), act(&b).unwrap());
            let owned = |run: &[(usize, Record)]| run.iter().any(|(_, record)| act(record).is_some_and(|act| act.op == Op::Owned));
            let exchange = [a, b].iter().any(|record| matches!(act(record).unwrap().op, Op::Take | Op::Give));
            tally.see("swaps, with a take or a give under the profile", (owned(&run[..at]) && exchange) as usize);
            tally.see("swaps, with a take or a give before the profile", (owned(&run[at..]) && exchange) as usize);
            run.swap(at, at + 1);
        }
    }
}

/// Notes what was swapped.
fn see(tally: &mut Tally, a: &Act, b: &Act) {
    let both = |op| a.op == op && b.op == op && a.on == b.on;
    let some = |ops: &[Op]| ops.contains(&a.op) || ops.contains(&b.op);
    tally.see("swaps", 1);
    tally.see("swaps, two accesses", (oracle::is_access(a.op) && oracle::is_access(b.op)) as usize);
    tally.see("swaps, two reads of one variable", both(Op::Read) as usize);
    tally.see("swaps, two bumps of one variable", both(Op::Bump) as usize);
    tally.see("swaps, with a start or a join", some(&[Op::Start, Op::Join]) as usize);
    tally.see("swaps, with a take or a look", some(&[Op::Take, Op::Look]) as usize);
    tally.see("swaps, with a give or a set", some(&[Op::Give, Op::Set]) as usize);
    tally.see("swaps, with a miss or a fresh", some(&[Op::Miss, Op::Fresh]) as usize);
}

/// What the runs must have met, each often.
const SEEN: [&str; 14] = [
    "swaps, with a take or a give under the profile",
    "swaps, with a take or a give before the profile",
    "swaps, two accesses",
    "swaps, two reads of one variable",
    "swaps, two bumps of one variable",
    "swaps, with a start or a join",
    "swaps, with a take or a look",
    "swaps, with a give or a set",
    "swaps, with a miss or a fresh",
    "swaps, clear at another place",
    "swaps, race at another place",
    "swaps, doubt at another place",
    "swaps, a partner at another place",
    "swaps, known",
];
const BY_PROGRAM: &str = "swaps, runs for the program";

/// Notes which verdicts moved, and which partners.
fn see_moved(tally: &mut Tally, run: &Run) {
    let moved = |rec: usize| run[rec - 1].0 != rec - 1;
    let report = entry::report(&text_of(run), 0).unwrap_or_default();
    for line in String::from_utf8_lossy(&report).lines() {
        let value = |name: &str| line.split(' ').find_map(|part| part.strip_prefix(name)).unwrap_or("0");
        let number = |name: &str| value(name).parse::<usize>().unwrap_or(0);
        let (rec, with) = (number("rec="), number("with="));
        tally.see(&format!("swaps, {} at another place", value("verdict=")), (rec > 0 && moved(rec)) as usize);
        tally.see("swaps, a partner at another place", (with > 0 && moved(with)) as usize);
    }
}

/// Entries for the pairs of tasks and the variables of a run, accepted or not.
fn entry_file(random: &mut Random, run: &Run) -> Vec<u8> {
    let accesses = run.iter().filter_map(|(_, record)| act(record)).filter(|act| oracle::is_access(act.op));
    let (mut tasks, mut variables) = (BTreeSet::new(), BTreeSet::new());
    accesses.for_each(|act| {
        tasks.insert(act.task);
        variables.insert(act.on);
    });
    let share = random.pick(&[40, 80, 100]);
    let mut out = String::new();
    for &var in &variables {
        for (low, high) in tasks.iter().flat_map(|low| tasks.iter().map(move |high| (*low, *high))).filter(|(low, high)| low < high) {
            if random.percent(share) {
                let mark = if random.percent(90) { "accepted" } else { "open" };
                out += &format!("rec={:05} var={var} low={low} high={high} mark={mark}\n", 1 + random.below(60_000));
            }
        }
    }
    // No more than are taken in, so that the report is of the recording alone.
    out.split_inclusive('\n').take(entries::MOST).collect::<String>().into_bytes()
}

/// A recording of which every record is accepted, of any shape.
fn accepted(random: &mut Random) -> Run {
    let any = shape(random);
    accepted_of(random, any)
}

fn accepted_of(random: &mut Random, any: Shape) -> Run {
    let marks = random.pick(&[3, 10, 25]);
    let length = any.length.min(120);
    run_of(&oracle::read(&recording(random, &Shape { length, marks, stray: 0, damage: 0, ..any })).recording)
}

fn run_generated(first: u64, order: Option<&str>) -> Tally {
    let mut tally = Tally::new();
    let folder = order.map(Folder::new);
    for seed in (first..RUNS).step_by(THREADS as usize) {
        let mut random = Random::new(11_000_000 + seed);
        let run = accepted(&mut random);
        let mut other = run.clone();
        let times = random.pick(&[1, 5, 8 * run.len(), 40 * run.len()]);
        swap_about(&mut tally, &mut random, &mut other, times);
        let name = format!("run {seed}");
        compare(&mut tally, &name, &run, &other);
        see_moved(&mut tally, &other);
        if seed % 8 < THREADS {
            compare_by_search(&mut tally, &name, &run, &other);
        }
        let file = entry_file(&mut random, &run);
        compare_with_entries(&mut tally, &name, &file, &run, &other);
        if let Some(folder) = folder.as_ref().filter(|_| seed % SHARE < THREADS) {
            tally.see(BY_PROGRAM, 2);
            compare_by_program(&mut tally, &name, folder, None, &run, &other);
            compare_by_program(&mut tally, &format!("{name}, entries"), folder, Some(&file), &run, &other);
        }
    }
    tally
}

/// Neighbours of which one premise alone is broken: for each premise some swap changes what is said, or what is accepted.
fn run_forbidden(first: u64) -> Tally {
    let mut tally = Tally::new();
    for seed in (first..2 * RUNS).step_by(THREADS as usize) {
        let mut random = Random::new(12_000_000 + seed);
        let shape = if seed / THREADS % 3 == 0 { changing_shape(&mut random) } else { shape(&mut random) };
        let run = accepted_of(&mut random, shape);
        let said = by_feeding(&feeding::CLOCKS, &run, None);
        for premise in PREMISES {
            let alone = |at: &usize| broken(&run[*at].1, &run[at + 1].1) == [premise];
            let places: Vec<usize> = (0..run.len().saturating_sub(1)).filter(alone).collect();
            if places.is_empty() {
                continue;
            }
            let at = random.pick(&places);
            let mut other = run.clone();
            other.swap(at, at + 1);
            let changed = by_feeding(&feeding::CLOCKS, &other, None) != said;
            tally.see(&format!("swaps, forbidden, {premise:?}: something changes"), changed as usize);
        }
    }
    tally
}

// ---- The samples

/// The two samples of the planner's page are swaps of each other: sorting the one into the other swaps what may be swapped, and nothing else.
fn run_samples(tally: &mut Tally, order: &str) {
    let read = |name: &str| std::fs::read(format!("../../samples/gateway-{name}.txt")).map(|text| oracle::read(&text));
    let (Ok(one), Ok(other)) = (read("a"), read("b")) else {
        return tally.check(false, || "swaps: the samples of two gateways are not there".to_string());
    };
    let run = run_of(&one.recording);
    // The same line by the same task may stand more than once; the first of them is the first.
    let mut left = run.clone();
    let mut find = |record: &Record| left.iter().position(|(_, same)| line(same) == line(record)).map(|at| left.remove(at));
    let other: Option<Run> = other.recording.iter().map(|record| find(record)).collect();
    let Some(other) = other.filter(|other| other.len() == run.len()) else {
        return tally.check(false, || "swaps: the samples of two gateways are not of the same records".to_string());
    };
    let mut sorted = other.clone();
    let mut forbidden = Vec::new();
    while let Some(at) = (1..sorted.len()).find(|&at| sorted[at - 1].0 > sorted[at].0) {
        forbidden.extend(broken(&sorted[at - 1].1, &sorted[at].1));
        sorted.swap(at - 1, at);
    }
    tally.check(forbidden.is_empty() && one.fates.len() == run.len(), || format!("swaps: the samples of two gateways: {forbidden:?}"));
    compare(tally, "the samples of two gateways", &run, &other);
    compare_by_program(tally, "the samples of two gateways", &Folder::new(order), None, &run, &other);
}

pub fn run(tally: &mut Tally, order: Option<&str>) {
    run_by_hand(tally, order);
    if let Some(order) = order {
        run_samples(tally, order);
        run_by_task(tally, order);
    }
    tally.part("swaps, by hand");
    on_threads(tally, |first| run_generated(first, order));
    tally.part("swaps, runs at random");
    on_threads(tally, run_forbidden);
    let forbidden = PREMISES.map(|premise| format!("swaps, forbidden, {premise:?}: something changes"));
    let program = order.map(|_| BY_PROGRAM.to_string());
    for what in SEEN.into_iter().map(String::from).chain(forbidden).chain(program) {
        let times = tally.seen.get(&what).copied().unwrap_or(0);
        println!("seen: {what}: {times}");
        tally.check(times >= 50, || format!("seen too seldom: {what}"));
    }
    tally.part("swaps that are forbidden");
}
