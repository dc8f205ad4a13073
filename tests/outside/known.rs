//! Faults already accepted: the program `order` in a folder with a file accepted.txt, and `order_entries` ahead of `order_piece`, against document 02
//! read word for word (entries.rs).

use crate::cuts::{Cuts, WAYS};
use crate::entries::{self, Entries, Entry, DIGITS, MOST};
use crate::examples::{self, text};
use crate::generate::{damage, recording, replace, shape, Random, Shape};
use crate::oracle::{self, Judged, Reading, Totals, Verdict, LIMIT, TASKS, VARIABLES};
use crate::program::{self, spawn};
use crate::streaming::{self, of_entries, Kept};
use crate::tally::Tally;
use crate::{on_threads, pauses, THREADS};
use std::collections::{BTreeMap, BTreeSet};
use std::fs::{self, File};
use std::os::unix::{fs::PermissionsExt, process::CommandExt};
use std::path::{Path, PathBuf};
use std::process::{Child, Command};
use std::sync::atomic::{AtomicUsize, Ordering};

const RECORDINGS: u64 = 1_500;
/// One file in so many is given to the program too.
const SHARE: usize = 12;
const MEGABYTE: usize = 1 << 20;
const FILE: &str = "accepted.txt";

/// What the files and the recordings must have met, each often.
pub const SEEN: [&str; 14] = [
    "known, one partner",
    "known, two partners",
    "known, three partners or more",
    "race, one partner, not accepted",
    "race, none of two or more partners accepted",
    "race, some of two partners accepted",
    "race, some of three partners or more accepted",
    "race, its partner moved by the entries",
    "doubt, all partners accepted",
    "entry, refused 12",
    "entry, refused 13",
    "entry, refused 12 when 200 have been taken in",
    "entry, an accepted pair is opened",
    "entry, an opened pair is accepted again",
];

// ---- What is compared

/// A recording, read and judged.
pub struct Deck {
    text: Vec<u8>,
    reading: Reading,
    judged: Vec<Judged>,
}

impl Deck {
    pub fn new(text: Vec<u8>) -> Deck {
        let reading = oracle::read(&text);
        let judged = oracle::judge(&reading.recording);
        Deck { text, reading, judged }
    }

    /// Records in short, as in the examples.
    fn short(records: &str) -> Deck {
        Deck::new(text(records))
    }

    fn report(&self, entries: &Entries) -> String {
        entries.report(&self.reading, &self.judged)
    }

    /// A known Race counts as a Race.
    fn totals(&self) -> Totals {
        oracle::totals(&self.reading, &self.judged).last().unwrap_or(Totals::NONE)
    }
}

/// The folder in which a program is started, of its own for each of these.
pub struct Folder {
    program: PathBuf,
    pub path: PathBuf,
}

impl Folder {
    pub fn new(program: &str) -> Folder {
        static FOLDERS: AtomicUsize = AtomicUsize::new(0);
        let number = FOLDERS.fetch_add(1, Ordering::Relaxed);
        let path = std::env::temp_dir().join(format!("order-{}-{number}", std::process::id()));
        fs::create_dir(&path).expect("a folder can be made");
        Folder { program: fs::canonicalize(program).expect("the program is there"), path }
    }

    fn accepted(&self) -> PathBuf {
        self.path.join(FILE)
    }

    fn command(&self, program: &Path) -> Command {
        let mut command = Command::new(program);
        command.current_dir(&self.path).stderr(File::create(self.path.join("said")).expect("a file can be made"));
        command
    }

    fn start(&self) -> Result<Child, String> {
        spawn(&mut self.command(&self.program))
    }

    /// What the program wrote to standard output, and what it said on standard error.
    fn run(&self, child: Result<Child, String>, text: &[u8], cuts: Cuts) -> Result<(Vec<u8>, String), String> {
        let wrote = program::answer(child?, text, cuts)?;
        let said = fs::read(self.path.join("said")).map_err(|e| e.to_string())?;
        Ok((wrote, String::from_utf8_lossy(&said).into_owned()))
    }

    /// What it wrote, where there is nothing to say.
    pub fn report(&self, text: &[u8], cuts: Cuts) -> Result<Vec<u8>, String> {
        match self.run(self.start(), text, cuts)? {
            (wrote, said) if said.is_empty() => Ok(wrote),
            (_, said) => Err(format!("it says {said:?} on standard error")),
        }
    }

    /// The same with this file there, which is gone afterwards.
    pub fn report_with(&self, file: &[u8], text: &[u8], cuts: Cuts) -> Result<Vec<u8>, String> {
        fs::write(self.accepted(), file).map_err(|e| e.to_string())?;
        let report = self.report(text, cuts);
        fs::remove_file(self.accepted()).map_err(|e| e.to_string())?;
        report
    }
}

impl Drop for Folder {
    fn drop(&mut self) {
        let _ = fs::remove_dir_all(&self.path);
    }
}

/// A file and a recording come to this report: by the archive, both cut in these ways, and by the program, where it is there.
fn expect(tally: &mut Tally, name: &str, file: &[u8], deck: &Deck, expected: &str, order: Option<&Folder>, cuts: (Cuts, Cuts)) {
    let both = [file, b"\n--- recording\n", &deck.text].concat();
    {
        let answer = streaming::report_with((file, cuts.0), (&deck.text, cuts.1), &deck.totals());
        tally.expect(&format!("entries in pieces, {name}, cut {cuts:?}"), &both, expected, answer);
    }
    if let Some(order) = order {
        let answer = order.report_with(file, &deck.text, cuts.1);
        tally.expect(&format!("program with entries, {name}, cut {:?}", cuts.1), &both, expected, answer);
    }
}

/// They come to what document 02 makes of them.
pub fn compare(tally: &mut Tally, name: &str, file: &[u8], deck: &Deck, order: Option<&Folder>, cuts: (Cuts, Cuts)) {
    let entries = entries::read(file);
    see(tally, &entries, deck);
    expect(tally, name, file, deck, &deck.report(&entries), order, cuts);
}

/// The same for one file of many: cut in ways that take turns, and given to the program once in a while.
fn compare_in_turn(tally: &mut Tally, name: &str, file: &[u8], deck: &Deck, order: Option<&Folder>, turn: usize) {
    let cuts = (WAYS[turn % WAYS.len()], WAYS[turn / WAYS.len() % WAYS.len()]);
    compare(tally, name, file, deck, order.filter(|_| turn % SHARE == 0), cuts);
}

/// Notes what a file and a recording had to show.
fn see(tally: &mut Tally, entries: &Entries, deck: &Deck) {
    for one in &deck.judged {
        let accepted = |task| entries.accepts(one.access.var, one.access.task, task);
        let (all, taken) = (one.apart.len(), one.apart.iter().filter(|other| accepted(other.task)).count());
        let what = match (one.verdict, all, taken) {
            (Verdict::Race, 1, 1) => "known, one partner",
            (Verdict::Race, 2, 2) => "known, two partners",
            (Verdict::Race, ..) if all == taken => "known, three partners or more",
            (Verdict::Race, 1, 0) => "race, one partner, not accepted",
            (Verdict::Race, _, 0) => "race, none of two or more partners accepted",
            (Verdict::Race, 2, _) => "race, some of two partners accepted",
            (Verdict::Race, ..) => "race, some of three partners or more accepted",
            (Verdict::Doubt, ..) if all == taken => "doubt, all partners accepted",
            _ => continue,
        };
        tally.see(what, 1);
        let moved = one.verdict == Verdict::Race && taken < all && accepted(one.apart[0].task);
        tally.see("race, its partner moved by the entries", moved as usize);
    }
    let full = entries.taken.len() == MOST;
    for (_, row) in &entries.refused {
        tally.see(&format!("entry, refused {row}"), 1);
    }
    if let Some(first) = entries.refused.iter().position(|(_, row)| *row == 13).filter(|_| full) {
        let after = entries.refused[first..].iter().filter(|(_, row)| *row == 12).count();
        tally.see("entry, refused 12 when 200 have been taken in", after);
    }
    let mut marks = BTreeMap::new();
    for Entry { var, low, high, accepted, .. } in &entries.taken {
        match (marks.insert((var, low, high), *accepted), accepted) {
            (Some(true), false) => tally.see("entry, an accepted pair is opened", 1),
            (Some(false), true) => tally.see("entry, an opened pair is accepted again", 1),
            _ => {}
        }
    }
}

// ---- By hand

/// Lines of a file in short: `accepted 5 0 1` is an entry for variable 5 and tasks 0 and 1, seen at the number of its line, in five digits and in
/// seven by turns; other words are a line as they are.
fn file(lines: &str) -> Vec<u8> {
    let mut out = String::new();
    for (at, line) in lines.split(", ").filter(|line| !line.is_empty()).enumerate() {
        match line.split(' ').collect::<Vec<_>>()[..] {
            [mark @ ("accepted" | "open"), var, low, high] => {
                let (rec, digits) = (at + 1, DIGITS[at % DIGITS.len()]);
                out += &format!("rec={rec:0digits$} var={var} low={low} high={high} mark={mark}\n")
            }
            _ => out += &format!("{line}\n"),
        }
    }
    out.into_bytes()
}

const ONE: &str = "start 0 1, write 0 5, read 1 5";
/// Tasks 1 and 2 write, 0 reads.
const TWO: &str = "start 0 1, start 0 2, write 1 5, write 2 5, read 0 5";
/// Tasks 3, 1 and 2 bump, 3 once more, and 0 writes.
const THREE: &str = "start 0 1, start 0 2, start 0 3, bump 3 5, bump 1 5, bump 2 5, bump 3 5, write 0 5";
/// Task 1 is in order with 0 if task 0 lost a take, task 2 is not.
const DOUBTFUL: &str = "start 0 1, start 0 2, write 1 5, give 1 0, write 2 5, lost 1, write 0 5";

/// The lines of the file, the records, and the report in short: `?2 12` is entry 2 refused with 12.
const SHORT: &[(&str, &str, &str, &str)] = &[
    ("no entries", "", ONE, "2 0 clear 0, 3 1 race 2"),
    ("accepted", "accepted 5 0 1", ONE, "2 0 clear 0, 3 1 known 2"),
    ("the lower task acts", "accepted 5 0 1", "start 0 1, write 1 5, read 0 5", "2 1 clear 0, 3 0 known 2"),
    ("a write after a read", "accepted 5 0 1", "start 0 1, read 0 5, write 1 5", "2 0 clear 0, 3 1 known 2"),
    ("a bump", "accepted 5 0 1", "start 0 1, write 0 5, bump 1 5", "2 0 clear 0, 3 1 known 2"),
    ("open alone", "open 5 0 1", ONE, "2 0 clear 0, 3 1 race 2"),
    ("another variable", "accepted 4 0 1, accepted 6 0 1, accepted 0 0 1, accepted 63 0 1", ONE, "2 0 clear 0, 3 1 race 2"),
    ("other pairs", "accepted 5 0 2, accepted 5 1 2, accepted 5 0 15, accepted 5 1 15", ONE, "2 0 clear 0, 3 1 race 2"),
    ("both ways", "accepted 5 0 1", "start 0 1, write 0 5, write 1 5, write 0 5", "2 0 clear 0, 3 1 known 2, 4 0 known 3"),
    // Of two for the same variable and pair the later line holds, wherever the fault was seen.
    ("accepted, then open", "accepted 5 0 1, open 5 0 1", ONE, "2 0 clear 0, 3 1 race 2"),
    ("open, then accepted", "open 5 0 1, accepted 5 0 1", ONE, "2 0 clear 0, 3 1 known 2"),
    ("accepted twice, then open", "accepted 5 0 1, accepted 5 0 1, open 5 0 1", ONE, "2 0 clear 0, 3 1 race 2"),
    ("open twice, then accepted", "open 5 0 1, open 5 0 1, accepted 5 0 1", ONE, "2 0 clear 0, 3 1 known 2"),
    ("there and back", "accepted 5 0 1, open 5 0 1, accepted 5 0 1", ONE, "2 0 clear 0, 3 1 known 2"),
    ("open for another variable", "accepted 5 0 1, open 6 0 1", ONE, "2 0 clear 0, 3 1 known 2"),
    ("open for another pair", "accepted 5 0 1, open 5 0 2, open 5 1 2", ONE, "2 0 clear 0, 3 1 known 2"),
    (
        "open for one pair of three",
        "accepted 5 0 1, accepted 5 0 2, accepted 5 1 2, open 5 0 1",
        TWO,
        "3 1 clear 0, 4 2 known 3, 5 0 race 3",
    ),
    // Every partner must be accepted, and the partner of what is left is among the others.
    ("two partners, none", "accepted 5 1 2", TWO, "3 1 clear 0, 4 2 known 3, 5 0 race 3"),
    ("two partners, the lower", "accepted 5 0 1", TWO, "3 1 clear 0, 4 2 race 3, 5 0 race 4"),
    ("two partners, the higher", "accepted 5 0 2", TWO, "3 1 clear 0, 4 2 race 3, 5 0 race 3"),
    ("two partners, both", "accepted 5 0 1, accepted 5 0 2", TWO, "3 1 clear 0, 4 2 race 3, 5 0 known 3"),
    ("two partners, the other way round", "accepted 5 0 2, accepted 5 0 1", TWO, "3 1 clear 0, 4 2 race 3, 5 0 known 3"),
    ("two partners, one for another variable", "accepted 5 0 1, accepted 6 0 2", TWO, "3 1 clear 0, 4 2 race 3, 5 0 race 4"),
    ("three partners, none", "open 5 0 1", THREE, "4 3 clear 0, 5 1 clear 0, 6 2 clear 0, 7 3 clear 0, 8 0 race 5"),
    ("three partners, the first", "accepted 5 0 1", THREE, "4 3 clear 0, 5 1 clear 0, 6 2 clear 0, 7 3 clear 0, 8 0 race 6"),
    ("three partners, the second", "accepted 5 0 2", THREE, "4 3 clear 0, 5 1 clear 0, 6 2 clear 0, 7 3 clear 0, 8 0 race 5"),
    ("three partners, the third", "accepted 5 0 3", THREE, "4 3 clear 0, 5 1 clear 0, 6 2 clear 0, 7 3 clear 0, 8 0 race 5"),
    (
        "three partners, all but the first",
        "accepted 5 0 2, accepted 5 0 3",
        THREE,
        "4 3 clear 0, 5 1 clear 0, 6 2 clear 0, 7 3 clear 0, 8 0 race 5",
    ),
    (
        "three partners, all but the second",
        "accepted 5 0 1, accepted 5 0 3",
        THREE,
        "4 3 clear 0, 5 1 clear 0, 6 2 clear 0, 7 3 clear 0, 8 0 race 6",
    ),
    (
        "three partners, all but the third: its latest access",
        "accepted 5 0 1, accepted 5 0 2",
        THREE,
        "4 3 clear 0, 5 1 clear 0, 6 2 clear 0, 7 3 clear 0, 8 0 race 7",
    ),
    (
        "three partners, all",
        "accepted 5 0 1, accepted 5 0 2, accepted 5 0 3",
        THREE,
        "4 3 clear 0, 5 1 clear 0, 6 2 clear 0, 7 3 clear 0, 8 0 known 5",
    ),
    // A task that is in order, or may be, needs no entry; one that it has changes nothing.
    (
        "the lower partner in order",
        "accepted 5 0 2",
        "start 0 1, start 0 2, write 1 5, give 1 1, take 0 1, write 2 5, read 0 5",
        "3 1 clear 0, 6 2 race 3, 7 0 known 6",
    ),
    (
        "the one in order accepted",
        "accepted 5 0 1",
        "start 0 1, start 0 2, write 1 5, give 1 1, take 0 1, write 2 5, read 0 5",
        "3 1 clear 0, 6 2 race 3, 7 0 race 6",
    ),
    ("a doubtful partner beside one apart", "accepted 5 0 2", DOUBTFUL, "3 1 clear 0, 5 2 race 3, 7 0 known 5"),
    ("the doubtful one accepted", "accepted 5 0 1", DOUBTFUL, "3 1 clear 0, 5 2 race 3, 7 0 race 5"),
    ("both", "accepted 5 0 1, accepted 5 0 2", DOUBTFUL, "3 1 clear 0, 5 2 race 3, 7 0 known 5"),
    ("a Doubt stays", "accepted 5 0 1", "start 0 1, write 0 5, lost 3, write 1 5", "2 0 clear 0, 4 1 doubt 2"),
    (
        "and so does its partner",
        "accepted 5 0 1",
        "start 0 1, start 0 2, write 1 5, write 2 5, lost 7, write 0 5",
        "3 1 clear 0, 4 2 race 3, 6 0 doubt 3",
    ),
    ("a mark that settles nothing", "accepted 5 0 1", "start 0 1, write 0 5, lost 2, write 1 5", "2 0 clear 0, 4 1 known 2"),
    ("a Clear stays", "accepted 5 0 1", "write 0 5, start 0 1, read 1 5", "1 0 clear 0, 3 1 clear 0"),
    ("a fresh", "accepted 5 0 1", "start 0 1, write 0 5, fresh 0 5, write 1 5, read 0 5", "2 0 clear 0, 4 1 clear 0, 5 0 known 4"),
    ("refused lines stay", "accepted 5 0 1", "start 0 1, write 2 5, write 0 5, lost 4, read 1 5", "!2 6, 2 0 clear 0, !4 9, 3 1 known 2"),
    (
        "a known access is a partner like any other",
        "accepted 5 0 1",
        "start 0 1, start 0 2, write 0 5, write 1 5, write 2 5",
        "3 0 clear 0, 4 1 known 3, 5 2 race 3",
    ),
    (
        "under the profile",
        "accepted 5 0 1",
        "owned 0 0, start 0 1, take 0 3, write 0 5, take 1 3, give 0 3, read 1 5, lost 3, take 1 3, read 1 5",
        "4 0 clear 0, !5 16, 6 1 known 4, !8 15, 8 1 clear 0",
    ),
    // Refused entries are left out, and the others are not.
    ("no entry", "x", ONE, "?1 12, 2 0 clear 0, 3 1 race 2"),
    ("one before", "x, accepted 5 0 1", ONE, "?1 12, 2 0 clear 0, 3 1 known 2"),
    ("one after", "accepted 5 0 1, x", ONE, "?2 12, 2 0 clear 0, 3 1 known 2"),
    ("all of 12, and each line counted", "x, accepted 5 0 1, y, z, open 5 2 3", ONE, "?1 12, ?3 12, ?4 12, 2 0 clear 0, 3 1 known 2"),
    ("low and high exchanged", "accepted 5 1 0", ONE, "?1 12, 2 0 clear 0, 3 1 race 2"),
    ("an open that is refused undoes nothing", "accepted 5 0 1, open 5 1 0", ONE, "?2 12, 2 0 clear 0, 3 1 known 2"),
    ("no recording", "x, accepted 5 0 1", "", "?1 12"),
];

/// As in the examples, and `?2 12` for entry 2 refused with 12.
fn report(lines: &str) -> String {
    let (refused, rest): (Vec<&str>, Vec<&str>) = lines.split(", ").partition(|line| line.starts_with('?'));
    let entry = |line: &&str| format!("entry={}\n", line[1..].replace(' ', " refused="));
    refused.iter().map(entry).collect::<String>() + &examples::report(&rest.join(", "))
}

/// Tries a case in each way of cutting; what document 02 makes of it is what is written by hand.
fn by_hand(tally: &mut Tally, order: Option<&Folder>, name: &str, file: &[u8], deck: &Deck, expected: &str) {
    let read = deck.report(&entries::read(file));
    tally.check(read == expected, || format!("oracle, entries, {name}: {read:?} and not {expected:?}"));
    for (at, cuts) in WAYS.into_iter().enumerate() {
        expect(tally, name, file, deck, expected, order.filter(|_| at == 0), (cuts, WAYS[(at + name.len()) % WAYS.len()]));
    }
}

fn run_short(tally: &mut Tally, order: Option<&Folder>) {
    for (name, lines, records, expected) in SHORT {
        let (deck, expected) = (Deck::short(records), report(expected));
        let whole = file(lines);
        by_hand(tally, order, name, &whole, &deck, &expected);
        by_hand(tally, order, &format!("{name}, no LF at the end"), whole.strip_suffix(b"\n").unwrap_or(b""), &deck, &expected);
    }
    let deck = Deck::short("start 0 1, start 0 3, write 1 5, read 3 5");
    let known = "rec=0000003 task=1 var=5 verdict=clear with=0000000\nrec=0000004 task=3 var=5 verdict=known with=0000003\n";
    let race = known.replace("known", "race");
    let line = "rec=00012 var=5 low=1 high=3 mark=accepted\n";
    let seven = line.replace("rec=", "rec=00");
    let open = |line: &str| line.replace("accepted", "open");
    let cases = [
        ("document 02's entry", line.to_string(), known.to_string()),
        ("document 02's entry in seven digits", seven.clone(), known.to_string()),
        ("document 02's entry in six digits", line.replace("rec=", "rec=0"), format!("entry=1 refused=12\n{race}")),
        ("accepted in five digits, open in seven", format!("{line}{}", open(&seven)), race.clone()),
        ("accepted in seven digits, open in five", format!("{seven}{}", open(line)), race.clone()),
        ("open in five digits, accepted in seven", format!("{}{seven}", open(line)), known.to_string()),
        ("open in seven digits, accepted in five", format!("{}{line}", open(&seven)), known.to_string()),
        ("document 02's refusal", format!("{}x\n", line.repeat(3)), format!("entry=4 refused=12\n{known}")),
        ("an empty file", String::new(), race.clone()),
        ("an empty line", "\n".to_string(), format!("entry=1 refused=12\n{race}")),
        ("empty lines", format!("\n\n{line}\n"), format!("entry=1 refused=12\nentry=2 refused=12\nentry=4 refused=12\n{known}")),
        ("two on a line", line.replace('\n', " ").repeat(2), format!("entry=1 refused=12\n{race}")),
        ("lines ended by CR LF", line.replace('\n', "\r\n").repeat(2), format!("entry=1 refused=12\nentry=2 refused=12\n{race}")),
        ("lines ended by CR", line.replace('\n', "\r").repeat(2), format!("entry=1 refused=12\n{race}")),
        ("a recording", String::from_utf8(text("start 0 1")).unwrap(), format!("entry=1 refused=12\n{race}")),
    ];
    for (name, file, expected) in cases {
        by_hand(tally, order, name, file.as_bytes(), &deck, &expected);
    }
}

/// An entry; each line below is this one with something else in one place, and is none.
const SOUND: &str = "rec=00012 var=5 low=0 high=1 mark=accepted";
/// What stands there in place of a part, one after each bar.
const NOT_OF_THE_FORM: &[(&str, &str)] = &[
    (
        "rec=00012 ",
        "|rec=00000 |rec=0000000 |rec=000000 |rec=0 |rec=4000001 |rec=4000010 |rec=4000012 |rec=4194316 |rec=9999999 |rec=0012 |rec=12 |rec=012 \
         |rec=000012 |rec=060000 |rec=100000 |rec=100012 |rec=400000 |rec=999999 |rec=00000012 |rec=04000000 |rec=40000000 |rec=000000012 \
         |rec=4294967308 |rec= |rec=0001 2 |rec= 0012 |rec=+0012 |rec=-0012 |rec=0001a |rec=0x012 |rec=00012\t|rec=00012  |rec=00012|rec=00012, \
         |rec=000001 2 |rec= 000012 |rec=+000012 |rec=-000012 |rec=000001a |rec=a000012 |rec=0x00012 |rec=0_00012 |rec=0000012\t|rec=0000012  \
         |rec=0000012|rec:0000012 |rec:00012 |Rec=00012 |REC=00012 |reco=00012 |re=00012 |=00012 |rec00012 |00012 | rec=00012 \
         |\u{feff}rec=00012 |rec=0001\u{662} |rec=000\u{662}12 ",
    ),
    (
        "var=5 ",
        "|var=64 |var=65 |var=69 |var=99 |var=100 |var=133 |var=261 |var=65541 |var=99999 |var=4294967301 |var=18446744073709551621 |var=05 \
         |var=00005 |var= |var=-5 |var=+5 |var=5a |var=5|var=5  |var=5\t|var=5\0 |variable=5 |Var=5 |va=5 |on=5 |5 ",
    ),
    (
        "low=0 high=1 ",
        "|low=1 high=1 |low=0 high=0 |low=15 high=15 |low=1 high=0 |low=15 high=0 |low=15 high=14 |low=0 high=16 |low=0 high=17 |low=15 high=16 \
         |low=16 high=17 |low=0 high=257 |low=0 high=65537 |low=0 high=4294967297 |low=4294967296 high=4294967297 |low=256 high=257 \
         |low=00 high=1 |low=0 high=01 |low=00000 high=00001 |low= high=1 |low=0 high= |low=-1 high=1 |low=+0 high=1 |low=0  high=1 \
         |low=0high=1 |low=0\thigh=1 |low=0 high=1|low=0 high=1  |high=1 low=0 |low=0 low=1 |high=0 high=1 |low=0 |high=1 |Low=0 High=1 \
         |low=0 hig=1 |lo=0 high=1 |task=0 task=1 ",
    ),
    (
        "mark=accepted",
        "|mark=Accepted|mark=ACCEPTED|mark=accept|mark=accepte|mark=acceptede|mark=accepted |mark=accepted\r|mark=accepted\0|mark=accepted\t\
         |mark=accepted.|mark=accepted mark=open|mark=accepted rec=00012|mark= accepted|mark=known|mark=closed|mark=Open|mark=opened|mark=ope\
         |mark=open |mark=open\r|mark=openaccepted|mark=|mark|mark accepted|Mark=accepted|mar=accepted|marks=accepted|accepted|open",
    ),
    (
        SOUND,
        "|rec=00012 low=0 var=5 high=1 mark=accepted|rec=00012 mark=accepted var=5 low=0 high=1|var=5 low=0 high=1 mark=accepted rec=00012\
         |# the lamp test reads a dimmer value|entry=1 refused=12|rec=0000003 task=1 var=5 verdict=race with=0000002",
    ),
];

/// Each is refused with 12 and is not taken; the entry after it is.
fn run_not_of_the_form(tally: &mut Tally, order: Option<&Folder>) {
    let (race, other) = (Deck::short(ONE), Deck::short("start 0 1, start 0 2, write 2 5, write 1 5, write 0 5"));
    for (part, others) in NOT_OF_THE_FORM {
        for spoilt in others.split('|') {
            let line = SOUND.replace(part, spoilt);
            let name = format!("not an entry: {line:?}");
            by_hand(tally, order, &name, format!("{line}\n").as_bytes(), &race, &report("?1 12, 2 0 clear 0, 3 1 race 2"));
            let undone = format!("{SOUND}\n{line}\n");
            by_hand(tally, None, &name, undone.as_bytes(), &race, &report("?2 12, 2 0 clear 0, 3 1 known 2"));
            let followed = format!("{line}\nrec=4000000 var=5 low=0 high=2 mark=accepted");
            let expected = report("?1 12, 3 2 clear 0, 4 1 race 3, 5 0 race 4");
            by_hand(tally, None, &name, followed.as_bytes(), &other, &expected);
        }
    }
}

/// Two tasks write a variable, and nothing orders them.
fn pair_deck(var: u32, low: u32, high: u32) -> Deck {
    let starts = [low, high].map(|task| if task > 0 { format!("start 0 {task}, ") } else { String::new() });
    Deck::short(&format!("{}write {low} {var}, write {high} {var}", starts.concat()))
}

/// The ends of the ranges: each is taken, and an open after it too.
fn run_edges(tally: &mut Tally, order: Option<&Folder>) {
    let five = ["00001", "00009", "00010", "00999", "09999", "10000", "60000", "60001", "65536", "99999"];
    let seven = ["0000001", "0000009", "0000010", "0009999", "0060001", "0065536", "0099999", "0100000", "1000000", "3999999", "4000000"];
    for rec in five.iter().chain(&seven) {
        for (var, low, high) in [(0, 0, 1), (5, 0, 15), (9, 9, 10), (10, 1, 2), (62, 8, 9), (63, 14, 15)] {
            let deck = pair_deck(var, low, high);
            let said = |word: &str| oracle::report(&deck.reading, &deck.judged).replace("race", word);
            let line = |mark: &str| format!("rec={rec} var={var} low={low} high={high} mark={mark}\n");
            let name = format!("an edge, {}", line("accepted").trim());
            by_hand(tally, order, &name, line("accepted").as_bytes(), &deck, &said("known"));
            by_hand(tally, None, &name, (line("accepted") + &line("open")).as_bytes(), &deck, &said("race"));
            by_hand(tally, None, &name, (line("open") + &line("accepted")).as_bytes(), &deck, &said("known"));
        }
    }
}

// ---- Numbers

/// Each pair of tasks writes a variable that has just been laid out anew.
fn every_pair() -> Deck {
    let starts = (1..TASKS).map(|task| format!("start 0 {task}"));
    let pairs = (0..TASKS).flat_map(|low| (low + 1..TASKS).map(move |high| format!("fresh 0 5, write {low} 5, write {high} 5")));
    Deck::short(&starts.chain(pairs).collect::<Vec<_>>().join(", "))
}

/// Tasks 0 and 1 write each variable.
fn every_variable() -> Deck {
    let writes = (0..VARIABLES).map(|var| format!(", write 0 {var}, write 1 {var}"));
    Deck::short(&format!("start 0 1{}", writes.collect::<String>()))
}

/// Numbers about the ends of the ranges, and some that are within them in their low bits, in so many digits each.
fn run_numbers(tally: &mut Tally, order: Option<&Folder>) {
    let (pairs, variables) = (every_pair(), every_variable());
    let beyond = [255, 256, 257, 319, 320, 32_768, 65_535, 65_536, 65_537, 65_600, 99_999, 100_000, 1 << 32, (1 << 32) + 1, (1 << 32) + 5];
    let limit = LIMIT as u64;
    let records = [0, 1, 2, 9, 10, 12, 99, 100, 9_999, 10_000, 59_999, 60_000, 60_001, 99_998, 999_999, 1_000_000, 1_000_001, 3_999_999]
        .into_iter()
        .chain([limit - 1, limit, limit + 1, limit + 2, limit + 65_536, 1 << 22, 1 << 23, 9_999_999, 10_000_000, 10 * limit, 99_999_999]);
    let mut lines = Vec::new();
    for width in 1..=9 {
        for rec in records.clone().chain(beyond) {
            lines.push((&variables, format!("rec={rec:0width$} var=5 low=0 high=1 mark=accepted")));
        }
    }
    for width in 1..=3 {
        for var in (0..=72_u64).chain(beyond) {
            lines.push((&variables, format!("rec=00001 var={var:0width$} low=0 high=1 mark=accepted")));
        }
        for (low, high) in (0..=18_u64).chain(beyond).flat_map(|low| (0..=18).chain([256, 257, 1 << 32]).map(move |high| (low, high))) {
            if width == 1 || low.max(high) < 100 {
                lines.push((&pairs, format!("rec=00001 var=5 low={low:0width$} high={high:0width$} mark=accepted")));
            }
        }
    }
    for (turn, (deck, line)) in lines.into_iter().enumerate() {
        compare_in_turn(tally, "numbers", format!("{line}\n").as_bytes(), deck, order, turn);
    }
}

/// Every variable and pair once, as many in a file as may be; each file with a recording of its own pairs and of some that it has not.
fn run_every_key(tally: &mut Tally, order: Option<&Folder>) {
    let mut random = Random::new(9_500_000);
    let pairs = |var| (0..TASKS).flat_map(move |low| (low + 1..TASKS).map(move |high| (var, low, high)));
    let mut keys: Vec<(u32, u32, u32)> = (0..VARIABLES as u32).flat_map(pairs).collect();
    shuffle(&mut random, &mut keys);
    for (at, some) in keys.chunks(MOST).enumerate() {
        let mut lines = String::new();
        let mut records: Vec<String> = (1..TASKS).map(|task| format!("start 0 {task}")).collect();
        for &(var, low, high) in some {
            lines += &format!("{}\n", Entry { var, low, high, accepted: true, ..any_seen(&mut random) }.line());
            // The same pair or one beside it, of the same variable or of one beside it.
            let other =
                (random.pick(&[var, (var + 1) % 64, var ^ 16]), random.pick(&[low, low / 2]), random.pick(&[high, (high + 1).min(15)]));
            for (var, low, high) in [(var, low, high), other] {
                let (first, second) = random.pick(&[(low, high), (high, low)]);
                records.push(format!("fresh 0 {var}, write {first} {var}, read {second} {var}"));
            }
        }
        let deck = Deck::short(&records.join(", "));
        let cuts = (WAYS[at % WAYS.len()], Cuts::Anywhere(at as u64));
        compare(tally, &format!("every variable and pair, file {at}"), lines.as_bytes(), &deck, order, cuts);
    }
}

/// Four tasks access a variable, each choice of three first and then all; every choice of the pairs that are accepted.
fn run_every_choice(tally: &mut Tally, order: Option<&Folder>) {
    let pairs: Vec<(u32, u32)> = (0..4).flat_map(|low| (low + 1..4).map(move |high| (low, high))).collect();
    for (first, second, third) in (0..64).map(|n| (n / 16, n / 4 % 4, n % 4)) {
        let deck = Deck::short(&format!(
            "start 0 1, start 0 2, start 0 3, write {first} 5, read {second} 5, write {third} 5, bump 0 5, write 3 5, write 1 5, write 2 5"
        ));
        for choice in 0..1 << pairs.len() {
            let accepted = |(at, (low, high)): (usize, &(u32, u32))| {
                let mark = if choice >> at & 1 == 1 { "accepted" } else { "open" };
                format!("{mark} 5 {low} {high}")
            };
            let lines: Vec<String> = pairs.iter().enumerate().map(accepted).collect();
            compare_in_turn(tally, "every choice of pairs", &file(&lines.join(", ")), &deck, order, choice + first + third);
        }
    }
}

// ---- As many as may be

/// Files about the limit. What the last lines say shows in the report of one Race.
fn run_full(tally: &mut Tally, order: Option<&Folder>) {
    let deck = Deck::short(ONE);
    let other = |n: usize| format!("{} {} 2 {}, ", if n % 3 == 0 { "open" } else { "accepted" }, n % 64, 3 + n / 64);
    let others = |count: usize| (0..count).map(other).collect::<String>();
    let same = |count: usize, line: &str| format!("{line}, ").repeat(count);
    let refused = |from: usize, to: usize, row: u32| (from..=to).map(|line| format!("?{line} {row}, ")).collect::<String>();
    let (known, race) = ("2 0 clear 0, 3 1 known 2", "2 0 clear 0, 3 1 race 2");
    let (accept, open) = ("accepted 5 0 1", "open 5 0 1");
    let cases = [
        ("the 200th is taken", others(199), accept, known.to_string()),
        ("the 201st is not", others(200), accept, format!("?201 13, {race}")),
        ("nor the 202nd", others(200), "accepted 5 0 1, accepted 5 0 1", format!("?201 13, ?202 13, {race}")),
        ("the 200th undoes", same(1, accept) + &others(198), open, race.to_string()),
        ("the 201st does not", same(1, accept) + &others(199), open, format!("?201 13, {known}")),
        ("one that replaces another counts", same(199, accept), open, race.to_string()),
        ("one that replaces another is past the limit", same(200, accept), open, format!("?201 13, {known}")),
        ("one that says the same again is past the limit", same(200, accept), accept, format!("?201 13, {known}")),
        ("open counts", same(199, "open 63 14 15"), accept, known.to_string()),
        ("after as many open", same(200, "open 63 14 15"), accept, format!("?201 13, {race}")),
        ("after as many there and back", same(100, "accepted 5 0 1, open 5 0 1"), accept, format!("?201 13, {race}")),
        ("refused lines do not count", same(500, "x"), accept, refused(1, 500, 12) + known),
        ("12 goes first", others(200), "x, accepted 5 0 1, accepted 5 1 0", format!("?201 12, ?202 13, ?203 12, {race}")),
        ("a refused line among 200", others(100) + "x, " + &others(99), accept, format!("?101 12, {known}")),
        ("a refused line among 201", others(100) + "x, " + &others(100), accept, format!("?101 12, ?202 13, {race}")),
        ("all past the limit", others(200) + &same(1_800, open), accept, refused(201, 2_001, 13) + race),
    ];
    for (name, before, after, expected) in cases {
        let (file, expected) = (file(&(before + after)), report(&expected));
        by_hand(tally, order, name, &file, &deck, &expected);
        by_hand(tally, order, &format!("{name}, no LF at the end"), &file[..file.len() - 1], &deck, &expected);
    }
    // 198 to 203 of them, of all kinds, with lines to refuse between.
    for count in 198..=203 {
        for seed in 0..20 {
            let mut random = Random::new(9_600_000 + 100 * count + seed);
            let mut lines = String::new();
            for _ in 0..count {
                while random.percent(10) {
                    lines +=
                        random.pick(&["\n", "x\n", "rec=00000 var=5 low=0 high=1 mark=open\n", "rec=00001 var=5 low=1 high=0 mark=open\n"]);
                }
                lines += &any_entry(&mut random, &[5, 5, 6]).line();
                lines += "\n";
            }
            compare_in_turn(tally, &format!("{count} entries"), lines.as_bytes(), &every_pair_of_four(), order, seed as usize);
        }
    }
}

fn every_pair_of_four() -> Deck {
    Deck::short("start 0 1, start 0 2, start 0 3, write 0 5, write 1 5, write 2 5, write 3 5, read 0 5, read 1 5, write 2 5")
}

// ---- At random

fn shuffle<T>(random: &mut Random, list: &mut [T]) {
    for at in (1..list.len()).rev() {
        list.swap(at, random.below(at + 1));
    }
}

/// An entry of a fault that was seen at any record, in one of the two forms.
fn any_seen(random: &mut Random) -> Entry {
    let digits = random.pick(&DIGITS);
    let most = LIMIT.min(10_usize.pow(digits as u32) - 1);
    Entry { rec: 1 + random.below(most), digits, var: 0, low: 0, high: 1, accepted: true }
}

fn any_entry(random: &mut Random, variables: &[u32]) -> Entry {
    let any = [random.below(15) as u32, random.below(15) as u32];
    let low = random.pick(&[0, 0, 0, 1, 1, 2, any[0]]);
    let high = (low + 1 + random.pick(&[0, 0, 1, any[1]])).min(15);
    Entry { var: random.pick(variables), low, high, accepted: random.percent(60), ..any_seen(random) }
}

/// Spoils a line, its LF included, or makes it one that is nearly an entry, or the same with other digits.
fn spoil(random: &mut Random, line: &mut Vec<u8>) {
    let (old, new) = random.pick(&[
        ("rec=", "rec=0"),
        ("rec=", "rec=00"),
        ("rec=0", "rec="),
        ("rec=00", "rec="),
        ("rec=", "rec=9"),
        ("var=", "var=0"),
        ("var=", "var=9"),
        ("low=", "low=0"),
        ("high=", "high=0"),
        ("high=", "high=1"),
        ("low=0", "low=15"),
        ("mark=", "mark= "),
        ("mark=accepted", "mark=accepted "),
        ("accepted", "accept"),
        ("accepted", "known"),
        ("open", "opened"),
        (" mark", "  mark"),
    ]);
    match random.percent(60) {
        true => damage(random, line),
        false => replace(line, old, new),
    }
}

/// A file for a recording: its pairs apart, accepted or not, one or several times, among other entries and lines that are none.
pub fn entry_file(random: &mut Random, deck: &Deck) -> Vec<u8> {
    let share = random.pick(&[0, 30, 60, 90, 100, 100]);
    let mut keys = BTreeSet::new();
    for Judged { access, apart, .. } in &deck.judged {
        keys.extend(apart.iter().map(|other| (access.var, access.task.min(other.task), access.task.max(other.task))));
    }
    // Each line has its place in the file; those of one pair stay in their order.
    let mut lines: Vec<(u64, Entry)> = Vec::new();
    for &(var, low, high) in &keys {
        let mut marks = vec![random.percent(share)];
        while random.percent(25) {
            marks.insert(0, random.percent(50));
        }
        let mut places: Vec<u64> = marks.iter().map(|_| random.next()).collect();
        places.sort();
        for (place, accepted) in places.into_iter().zip(marks) {
            lines.push((place, Entry { var, low, high, accepted, ..any_seen(random) }));
        }
    }
    let beside: Vec<u32> = keys.iter().flat_map(|key| [key.0, (key.0 + 1) % 64, key.0 ^ 16]).chain([0, 63]).collect();
    let others = if random.percent(12) { 100 + random.below(200) } else { random.pick(&[0, 0, 3, 20]) };
    lines.extend(
        (0..others)
            .map(|_| (random.next(), any_entry(random, &beside)))
            .filter(|(_, other)| share < 100 || !keys.contains(&(other.var, other.low, other.high))),
    );
    lines.sort_by_key(|(place, _)| *place);
    let spoilt = random.pick(&[0, 0, 8, 30]);
    let mut out = Vec::new();
    for (_, entry) in lines {
        if random.percent(2) && spoilt > 0 {
            out.push(b'\n');
        }
        let mut line = format!("{}\n", entry.line()).into_bytes();
        if random.percent(spoilt) {
            spoil(random, &mut line);
        }
        out.extend(line);
    }
    if random.percent(30) && out.last() == Some(&b'\n') {
        out.pop();
    }
    out
}

/// Every other recording of the numbered ones, by its own seed. Without a file, and with an empty one, the report is that of document 01.
fn run_generated(first: u64, program: Option<&str>) -> Tally {
    let mut tally = Tally::new();
    let folder = program.map(Folder::new);
    for seed in (first..RECORDINGS).step_by(THREADS as usize) {
        let mut random = Random::new(9_000_000 + seed);
        let shape = shape(&mut random);
        let length = shape.length.min(150);
        let deck = Deck::new(recording(&mut random, &Shape { length, ..shape }));
        let order = folder.as_ref().filter(|_| seed / THREADS % SHARE as u64 == 0);
        let cuts = [Cuts::Anywhere(seed), WAYS[seed as usize / 2 % WAYS.len()]];
        let cuts = (cuts[seed as usize / 12 % 2], cuts[1 - seed as usize / 12 % 2]);
        let name = format!("recording {seed}");
        let file = entry_file(&mut random, &deck);
        compare(&mut tally, &name, &file, &deck, order, cuts);
        let plain = oracle::report(&deck.reading, &deck.judged);
        expect(&mut tally, &format!("{name} with no entries"), b"", &deck, &plain, None, cuts);
        if let Some(order) = order {
            let answer = order.report(&deck.text, cuts.1);
            tally.expect(&format!("program without a file, {name}"), &deck.text, &plain, answer);
        }
    }
    tally
}

// ---- Bad files

/// Bytes at random, and a sound file with each byte spoilt, left out or doubled, and cut at each place.
fn run_bad(tally: &mut Tally, order: Option<&Folder>) {
    let deck = every_pair_of_four();
    let sample =
        b"rec=00012 var=5 low=0 high=1 mark=accepted\nrec=4000000 var=5 low=0 high=2 mark=accepted\nrec=0000001 var=5 low=0 high=1 mark=open";
    let mut files: Vec<Vec<u8>> = Vec::new();
    for at in 0..sample.len() {
        files.push(sample[..at].to_vec());
        files.push(sample[at..].to_vec());
        files.push([&sample[..at], &sample[at + 1..]].concat());
        for byte in [b'\n', b'\r', b' ', b'=', b'0', b'1', b'9', b'a', 0, 0x7f, 0x80, 0xff, sample[at]] {
            files.push([&sample[..at], &[byte], &sample[at + 1..]].concat());
            files.push([&sample[..at], &[byte], &sample[at..]].concat());
        }
    }
    let words: Vec<&[u8]> = "rec=|0000|00|00012|4000001|4000000| var=|5|64| low=|0|1| high=|2|16| mark=|accepted|open|\n|\n|\r| |\0"
        .split('|')
        .map(str::as_bytes)
        .collect();
    for seed in 0..1_000 {
        let mut random = Random::new(9_700_000 + seed);
        let length = random.below(if seed % 10 == 0 { 4_000 } else { 200 });
        let mut file = Vec::new();
        while file.len() < length {
            match seed % 3 {
                0 => file.push(random.next() as u8),
                1 => file.push(random.pick(sample)),
                _ => file.extend(random.pick(&words)),
            }
        }
        files.push(file);
    }
    for (turn, file) in files.iter().enumerate() {
        compare_in_turn(tally, "bad file", file, &deck, order, turn);
    }
}

/// Files of megabytes.
fn run_large(tally: &mut Tally, order: Option<&Folder>) {
    let deck = Deck::short(ONE);
    let line = format!("{SOUND}\n");
    let long = |byte: &str| format!("{SOUND}{}", byte.repeat(MEGABYTE));
    let cases = [
        ("a megabyte without LF", long("d")),
        ("a megabyte of blanks", long(" ")),
        ("a megabyte of NUL", "\0".repeat(MEGABYTE)),
        ("a megabyte of digits", format!("rec={}", "1".repeat(MEGABYTE))),
        ("a megabyte, and an entry after it", long("\t") + "\n" + &line),
        ("an entry, and a megabyte after it", line.clone() + &long("\r")),
        ("empty lines", "\n".repeat(100_000) + &line),
        ("entries without end", line.repeat(50_000)),
        ("every other line an entry", format!("{line}x\n").repeat(30_000)),
    ];
    for (name, file) in cases {
        let expected = deck.report(&entries::read(file.as_bytes()));
        for cuts in [Cuts::Every(4_095), Cuts::Every(64), Cuts::Anywhere(1)] {
            let answer = streaming::report_with((file.as_bytes(), cuts), (&deck.text, Cuts::Nowhere), &deck.totals());
            tally.check(answer.is_ok_and(|got| got == expected.as_bytes()), || format!("entries in pieces, {name}, cut {cuts:?}"));
        }
        if let Some(order) = order {
            let answer = order.report_with(file.as_bytes(), &deck.text, Cuts::Nowhere);
            tally.check(answer.is_ok_and(|got| got == expected.as_bytes()), || format!("program with entries, {name}"));
        }
    }
}

/// An entry across the end of a block, as large as blocks may be.
fn run_blocks(tally: &mut Tally, order: &Folder) {
    let deck = Deck::short(ONE);
    for block in [1_024, 4_096, 65_536] {
        for before in [1, 2, 20, SOUND.len(), SOUND.len() + 1] {
            let file = format!("{}\n{SOUND}\nx\n", "x".repeat(block - before));
            let answer = order.report_with(file.as_bytes(), &deck.text, Cuts::Nowhere);
            let expected = report("?1 12, ?3 12, 2 0 clear 0, 3 1 known 2");
            tally.check(answer.is_ok_and(|got| got == expected.as_bytes()), || format!("program, an entry {before} before {block}"));
        }
    }
}

/// Pieces of a file that are refused: for want of memory, and where the progress is none that a piece leaves. Nothing is changed.
fn run_refused(tally: &mut Tally) {
    let mut try_one = |name: &str, result: Result<(), String>| tally.check(result.is_ok(), || format!("entries, {name}: {result:?}"));
    let file = format!("{SOUND}\nx\n");
    for len in 1..file.len() {
        for before in [&b""[..], b"rec=0000001 var=5 low=0 high=2 mark=open\nrec=0"] {
            let refused = Kept::begun().and_then(|mut kept| {
                kept.call(of_entries, before, 64 * before.len())?;
                for length in [0, 1, 63, 64 * len - 64, 64 * len - 1] {
                    kept.refuse(of_entries, &file.as_bytes()[..len], length)?;
                }
                Ok(())
            });
            try_one("too little memory", refused);
        }
    }
    let begun = |progress| {
        Kept::begun().map(|mut kept| {
            kept.progress = progress;
            kept
        })
    };
    for progress in [[0, 66], [0, 67], [0, 1 << 32], [0, u64::MAX], [u64::MAX, 0], [u64::MAX, 65], [u64::MAX - 1, 0], [7, 1 << 63]] {
        try_one(&format!("progress {progress:?}"), begun(progress).and_then(|mut kept| kept.refuse(of_entries, b"\n\n", 128)));
    }
    let last = begun([u64::MAX - 1, 0]).and_then(|mut kept| kept.call(of_entries, b"\n", 64));
    try_one(
        "the last line that can be counted",
        (last == Ok(Some(b"entry=18446744073709551615 refused=12\n".to_vec()))).then_some(()).ok_or(format!("{last:?}")),
    );
    let empty = Kept::begun().and_then(|mut kept| kept.call(of_entries, b"", 0).map(|answer| (answer, kept.progress)));
    try_one("an empty piece, in no memory", (empty == Ok((Some(Vec::new()), [0, 0]))).then_some(()).ok_or(format!("{empty:?}")));
}

// ---- The programs

/// A user who owns nothing.
const NOBODY: u32 = 65_534;

extern "C" {
    fn geteuid() -> u32;
}

/// A file that is there and cannot be read: it is said on standard error, in one line that names it, and the report is that without a file.
fn run_unreadable(tally: &mut Tally, order: &Folder) {
    let deck = Deck::short(ONE);
    let plain = oracle::report(&deck.reading, &deck.judged);
    let mut expect = |name: &str, got: Result<(Vec<u8>, String), String>| {
        let right = got.as_ref().is_ok_and(|(wrote, said)| {
            wrote == plain.as_bytes() && said.ends_with('\n') && said.lines().count() == 1 && said.contains(FILE)
        });
        tally.check(right, || format!("program, {FILE} that is {name}: {got:?}"));
    };
    fs::create_dir(order.accepted()).expect("a folder can be made");
    expect("a folder", order.run(order.start(), &deck.text, Cuts::Nowhere));
    fs::remove_dir(order.accepted()).expect("a folder can be removed");

    fs::write(order.accepted(), SOUND).expect("a file can be written");
    fs::set_permissions(order.accepted(), fs::Permissions::from_mode(0)).expect("permissions can be set");
    let mut command = order.command(&order.program);
    // SAFETY: it takes nothing and changes nothing.
    if unsafe { geteuid() } == 0 {
        // Who may read everything hands the program to somebody who may not, where that one can reach it.
        let copy = order.path.join("order");
        fs::copy(&order.program, &copy).expect("the program can be copied");
        command = order.command(&copy);
        command.uid(NOBODY).gid(NOBODY);
    }
    expect("not permitted", order.run(spawn(&mut command), &deck.text, Cuts::Nowhere));
    fs::remove_file(order.accepted()).expect("a file can be removed");
    // And without it again.
    tally.expect("program, no file", &deck.text, &plain, order.report(&deck.text, Cuts::Nowhere));
}

/// What there is to say of the file is written before the program waits for input.
fn run_pauses(tally: &mut Tally, order: &Folder) {
    let parts =
        ["", "op=start task=0 on=1\nop=write task=0 on=5\n", "op=read task=1", " on=5\nop=read task=1 on=6", "\n"].map(String::from);
    for lines in ["x, accepted 5 0 1", "accepted 5 0 1, x", "accepted 5 0 1", "", "x, y, z"] {
        let file = file(lines);
        let due = |text: &[u8], _| Deck::new(text.to_vec()).report(&entries::read(&file));
        fs::write(order.accepted(), &file).expect("a file can be written");
        let seen = order.start().and_then(|child| pauses::watch(child, &parts, &due));
        tally.check(seen.is_ok(), || format!("program with entries, pauses, {lines:?}: {}", seen.unwrap_err()));
        fs::remove_file(order.accepted()).expect("a file can be removed");
    }
}

/// The program `totals` counts a known Race as a Race, whatever is in the file.
fn run_totals(tally: &mut Tally, totals: &Folder) {
    for records in [ONE, TWO, THREE, DOUBTFUL] {
        let deck = Deck::short(records);
        let expected = oracle::tables(&deck.reading, &deck.judged, 0, true);
        for lines in ["", "accepted 5 0 1, accepted 5 0 2, accepted 5 1 2, accepted 5 0 3", "x, y"] {
            let answer = totals.report_with(&file(lines), &deck.text, Cuts::Nowhere);
            tally.expect(&format!("totals with entries {lines:?}"), &deck.text, &expected, answer);
        }
        fs::create_dir(totals.accepted()).expect("a folder can be made");
        tally.expect("totals beside a folder of that name", &deck.text, &expected, totals.report(&deck.text, Cuts::Nowhere));
        fs::remove_dir(totals.accepted()).expect("a folder can be removed");
    }
}

pub fn run(tally: &mut Tally, order: Option<&str>, totals: Option<&str>) {
    let folder = order.map(Folder::new);
    let program = folder.as_ref();
    run_short(tally, program);
    run_not_of_the_form(tally, program);
    run_edges(tally, program);
    tally.part("entries, by hand");
    run_numbers(tally, program);
    run_every_key(tally, program);
    run_every_choice(tally, program);
    tally.part("entries, every number, pair and choice");
    run_full(tally, program);
    tally.part("entries, as many as may be");
    on_threads(tally, |first| run_generated(first, order));
    tally.part("entries, generated files and recordings");
    run_bad(tally, program);
    run_large(tally, program);
    tally.part("entries, bad and large files");
    run_refused(tally);
    if let Some(folder) = program {
        run_blocks(tally, folder);
        run_unreadable(tally, folder);
        run_pauses(tally, folder);
    }
    if let Some(totals) = totals {
        run_totals(tally, &Folder::new(totals));
    }
    tally.part("entries, refused pieces and the programs");
}
