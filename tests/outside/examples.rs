//! Document 01's examples, edges and refusal rows, with reports written by hand.

use crate::oracle::RECORD_DIGITS;

pub struct Example {
    pub name: &'static str,
    pub text: Vec<u8>,
    pub report: String,
}

/// Records in short, `write 0 5` for `op=write task=0 on=5` and `lost 3` for `op=lost tasks=3`.
pub fn text(records: &str) -> Vec<u8> {
    let mut out = String::new();
    for record in records.split(", ").filter(|record| !record.is_empty()) {
        match record.split(' ').collect::<Vec<_>>()[..] {
            ["lost", mask] => out += &format!("op=lost tasks={mask}\n"),
            [op, task, on] => out += &format!("op={op} task={task} on={on}\n"),
            _ => panic!("not a record: {record}"),
        }
    }
    out.into_bytes()
}

/// Report lines in short: `3 1 race 2` is record 3, task 1, variable 5, and its partner; `!4 6` is line 4 refused with 6.
pub fn report(lines: &str) -> String {
    let mut out = String::new();
    for line in lines.split(", ").filter(|line| !line.is_empty()) {
        match line.split(' ').collect::<Vec<_>>()[..] {
            [rec, task, verdict, with] => {
                out += &format!("rec={rec:0>RECORD_DIGITS$} task={task} var=5 verdict={verdict} with={with:0>RECORD_DIGITS$}\n")
            }
            [number, row] => out += &format!("line={} refused={row}\n", &number[1..]),
            _ => panic!("not a report line: {line}"),
        }
    }
    out
}

const SHORT: &[(&str, &str, &str)] = &[
    ("K1", "", ""),
    ("K2", "start 0 1, write 0 5, read 1 5", "2 0 clear 0, 3 1 race 2"),
    ("K3", "write 0 5, start 0 1, read 1 5", "1 0 clear 0, 3 1 clear 0"),
    ("K4", "start 0 1, write 1 5, join 0 1, write 0 5", "2 1 clear 0, 4 0 clear 0"),
    ("K5", "start 0 1, read 0 5, read 1 5", "2 0 clear 0, 3 1 clear 0"),
    ("K6", "start 0 1, write 0 5, look 0 3, set 1 3, write 1 5", "2 0 clear 0, 5 1 race 2"),
    ("a look that tells no later look", "start 0 1, write 0 5, look 0 3, look 1 3, write 1 5", "2 0 clear 0, 5 1 race 2"),
    ("K7", "start 0 1, start 0 2, write 1 5, give 1 4, give 2 4, take 0 4, read 0 5", "3 1 clear 0, 7 0 clear 0"),
    ("K8", "start 0 1, write 0 5, write 1 5, lost 3", "2 0 clear 0, 3 1 race 2"),
    ("K9", "start 0 1, write 0 5, lost 3, write 1 5", "2 0 clear 0, 4 1 doubt 2"),
    ("K10", "start 0 1, write 0 5, lost 2, write 1 5", "2 0 clear 0, 4 1 race 2"),
    ("K11", "start 0 1, write 0 5, lost 1, write 1 5", "2 0 clear 0, 4 1 race 2"),
    ("K11 with a take", "start 0 1, write 0 5, lost 1, take 1 9, write 1 5", "2 0 clear 0, 5 1 doubt 2"),
    ("K12", "start 0 1, write 0 5, lost 1, lost 2, write 1 5", "2 0 clear 0, 5 1 doubt 2"),
    ("K12 the other way round", "start 0 1, write 0 5, lost 2, lost 1, write 1 5", "2 0 clear 0, 5 1 race 2"),
    ("K9 with the tasks exchanged", "start 0 1, write 1 5, lost 3, write 0 5", "2 1 clear 0, 4 0 doubt 2"),
    ("joining a task that never acted", "start 0 2, write 0 5, start 0 1, join 2 1, read 2 5", "2 0 clear 0, 5 2 race 2"),
    ("joining a task that may have acted", "start 0 2, write 0 5, start 0 1, lost 2, join 2 1, read 2 5", "2 0 clear 0, 6 2 doubt 2"),
    (
        "an older unordered access behind an ordered one",
        "start 0 1, start 0 2, write 1 5, write 2 5, give 2 1, take 0 1, read 0 5",
        "3 1 clear 0, 4 2 race 3, 7 0 race 3",
    ),
    (
        "a partner is the lowest task's latest access",
        "start 0 1, start 0 2, write 2 5, write 2 5, write 1 5, write 1 5, read 0 5",
        "3 2 clear 0, 4 2 clear 0, 5 1 race 4, 6 1 race 4, 7 0 race 6",
    ),
    (
        "a read's partner is a write, a write's may be a read",
        "start 0 1, write 1 5, read 1 5, read 0 5, write 0 5",
        "2 1 clear 0, 3 1 clear 0, 4 0 race 2, 5 0 race 3",
    ),
    (
        "a doubtful partner is no partner of a Race",
        "start 0 1, start 0 2, write 1 5, give 1 0, write 2 5, lost 1, write 0 5",
        "3 1 clear 0, 5 2 race 3, 7 0 race 5",
    ),
    ("fresh between two unordered writes", "start 0 1, write 0 5, fresh 0 5, write 1 5", "2 0 clear 0, 4 1 clear 0"),
    ("fresh before both", "start 0 1, fresh 0 5, write 0 5, write 1 5", "3 0 clear 0, 4 1 race 3"),
    ("fresh of another variable", "start 0 1, write 0 5, fresh 0 6, write 1 5", "2 0 clear 0, 4 1 race 2"),
    ("fresh by a third task", "start 0 1, start 0 2, write 0 5, fresh 2 5, write 1 5", "3 0 clear 0, 5 1 clear 0"),
    ("fresh before a mark", "start 0 1, write 0 5, fresh 1 5, lost 3, write 1 5", "2 0 clear 0, 5 1 clear 0"),
    ("fresh after a mark", "start 0 1, write 0 5, lost 3, fresh 1 5, write 1 5", "2 0 clear 0, 5 1 clear 0"),
    (
        "fresh twice",
        "start 0 1, write 0 5, fresh 0 5, write 1 5, fresh 1 5, write 0 5, read 1 5",
        "2 0 clear 0, 4 1 clear 0, 6 0 clear 0, 7 1 race 6",
    ),
    (
        "a partner since the fresh",
        "start 0 1, start 0 2, write 1 5, fresh 0 5, write 2 5, write 0 5",
        "3 1 clear 0, 5 2 clear 0, 6 0 race 5",
    ),
    ("a join hears a fresh", "start 0 2, write 0 5, start 0 1, fresh 1 6, join 2 1, read 2 5", "2 0 clear 0, 6 2 clear 0"),
    ("fresh of the last variable and past it", "fresh 0 63, fresh 0 64, fresh 16 0, fresh 1 0", "!2 3, !3 2, !4 6"),
    ("a wait that ran out", "start 0 1, write 0 5, give 0 4, miss 1 4, read 1 5", "2 0 clear 0, 5 1 race 2"),
    ("a take after the miss", "start 0 1, write 0 5, give 0 4, miss 1 4, take 1 4, read 1 5", "2 0 clear 0, 6 1 clear 0"),
    ("a miss gives nothing", "start 0 1, write 0 5, miss 0 4, take 1 4, write 1 5", "2 0 clear 0, 5 1 race 2"),
    ("a join hears a miss", "start 0 2, write 0 5, start 0 1, miss 1 4, join 2 1, read 2 5", "2 0 clear 0, 6 2 clear 0"),
    ("a lost miss would do", "start 0 2, give 0 4, write 0 5, start 0 1, lost 2, join 2 1, read 2 5", "3 0 clear 0, 7 2 doubt 3"),
    ("miss of the last semaphore and past it", "miss 0 31, miss 0 32, miss 16 0, miss 1 0", "!2 3, !3 2, !4 6"),
    ("two bumps", "start 0 1, bump 0 5, bump 1 5", "2 0 clear 0, 3 1 clear 0"),
    ("a bump after a write", "start 0 1, write 0 5, bump 1 5", "2 0 clear 0, 3 1 race 2"),
    ("a write after a bump", "start 0 1, bump 0 5, write 1 5", "2 0 clear 0, 3 1 race 2"),
    ("a read after a bump", "start 0 1, bump 0 5, read 1 5", "2 0 clear 0, 3 1 race 2"),
    ("a bump after a read", "start 0 1, read 0 5, bump 1 5", "2 0 clear 0, 3 1 race 2"),
    ("a bump after a write, handed over", "start 0 1, write 0 5, give 0 4, take 1 4, bump 1 5", "2 0 clear 0, 5 1 clear 0"),
    ("a write after a bump, handed over", "start 0 1, bump 0 5, give 0 4, take 1 4, write 1 5", "2 0 clear 0, 5 1 clear 0"),
    ("a read after a bump, handed over", "start 0 1, bump 0 5, give 0 4, take 1 4, read 1 5", "2 0 clear 0, 5 1 clear 0"),
    ("a bump after a read, handed over", "start 0 1, read 0 5, give 0 4, take 1 4, bump 1 5", "2 0 clear 0, 5 1 clear 0"),
    ("an older read behind a bump", "start 0 1, read 0 5, bump 0 5, bump 1 5", "2 0 clear 0, 3 0 clear 0, 4 1 race 2"),
    (
        "the latest of three kinds, a bump",
        "start 0 1, read 0 5, write 0 5, bump 0 5, write 1 5",
        "2 0 clear 0, 3 0 clear 0, 4 0 clear 0, 5 1 race 4",
    ),
    (
        "the latest of three kinds, a read",
        "start 0 1, bump 0 5, write 0 5, read 0 5, write 1 5",
        "2 0 clear 0, 3 0 clear 0, 4 0 clear 0, 5 1 race 4",
    ),
    (
        "the latest of three kinds, a write",
        "start 0 1, bump 0 5, read 0 5, write 0 5, write 1 5",
        "2 0 clear 0, 3 0 clear 0, 4 0 clear 0, 5 1 race 4",
    ),
    ("a bump across a mark", "start 0 1, write 0 5, lost 3, bump 1 5", "2 0 clear 0, 4 1 doubt 2"),
    ("a bump after a fresh", "start 0 1, write 0 5, fresh 0 5, bump 1 5", "2 0 clear 0, 4 1 clear 0"),
    ("a bump before a fresh", "start 0 1, bump 0 5, fresh 0 5, write 1 5", "2 0 clear 0, 4 1 clear 0"),
    ("owned and nothing more", "owned 0 0", ""),
    ("owned, a record like any other", "owned 0 0, write 0 5", "2 0 clear 0"),
    ("owned, a Race", "owned 0 0, start 0 1, write 0 5, read 1 5", "3 0 clear 0, 4 1 race 3"),
    (
        "owned, handed over",
        "owned 0 0, start 0 1, take 0 3, write 0 5, give 0 3, take 1 3, read 1 5, give 1 3",
        "4 0 clear 0, 7 1 clear 0",
    ),
    (
        "owned, a write after the give",
        "owned 0 0, start 0 1, take 0 3, give 0 3, write 0 5, take 1 3, read 1 5",
        "5 0 clear 0, 7 1 race 5",
    ),
    (
        "owned, every earlier give reaches a take",
        "owned 0 0, start 0 1, start 0 2, write 1 5, take 1 4, give 1 4, take 2 4, give 2 4, take 0 4, read 0 5",
        "4 1 clear 0, 10 0 clear 0",
    ),
    (
        "owned, taken again by the task that gave it",
        "owned 0 0, start 0 1, take 0 3, write 0 5, give 0 3, take 0 3, give 0 3, take 1 3, read 1 5",
        "4 0 clear 0, 9 1 clear 0",
    ),
    (
        "owned, by flags and joins",
        "owned 0 0, start 0 1, write 1 5, set 1 3, look 0 3, read 0 5, write 1 5, join 0 1, write 0 5",
        "3 1 clear 0, 6 0 clear 0, 7 1 race 6, 9 0 clear 0",
    ),
    // All are free at the start, also number 0, which is that of the `owned`; a flag or a task of the same number is another thing.
    ("owned, semaphore 0", "owned 0 0, take 0 0, give 0 0, take 0 0", ""),
    ("owned, semaphores apart", "owned 0 0, take 0 0, take 0 1, take 0 31, give 0 1, give 0 0, give 0 31", ""),
    ("owned, other series", "owned 0 0, start 0 3, take 0 3, set 3 3, look 3 3, look 0 3, set 0 3, fresh 3 3, bump 3 5", "9 3 clear 0"),
    ("owned, other numbers", "owned 0 1, owned 0 15, owned 0 31, owned 0 32, owned 0 63, owned 0 99999", "!1 3, !2 3, !3 3, !4 3, !5 3, !6 3"),
    ("owned, other tasks", "owned 1 0, owned 15 0, owned 16 0, owned 99999 0, owned 16 1, owned 1 1", "!1 6, !2 6, !3 2, !4 2, !5 2, !6 3"),
    ("row 14", "owned 0 0, owned 0 0, start 0 1, owned 1 0, owned 0 0", "!2 14, !4 14, !5 14"),
    ("row 14 after a later one", "miss 0 3, owned 0 0, start 0 1, owned 0 0, owned 1 0, join 0 1, owned 0 0", "!4 14, !5 14, !7 14"),
    ("row 14 after a mark and a later one", "lost 1, owned 0 0, owned 0 0", "!3 14"),
    // At any record, by any live task.
    ("owned after an access", "read 0 5, owned 0 0, read 0 5", "1 0 clear 0, 3 0 clear 0"),
    ("owned, two writes around it", "start 0 1, write 0 5, owned 0 0, write 1 5", "2 0 clear 0, 4 1 race 2"),
    ("owned by another task", "start 0 1, owned 1 0, take 0 3, take 1 3, give 1 3, give 0 3", "!4 16, !5 16"),
    ("owned by task 15", "start 0 15, owned 15 0, take 15 31, take 0 31, owned 15 0", "!4 16, !5 14"),
    ("owned by a task that has ended", "start 0 1, join 0 1, owned 1 0, owned 0 0, owned 1 0, owned 0 0", "!3 6, !5 6, !6 14"),
    ("a refused one is not the first", "start 0 1, owned 0 1, owned 2 0, owned 16 0, owned 1 0, owned 0 0", "!2 3, !3 6, !4 2, !6 14"),
    // All are free there, whoever took them.
    ("taken before and given after", "take 0 3, owned 0 0, give 0 3, take 0 3, give 0 3", "!3 16"),
    ("taken before by another", "start 0 1, take 0 3, owned 1 0, take 1 3, give 0 3, take 0 3, give 1 3", "!5 16, !6 16"),
    ("taken before by two", "start 0 1, take 0 3, take 1 3, owned 0 0, take 0 3, give 1 3, give 0 3", "!6 16"),
    ("given before, and free", "start 0 1, give 1 3, owned 0 0, give 1 3, take 0 3, give 1 3", "!4 16, !6 16"),
    (
        "rows 15 and 16 after it alone",
        "start 0 1, take 0 3, take 1 3, give 1 4, lost 3, owned 0 0, lost 3, take 0 3, take 1 3, give 1 4",
        "!7 15, !9 16, !10 16",
    ),
    // Order gained before it remains, and gives before it still reach the takes after it.
    ("a take before it", "start 0 1, write 0 5, give 0 3, take 1 3, owned 0 0, read 1 5", "2 0 clear 0, 6 1 clear 0"),
    ("a give before it and a take after it", "start 0 1, write 0 5, give 0 3, owned 0 0, take 1 3, read 1 5", "2 0 clear 0, 6 1 clear 0"),
    (
        "an older give before it, and takes and gives after it",
        "start 0 1, start 0 2, write 1 5, give 1 3, owned 0 0, take 2 3, give 2 3, take 0 3, read 0 5",
        "3 1 clear 0, 9 0 clear 0",
    ),
    (
        "given before it by one and by another that takes it after it",
        "start 0 1, write 0 5, give 0 3, give 1 3, owned 1 0, take 1 3, read 1 5",
        "2 0 clear 0, 7 1 clear 0",
    ),
    ("a miss after it", "start 0 1, write 0 5, give 0 3, owned 0 0, miss 1 3, read 1 5", "2 0 clear 0, 6 1 race 2"),
    ("a set before it and a look after it", "start 0 1, write 0 5, set 0 3, owned 1 0, look 1 3, read 1 5", "2 0 clear 0, 6 1 clear 0"),
    ("a join after it", "start 0 1, write 1 5, owned 0 0, join 0 1, write 0 5", "2 1 clear 0, 5 0 clear 0"),
    ("a fresh before it", "start 0 1, write 0 5, fresh 0 5, owned 0 0, write 1 5", "2 0 clear 0, 5 1 clear 0"),
    // It is an act, and gives and takes nothing.
    ("a join hears an owned", "start 0 2, write 0 5, start 0 1, owned 1 0, join 2 1, read 2 5", "2 0 clear 0, 6 2 clear 0"),
    ("owned is no give of 0", "start 0 1, write 0 5, owned 0 0, take 1 0, read 1 5", "2 0 clear 0, 5 1 race 2"),
    ("owned is no take of 0", "start 0 1, write 0 5, give 0 0, owned 1 0, read 1 5", "2 0 clear 0, 5 1 race 2"),
    ("owned is no set or look of 0", "start 0 1, write 0 5, set 0 0, owned 1 0, read 1 5", "2 0 clear 0, 5 1 race 2"),
    ("owned starts nothing", "owned 0 0, read 0 5, write 1 5", "2 0 clear 0, !3 6"),
    // Marks before it stay. What is filled in holds and frees nothing.
    ("K9 and then owned", "start 0 1, write 0 5, lost 3, owned 0 0, write 1 5", "2 0 clear 0, 5 1 doubt 2"),
    ("K10 and then owned", "start 0 1, write 0 5, lost 2, owned 0 0, write 1 5", "2 0 clear 0, 5 1 race 2"),
    ("K11 and then owned", "start 0 1, write 0 5, lost 1, owned 0 0, write 1 5", "2 0 clear 0, 5 1 race 2"),
    ("K11 with a take after owned", "start 0 1, write 0 5, lost 1, owned 0 0, take 1 9, write 1 5", "2 0 clear 0, 6 1 doubt 2"),
    (
        "K11 with two takes after owned",
        "start 0 1, write 0 5, lost 1, owned 0 0, take 1 9, give 1 9, take 1 9, write 1 5",
        "2 0 clear 0, 8 1 doubt 2",
    ),
    ("a Doubt before owned and one after it", "start 0 1, write 0 5, lost 3, write 1 5, owned 0 0, read 0 5", "2 0 clear 0, 4 1 doubt 2, 6 0 race 4"),
    ("a mark before both writes", "start 0 1, lost 3, owned 0 0, write 0 5, write 1 5", "4 0 clear 0, 5 1 race 4"),
    ("a mark refused between them", "start 0 1, write 0 5, owned 0 0, lost 3, write 1 5", "2 0 clear 0, !4 15, 4 1 race 2"),
    ("a mark on each side", "start 0 1, lost 3, write 0 5, owned 0 0, lost 3, write 1 5", "3 0 clear 0, !5 15, 5 1 race 3"),
    ("a task that may have acted, and owned", "start 0 2, write 0 5, start 0 1, lost 2, owned 0 0, join 2 1, read 2 5", "2 0 clear 0, 7 2 doubt 2"),
    ("what is filled in holds nothing", "start 0 1, lost 2, owned 0 0, take 0 3, give 0 3, take 1 3", ""),
    ("what is filled in frees nothing", "start 0 1, take 0 3, lost 3, owned 0 0, give 0 3, take 0 3, take 1 3", "!5 16, !7 16"),
    (
        "the profile is on after a later one",
        "start 0 1, owned 0 0, take 0 3, take 1 3, give 1 4, give 0 3, write 0 5, lost 3, write 1 5",
        "!4 16, !5 16, 5 0 clear 0, !8 15, 6 1 race 5",
    ),
    ("row 14 a second time leaves it on", "owned 0 0, take 0 3, owned 0 0, take 0 3, lost 1, give 0 3, give 0 3", "!3 14, !4 16, !5 15, !7 16"),
    ("rows 2, 3 and 6 of an owned", "miss 0 0, owned 16 1, owned 16 0, owned 0 1, owned 1 1, owned 1 0, owned 0 0", "!2 2, !3 2, !4 3, !5 3, !6 6"),
    ("rows 2, 3 and 6 before 14", "owned 0 0, owned 16 1, owned 16 0, owned 0 1, owned 1 1, owned 1 0, owned 0 0", "!2 2, !3 2, !4 3, !5 3, !6 6, !7 14"),
    (
        "refused lines are not the first",
        "read 0 64, read 1 5, lost 0, lost 2, owned 0 1, owned 1 0, owned 16 0, start 0 0, join 0 0, join 0 1, owned 0 0, take 0 3, take 0 3",
        "!1 3, !2 6, !3 4, !4 9, !5 3, !6 6, !7 2, !8 7, !9 8, !10 9, !13 16",
    ),
    ("row 15", "owned 0 0, lost 1, start 0 1, lost 1, lost 2, lost 3, join 0 1, lost 1", "!2 15, !4 15, !5 15, !6 15, !8 15"),
    ("row 15 gives no Doubt", "owned 0 0, start 0 1, write 0 5, lost 3, write 1 5", "3 0 clear 0, !4 15, 4 1 race 3"),
    ("rows 4 and 9 before 15", "owned 0 0, lost 0, lost 65536, lost 99999, lost 2, lost 3, lost 65535, lost 1", "!2 4, !3 4, !4 4, !5 9, !6 9, !7 9, !8 15"),
    ("row 9 of an ended task before 15", "owned 0 0, start 0 1, lost 2, join 0 1, lost 2, lost 3, lost 1", "!3 15, !5 9, !6 9, !7 15"),
    ("row 16, a take by another", "owned 0 0, start 0 1, take 0 3, take 1 3, give 0 3, take 1 3", "!4 16"),
    ("row 16, a take by the holder", "owned 0 0, take 0 3, take 0 3, give 0 3, take 0 3", "!3 16"),
    ("row 16, a give of a free one", "owned 0 0, give 0 3, take 0 3, give 0 3, give 0 3", "!2 16, !5 16"),
    ("row 16, a give by another", "owned 0 0, start 0 1, take 0 3, give 1 3, give 0 3, give 1 3", "!4 16, !6 16"),
    ("row 16, a give of another one", "owned 0 0, take 0 3, give 0 4, give 0 2, give 0 3", "!3 16, !4 16"),
    ("row 16 at the ends of the series", "owned 0 0, take 0 0, take 0 31, take 0 31, take 0 0, give 0 1, give 0 30, give 0 31, give 0 0", "!4 16, !5 16, !6 16, !7 16"),
    (
        "rows 2, 3 and 6 before 16",
        "owned 0 0, take 0 3, take 16 3, take 0 32, take 1 3, give 16 3, give 0 32, give 1 3, give 1 4, take 0 3",
        "!3 2, !4 3, !5 6, !6 2, !7 3, !8 6, !9 6, !10 16",
    ),
    ("a refused take tells nothing", "owned 0 0, start 0 1, take 1 3, write 1 5, give 1 3, take 1 3, take 0 3, read 0 5", "4 1 clear 0, !7 16, 7 0 race 4"),
    ("a refused give tells nothing", "owned 0 0, start 0 1, write 0 5, give 0 3, take 1 3, read 1 5", "3 0 clear 0, !4 16, 5 1 race 3"),
    ("a refused take holds nothing", "owned 0 0, start 0 1, take 0 3, take 1 3, give 1 3, give 0 3, give 1 3", "!4 16, !5 16, !7 16"),
    ("a refused give frees nothing", "owned 0 0, start 0 1, take 0 3, give 1 3, take 1 3, give 0 3, take 1 3", "!4 16, !5 16"),
    ("a miss is never refused with 16", "owned 0 0, start 0 1, miss 0 3, take 0 3, miss 0 3, miss 1 3, give 0 3, miss 1 3, take 1 3", ""),
    ("a miss holds nothing", "owned 0 0, start 0 1, miss 0 3, give 0 3, take 1 3", "!4 16"),
    ("a miss frees nothing", "owned 0 0, start 0 1, take 0 3, miss 0 3, miss 1 3, take 1 3, give 1 3, give 0 3", "!6 16, !7 16"),
    ("a miss hears nothing", "owned 0 0, start 0 1, take 0 3, write 0 5, give 0 3, miss 1 3, read 1 5", "4 0 clear 0, 7 1 race 4"),
    (
        "a join frees nothing",
        "owned 0 0, start 0 1, take 1 3, join 0 1, take 0 3, give 0 3, give 1 3, miss 0 3, take 0 4",
        "!5 16, !6 16, !7 6",
    ),
    ("without owned all of it is taken", "start 0 1, take 0 3, take 1 3, take 0 3, give 1 3, give 1 4, give 0 3, lost 3", ""),
    ("row 2", "read 16 1", "!1 2"),
    ("row 3", "take 0 32", "!1 3"),
    ("row 4", "lost 0", "!1 4"),
    ("row 6", "read 1 1", "!1 6"),
    ("row 7", "start 0 0", "!1 7"),
    ("row 8", "join 0 0", "!1 8"),
    ("row 9", "lost 2", "!1 9"),
    ("row 9 of a join", "join 0 1", "!1 9"),
    ("the lower row goes first", "read 16 64, take 1 32, start 1 0, join 1 1, start 1 1, join 1 2", "!1 2, !2 3, !3 6, !4 6, !5 6, !6 6"),
    (
        "the first past each series",
        "read 0 64, write 0 64, take 0 32, give 0 32, look 0 32, set 0 32, start 0 16, join 0 16, fresh 0 64, miss 0 32, bump 0 64, owned 0 1",
        TWELVE_THREES,
    ),
    ("the last of each series", "take 0 31, give 0 31, look 0 31, set 0 31, start 0 15, lost 32769, join 0 15", ""),
    ("masks", "lost 65536, lost 65535, lost 99999, lost 1", "!1 4, !2 9, !3 4"),
    ("a joined task is done", "start 0 1, join 0 1, join 0 1, start 0 1, read 1 5, lost 2, lost 3", "!3 9, !4 7, !5 6, !6 9, !7 9"),
    ("a refused record changes nothing", "start 1 2, read 2 5, start 0 1, start 0 1, read 1 5, start 1 2", "!1 6, !2 6, !4 7, 2 1 clear 0"),
];

const TWELVE_THREES: &str = "!1 3, !2 3, !3 3, !4 3, !5 3, !6 3, !7 3, !8 3, !9 3, !10 3, !11 3, !12 3";

const NOT_OF_THE_FORM: &[&str] = &[
    "",
    "op=read task=0",
    "op=read task=0 on=1 ",
    " op=read task=0 on=1",
    "op=read  task=0 on=1",
    "op=read task=0 on=1\r",
    "op=read task=0 on=1\0",
    "op=read\ttask=0 on=1",
    "op=read task=0 on=",
    "op=read task= on=1",
    "op=read task=0 on=01",
    "op=read task=00 on=1",
    "op=read task=0 on=000001",
    "op=read task=0 on=100000",
    "op=read task=0 on=+1",
    "op=read task=0 on=-1",
    "op=read task=0 on=1a",
    "op=READ task=0 on=1",
    "op=lend task=0 on=1",
    "op= task=0 on=1",
    "op=readtask=0 on=1",
    "op=read on=1 task=0",
    "op=read tasks=0 on=1",
    "op=read tasks=1",
    "op=lost task=0 on=1",
    "op=lost tasks=1 on=1",
    "op=lost tasks=01",
    "op=lost tasks=",
    "op=lost",
    "op=losttasks=1",
    "read task=0 on=1",
    "op=owned",
    "op=owned task=0",
    "op=owned on=0",
    "op=owned tasks=1",
    "op=owned tasks=0 on=0",
    "op=owned task=0 on=0 ",
    "op=owned task=0  on=0",
    "op=owned task=0 on=00",
    "op=owned task=00 on=0",
    "op=owned task=0 on=0\r",
    "op=owned task=0 on=",
    "op=Owned task=0 on=0",
    "op=OWNED task=0 on=0",
    "op=owne task=0 on=0",
    "op=owneds task=0 on=0",
    "op=own task=0 on=0",
    "op=owner task=0 on=0",
    "owned task=0 on=0",
    "op=read task=0 on=\u{661}",
];

fn whole() -> Example {
    let text = "op=start task=0 on=1\nop=write task=0 on=5\nop=give task=0 on=2\nop=write task=0 on=6\nop=lost tasks=2\n\
                op=read task=1 on=5\nop=read task=1 on=6\nop=take task=1 on=2\nop=write task=1 on=5\nop=read task=2 on=5\n";
    let report = "rec=0000002 task=0 var=5 verdict=clear with=0000000\nrec=0000004 task=0 var=6 verdict=clear with=0000000\n\
                  rec=0000006 task=1 var=5 verdict=doubt with=0000002\nrec=0000007 task=1 var=6 verdict=race with=0000004\n\
                  rec=0000009 task=1 var=5 verdict=clear with=0000000\nline=10 refused=6\n";
    Example { name: "the report example", text: text.into(), report: report.into() }
}

fn last_variable() -> Example {
    let report = "rec=0000001 task=0 var=63 verdict=clear with=0000000\nrec=0000003 task=15 var=63 verdict=clear with=0000000\n";
    Example { name: "task 15 and variable 63", text: text("write 0 63, start 0 15, read 15 63"), report: report.into() }
}

pub fn examples() -> Vec<Example> {
    let mut list = vec![whole(), last_variable()];
    list.extend(SHORT.iter().map(|&(name, records, lines)| Example { name, text: text(records), report: report(lines) }));
    for line in NOT_OF_THE_FORM {
        list.push(Example { name: line, text: format!("{line}\n").into(), report: report("!1 1") });
    }
    list
}
