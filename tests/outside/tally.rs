//! What passed, what failed, and what was met on the way.

use std::collections::BTreeMap;
use std::time::Instant;

/// How many failures are printed whole.
const SHOWN: usize = 3;

pub struct Tally {
    pub passed: usize,
    pub failed: usize,
    /// How often each verdict and each refusal was seen.
    pub seen: BTreeMap<String, usize>,
    /// Where the part under way began: what had passed and failed then, and when.
    began: (usize, usize, Instant),
}

impl Tally {
    pub fn new() -> Tally {
        Tally { passed: 0, failed: 0, seen: BTreeMap::new(), began: (0, 0, Instant::now()) }
    }

    pub fn see(&mut self, what: &str, times: usize) {
        *self.seen.entry(what.to_string()).or_default() += times;
    }

    pub fn check(&mut self, ok: bool, say: impl FnOnce() -> String) {
        if ok {
            self.passed += 1;
            return;
        }
        self.failed += 1;
        if self.failed <= SHOWN {
            println!("FAILED: {}", say());
        }
    }

    /// An answer is just what is expected of this text.
    pub fn expect(&mut self, name: &str, text: &[u8], expected: &str, answer: Result<Vec<u8>, String>) {
        self.check(answer.as_ref().is_ok_and(|got| got == expected.as_bytes()), || {
            let shown = |bytes: &[u8]| bytes.escape_ascii().to_string().replace("\\n", "\\n\n");
            let got = answer.map_or_else(|why| why, |got| shown(&got));
            format!("{name}\n--- text\n{}\n--- expected\n{expected}--- got\n{got}\n---", shown(text))
        });
    }

    /// Ends a part of the run and says how it went.
    pub fn part(&mut self, what: &str) {
        let (passed, failed, since) = self.began;
        println!("{what}: {} passed, {} failed, {:.1} s", self.passed - passed, self.failed - failed, since.elapsed().as_secs_f32());
        self.began = (self.passed, self.failed, Instant::now());
    }

    pub fn add(&mut self, other: Tally) {
        self.passed += other.passed;
        self.failed += other.failed;
        other.seen.iter().for_each(|(what, times)| self.see(what, *times));
    }
}
