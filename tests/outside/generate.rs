//! Recordings at random from fixed seeds: sound ones, ones with records to refuse, and damaged text; and random fillings of marks.

use crate::oracle::{fullest, Act, Op, OPS, VARIABLES};

const SEMAPHORES: usize = 32;

/// splitmix64: small, and the same on every machine.
pub struct Random(u64);

impl Random {
    pub fn new(seed: u64) -> Random {
        Random(seed.wrapping_mul(0x9e37_79b9_7f4a_7c15) ^ 0x5eed)
    }

    pub fn next(&mut self) -> u64 {
        self.0 = self.0.wrapping_add(0x9e37_79b9_7f4a_7c15);
        let mut z = self.0;
        z = (z ^ (z >> 30)).wrapping_mul(0xbf58_476d_1ce4_e5b9);
        z = (z ^ (z >> 27)).wrapping_mul(0x94d0_49bb_1331_11eb);
        z ^ (z >> 31)
    }

    pub fn below(&mut self, end: usize) -> usize {
        (self.next() % end as u64) as usize
    }

    pub fn percent(&mut self, chance: usize) -> bool {
        self.below(100) < chance
    }

    pub fn pick<T: Copy>(&mut self, from: &[T]) -> T {
        from[self.below(from.len())]
    }
}

/// What a recording is like. Chances are in percent.
pub struct Shape {
    /// Lines, as a chain of hand-overs may add a few.
    pub length: usize,
    pub tasks: usize,
    pub variables: usize,
    pub objects: usize,
    /// A line is a mark.
    pub marks: usize,
    /// How many tasks all marks together may name, since each costs the fullest filling 256 events.
    pub named: usize,
    /// A started task never acts.
    pub idle: usize,
    /// A line is an access by the task that accessed the variable last.
    pub stay: usize,
    /// A line is a record at random, in its ranges or not.
    pub stray: usize,
    /// A line is damaged.
    pub damage: usize,
    /// It follows the profile of owned semaphores, from some line on.
    pub owned: Option<Profile>,
}

#[derive(Clone, Copy)]
pub struct Profile {
    /// It begins after so many lines.
    pub after: usize,
    /// From then on a line is one that the profile refuses, in percent.
    pub wrong: usize,
}

/// One shape in five comes under the profile.
fn profile(random: &mut Random) -> Option<Profile> {
    random.percent(20).then(|| Profile { after: random.pick(&[0, 0, 2, 5, 10, 20, 60]), wrong: random.pick(&[0, 0, 5, 20]) })
}

/// Most shapes have few of everything, so that records meet; some have the full range.
pub fn shape(random: &mut Random) -> Shape {
    let owned = profile(random);
    shape_of(random, owned)
}

/// The same under the profile, always.
pub fn owned_shape(random: &mut Random) -> Shape {
    let owned = std::iter::repeat_with(|| profile(random)).find_map(|owned| owned);
    shape_of(random, owned)
}

/// A busy recording with marks that comes under the profile in its midst.
pub fn changing_shape(random: &mut Random) -> Shape {
    let owned = Some(Profile { after: 4 + random.below(20), wrong: random.pick(&[0, 5]) });
    let (length, tasks, variables, objects) = (30 + random.below(40), 2 + random.below(3), 1 + random.below(2), 1 + random.below(3));
    Shape { length, tasks, variables, objects, marks: random.pick(&[10, 25]), named: random.pick(&[4, 8, 12]), ..shape_of(random, owned) }
}

fn shape_of(random: &mut Random, owned: Option<Profile>) -> Shape {
    let short = random.percent(70);
    let many = random.percent(25);
    Shape {
        length: if short { 1 + random.below(40) } else { 40 + random.below(300) },
        tasks: if many { 16 } else { 2 + random.below(4) },
        variables: random.pick(&[1, 1, 2, 3, 64]),
        objects: random.pick(&[1, 1, 2, 3, 32]),
        marks: random.pick(&[0, 3, 10, 25]),
        named: random.pick(&[2, 6, 12, 20]),
        idle: random.pick(&[0, 25, 60]),
        stay: 0,
        stray: random.pick(&[0, 0, 4, 20]),
        damage: random.pick(&[0, 0, 0, 4, 20]),
        owned,
    }
}

struct Maker<'a> {
    random: &'a mut Random,
    shape: &'a Shape,
    /// Live tasks that act, live tasks that never do, and those not started yet.
    acting: Vec<u32>,
    idle: Vec<u32>,
    unseen: Vec<u32>,
    /// Tasks past the number in use, each good for one detour.
    couriers: Vec<u32>,
    /// The task that accessed each variable last.
    before: [Option<u32>; VARIABLES],
    /// The profile has begun, and who holds each semaphore then.
    under: bool,
    holders: [Option<u32>; SEMAPHORES],
    named: usize,
    text: Vec<u8>,
}

/// A recording of this shape, as text.
pub fn recording(random: &mut Random, shape: &Shape) -> Vec<u8> {
    let mut unseen: Vec<u32> = (1..shape.tasks as u32).collect();
    for i in (1..unseen.len()).rev() {
        unseen.swap(i, random.below(i + 1));
    }
    let couriers = (shape.tasks as u32..16).collect();
    let mut maker = Maker {
        random,
        shape,
        acting: vec![0],
        idle: vec![],
        unseen,
        couriers,
        before: [None; VARIABLES],
        under: false,
        holders: [None; SEMAPHORES],
        named: shape.named,
        text: vec![],
    };
    if shape.owned.is_some_and(|owned| owned.after == 0) {
        maker.owned();
    }
    if maker.random.percent(70) {
        for _ in 0..1 + maker.random.below(shape.tasks) {
            maker.start();
        }
    }
    for line in 0..shape.length {
        if !maker.under && shape.owned.is_some_and(|owned| owned.after == line) {
            maker.owned();
        }
        maker.line();
    }
    if maker.random.percent(30) && maker.text.last() == Some(&b'\n') {
        maker.text.pop();
    }
    maker.text
}

impl Maker<'_> {
    fn line(&mut self) {
        let shape = self.shape;
        if self.random.percent(shape.stray) {
            let line = stray(self.random);
            self.put(line);
        } else if self.under && shape.owned.is_some_and(|owned| self.random.percent(owned.wrong)) {
            self.wrong();
        } else if !self.under && self.random.percent(shape.marks) {
            self.mark();
        } else if shape.stay > 0 && self.random.percent(shape.stay) {
            self.stay();
        } else {
            match self.random.below(100) {
                0..=4 => self.start(),
                5..=8 => self.join(),
                9..=11 => self.detour(),
                12..=24 => self.hand_over(),
                25..=57 => self.exchange(),
                58..=60 => self.fresh(),
                _ => self.access(),
            }
        }
    }

    fn put(&mut self, line: String) {
        let mut line = line.into_bytes();
        line.push(b'\n');
        if self.random.percent(self.shape.damage) {
            damage(self.random, &mut line);
        }
        self.text.extend(line);
    }

    fn act(&mut self, word: &str, task: u32, on: usize) {
        self.put(format!("op={word} task={task} on={on}"));
    }

    /// The profile begins. Lines that are refused before it are not the first.
    fn owned(&mut self) {
        for _ in 0..self.random.pick(&[0, 0, 0, 1, 3]) {
            let (word, task, on) = self.random.pick(&[
                ("owned", 0, 1),
                ("owned", 1, 0),
                ("owned", 16, 0),
                ("take", 1, 0),
                ("give", 0, 32),
                ("start", 0, 0),
                ("join", 0, 1),
                ("read", 0, 64),
            ]);
            self.act(word, task, on);
        }
        let task = self.actor();
        self.act("owned", task, 0);
        self.under = true;
    }

    fn actor(&mut self) -> u32 {
        self.random.pick(&self.acting)
    }

    fn start(&mut self) {
        let Some(new) = self.unseen.pop() else { return };
        let by = self.actor();
        self.act("start", by, new as usize);
        if self.random.percent(self.shape.idle) {
            self.idle.push(new);
        } else {
            self.acting.push(new);
        }
    }

    /// Joins an idle task rather than one that acts; one that acts must remain.
    fn join(&mut self) {
        if !self.idle.is_empty() && self.random.percent(80) {
            let ended = self.idle.swap_remove(self.random.below(self.idle.len()));
            let by = self.actor();
            self.act("join", by, ended as usize);
        } else if self.acting.len() > 1 && self.random.percent(60) {
            let ended = self.acting.swap_remove(self.random.below(self.acting.len()));
            let by = self.actor();
            self.act("join", by, ended as usize);
        }
    }

    fn access(&mut self) {
        let task = self.actor();
        self.access_by(task);
    }

    fn access_by(&mut self, task: u32) {
        self.access_as(|_, _| task);
    }

    /// By the task that came before, while it acts.
    fn stay(&mut self) {
        self.access_as(|maker, on| match maker.before[on] {
            Some(task) if maker.acting.contains(&task) => task,
            _ => maker.actor(),
        });
    }

    fn access_as(&mut self, task: impl FnOnce(&mut Self, usize) -> u32) {
        let word = self.random.pick(&["read", "read", "write", "write", "bump"]);
        let on = self.random.below(self.shape.variables);
        let task = task(self, on);
        self.before[on] = Some(task);
        self.act(word, task, on);
    }

    fn fresh(&mut self) {
        let (task, on) = (self.actor(), self.random.below(self.shape.variables));
        self.act("fresh", task, on);
    }

    fn exchange(&mut self) {
        if self.under && self.random.percent(80) {
            return self.exchange_owned();
        }
        let words: &[&str] = if self.under {
            &["look", "look", "set", "set", "miss"]
        } else {
            &["take", "take", "give", "give", "look", "look", "set", "set", "miss"]
        };
        let word = self.random.pick(words);
        let (task, on) = (self.actor(), self.random.below(self.shape.objects));
        self.act(word, task, on);
    }

    /// A free semaphore is taken, a held one is given by its holder, and at times somebody waits for it in vain. What an ended task held stays.
    fn exchange_owned(&mut self) {
        let on = self.random.below(self.shape.objects);
        let (task, late) = (self.actor(), self.random.percent(15));
        match self.holders[on] {
            None if !late => self.take(task, on),
            Some(holder) if !late && self.acting.contains(&holder) => self.give(holder, on),
            _ => self.act("miss", task, on),
        }
    }

    fn take(&mut self, task: u32, on: usize) {
        self.act("take", task, on);
        self.holders[on].get_or_insert(task);
    }

    fn give(&mut self, task: u32, on: usize) {
        self.act("give", task, on);
        if self.holders[on] == Some(task) {
            self.holders[on] = None;
        }
    }

    /// What the profile refuses, or what is refused for another reason first.
    fn wrong(&mut self) {
        let (task, any) = (self.actor(), self.random.below(self.shape.objects));
        let held: Vec<usize> = (0..SEMAPHORES).filter(|on| self.holders[*on].is_some()).collect();
        let on = if held.is_empty() { any } else { self.random.pick(&held) };
        let holder = self.holders[on].unwrap_or(task);
        match self.random.below(12) {
            0..=2 => self.take(task, on),
            3 => self.take(holder, on),
            4..=5 => self.give(task, on),
            6 => self.give(task, any),
            7 => self.act("owned", task, 0),
            8 => {
                let (by, number) = self.random.pick(&[(task, 1), (15, 0), (15, 1), (16, 0), (0, 0)]);
                self.act("owned", by, number);
            }
            9..=10 => self.put(format!("op=lost tasks={}", 1_u32 << task)),
            _ => {
                let mask = self.random.pick(&[0, 1, 3, 65_535, 65_536]);
                self.put(format!("op=lost tasks={mask}"));
            }
        }
    }

    /// One task hands over to the next, at times with a link of the chain left out or lost.
    fn hand_over(&mut self) {
        if self.under && self.random.percent(70) {
            return self.section();
        }
        let (out, into) = if self.under { ("set", "look") } else { self.random.pick(&[("give", "take"), ("set", "look")]) };
        let (from, to, on) = (self.actor(), self.actor(), self.random.below(self.shape.objects));
        self.access_by(from);
        match self.random.below(6) {
            0 => self.mark_of(1 << from),
            1 => {}
            _ => self.act(out, from, on),
        }
        match self.random.below(7) {
            0 => self.mark_of(1 << to),
            1 => {}
            2 => self.act("miss", to, on),
            _ => self.act(into, to, on),
        }
        self.access_by(to);
    }

    /// Under the profile: one task takes a semaphore, accesses and gives it, then the same or another one does; at times one of them waits in vain,
    /// or keeps it.
    fn section(&mut self) {
        let on = self.random.below(self.shape.objects);
        let from = match self.holders[on] {
            Some(holder) if self.acting.contains(&holder) => holder,
            _ => self.actor(),
        };
        let to = if self.random.percent(30) { from } else { self.actor() };
        for task in [from, to] {
            match self.holders[on] {
                None if self.random.percent(90) => self.take(task, on),
                None => self.act("miss", task, on),
                Some(holder) if holder == task => {}
                Some(_) => self.act("miss", task, on),
            }
            self.access_by(task);
            if self.holders[on] == Some(task) && self.random.percent(90) {
                self.give(task, on);
            }
        }
    }

    /// One task starts a courier and another joins it, which is a path only if the courier acts.
    fn detour(&mut self) {
        let Some(courier) = self.couriers.pop().or_else(|| self.unseen.pop()) else { return };
        let (from, to) = (self.actor(), self.actor());
        self.access_by(from);
        self.act("start", from, courier as usize);
        match self.random.below(3) {
            // The profile begins by the courier's only act.
            _ if !self.under && self.shape.owned.is_some() && self.random.percent(20) => {
                self.act("owned", courier, 0);
                self.under = true;
            }
            0 => self.mark_of(1 << courier),
            1 if self.random.percent(30) => self.act("miss", courier, 0),
            1 => self.access_by(courier),
            _ => {}
        }
        self.act("join", to, courier as usize);
        self.access_by(to);
    }

    fn mark(&mut self) {
        let live: Vec<u32> = self.acting.iter().chain(&self.idle).copied().collect();
        let mut mask = 1 << self.random.pick(&live);
        match self.random.below(4) {
            0 => mask |= 1 << self.random.pick(&live),
            1 => live.iter().for_each(|task| mask |= (self.random.next() as u32 & 1) << task),
            2 if self.random.percent(40) => live.iter().for_each(|task| mask |= 1 << task),
            _ => {}
        }
        self.mark_of(mask);
    }

    fn mark_of(&mut self, mask: u32) {
        let cost = mask.count_ones() as usize;
        // Under the profile they are refused, which is tried elsewhere.
        if !self.under && self.shape.marks > 0 && cost <= self.named {
            self.named -= cost;
            self.put(format!("op=lost tasks={mask}"));
        }
    }
}

/// A record of any content: tasks that do not live, numbers at and past the end of their series, masks of all kinds.
fn stray(random: &mut Random) -> String {
    if random.percent(25) {
        let any = random.below(65_536);
        let mask = random.pick(&[0, 65_536, 99_999, 65_535, 1, 2, any]);
        return format!("op=lost tasks={mask}");
    }
    let word = random.pick(OPS).0;
    let task = random.pick(&[0, 0, 0, 1, 2, 3, 15, 16, 17, 99_999]);
    let any = random.below(70);
    let on = random.pick(&[task, task, 0, 1, 2, 15, 16, 31, 32, 63, 64, 99_999, any]);
    format!("op={word} task={task} on={on}")
}

pub fn replace(line: &mut Vec<u8>, old: &str, new: &str) {
    *line = String::from_utf8_lossy(line).replacen(old, new, 1).into_bytes();
}

/// Spoils a line (its LF included) in one of the ways that a transmission or a careless writer does.
pub fn damage(random: &mut Random, line: &mut Vec<u8>) {
    let at = random.below(line.len());
    match random.below(20) {
        0..=2 => line[at] ^= 1 << random.below(8),
        3 => line.truncate(at),
        4 => drop(line.drain(..at)),
        5 => drop(line.remove(at)),
        6 => line.insert(at, line[at]),
        7 => line.insert(at, random.next() as u8),
        8 => line.insert(at, 0),
        9 => line.insert(line.len() - 1, b'\r'),
        10 => line.insert(line.len() - 1, b' '),
        11 => line.insert(at, b'\n'),
        12 => replace(line, " ", "  "),
        13 => replace(line, " ", "\t"),
        14 => replace(line, "=", "=0"),
        15 => replace(line, "on=", "on=0"),
        16 => replace(line, "task=", "task=+"),
        17 => replace(line, "op=", random.pick(&["op=un", "op=", "OP=", "op=lost ", "op= "])),
        18 => replace(line, "task=", random.pick(&["tasks=", "on=", "tas=", "task"])),
        _ => replace(line, "on=", random.pick(&["on=1000", "on=00000", "no=", "on=-", "on"])),
    }
}

/// A list for a mark by the tasks that it names: at random, or some share of the fullest.
pub fn filling(random: &mut Random, mask: u32, objects: usize) -> Vec<Act> {
    let tasks: Vec<u32> = (0..16).filter(|task| mask >> task & 1 == 1).collect();
    let one = |random: &mut Random| Act {
        op: random.pick(&[Op::Take, Op::Give, Op::Look, Op::Set, Op::Miss]),
        task: random.pick(&tasks),
        on: random.below(objects) as u32,
    };
    match random.below(10) {
        0 => Vec::new(),
        1 => fullest(mask),
        2 => fullest(mask).into_iter().filter(|_| random.percent(30)).collect(),
        _ => (0..1 + random.below(12)).map(|_| one(random)).collect(),
    }
}
