//! Ways to cut a text into pieces.

use crate::generate::Random;

/// Where the text is cut into pieces.
#[derive(Clone, Copy, Debug)]
pub enum Cuts {
    Nowhere,
    /// Pieces of so many bytes.
    Every(usize),
    BeforeLf,
    AfterLf,
    MidLine,
    /// Pieces of some twenty bytes, by this seed.
    Anywhere(u64),
}

pub const WAYS: [Cuts; 6] = [Cuts::Nowhere, Cuts::Every(1), Cuts::BeforeLf, Cuts::AfterLf, Cuts::MidLine, Cuts::Anywhere(1)];

pub fn pieces(text: &[u8], cuts: Cuts) -> Vec<&[u8]> {
    let mut random = Random::new(if let Cuts::Anywhere(seed) = cuts { seed } else { 0 });
    let cut_after = |at: usize| -> bool {
        match cuts {
            Cuts::Nowhere => false,
            Cuts::Every(size) => (at + 1) % size == 0,
            Cuts::BeforeLf => text.get(at + 1) == Some(&b'\n'),
            Cuts::AfterLf => text[at] == b'\n',
            Cuts::MidLine => text[at] == b'=' || text[at] == b' ',
            Cuts::Anywhere(_) => random.percent(5),
        }
    };
    split_after(text, cut_after)
}

fn split_after(text: &[u8], mut cut_after: impl FnMut(usize) -> bool) -> Vec<&[u8]> {
    let mut list = Vec::new();
    let mut from = 0;
    for at in 0..text.len() {
        if cut_after(at) || at + 1 == text.len() {
            list.push(&text[from..=at]);
            from = at + 1;
        }
    }
    list
}
