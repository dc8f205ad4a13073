//! A text that comes in pieces, by the C interface, in lent memory with guards on both sides; and a file of entries before it, likewise.

use crate::cuts::{pieces, Cuts, WAYS};
use crate::feeding::{self, Lent};
use crate::oracle::{self, Totals};

const GUARD: usize = 64;
const FILL: u8 = 0xa5;
const HELD: usize = 65;
/// So many bytes of report memory are asked for each byte of a piece.
const ROOM: usize = 64;
/// One length in so many is tried with too little memory too.
const SHARE: usize = 4;

extern "C" {
    fn order_piece(
        piece: *const u8,
        piece_len: usize,
        report: *mut u8,
        report_len: usize,
        held: *mut u8,
        progress: *mut u64,
        control: *mut u32,
        last: *mut u32,
        clocks: *mut u32,
        fullclocks: *mut u32,
    ) -> u64;
    fn order_entries(
        piece: *const u8,
        piece_len: usize,
        report: *mut u8,
        report_len: usize,
        held: *mut u8,
        progress: *mut u64,
        control: *mut u32,
    ) -> u64;
}

/// What is kept of a text between its pieces.
#[derive(Clone)]
pub struct Kept {
    state: Lent<'static>,
    held: [u8; GUARD + HELD + GUARD],
    pub progress: [u64; 2],
}

/// One of the two calls, on a piece and on memory for its report.
pub type Call = fn(&mut Kept, &[u8], &mut [u8]) -> u64;

/// Lines of a recording.
pub fn of_records(kept: &mut Kept, piece: &[u8], report: &mut [u8]) -> u64 {
    let [control, last, clocks, fullclocks] = kept.state.tables();
    let (held, progress) = (kept.held[GUARD..].as_mut_ptr(), kept.progress.as_mut_ptr());
    // SAFETY: the pointers are valid for their lengths and sizes and do not overlap.
    unsafe {
        let (memory, room) = (report.as_mut_ptr(), report.len());
        order_piece(piece.as_ptr(), piece.len(), memory, room, held, progress, control, last, clocks, fullclocks)
    }
}

/// Lines of a file of entries.
pub fn of_entries(kept: &mut Kept, piece: &[u8], report: &mut [u8]) -> u64 {
    let [control, ..] = kept.state.tables();
    let (held, progress) = (kept.held[GUARD..].as_mut_ptr(), kept.progress.as_mut_ptr());
    // SAFETY: as above.
    unsafe { order_entries(piece.as_ptr(), piece.len(), report.as_mut_ptr(), report.len(), held, progress, control) }
}

impl Kept {
    /// A fresh state, and nothing held.
    pub fn begun() -> Result<Kept, String> {
        let state = Lent::fresh(&feeding::CLOCKS)?;
        Ok(Kept { state, held: [FILL; GUARD + HELD + GUARD], progress: [0, 0] })
    }

    /// Answers a piece into memory of this length, or says what was spoilt.
    pub fn call(&mut self, by: Call, piece: &[u8], length: usize) -> Result<Option<Vec<u8>>, String> {
        let lent = piece.to_vec();
        let mut memory = vec![FILL; GUARD + length + GUARD];
        let answer = by(self, &lent, &mut memory[GUARD..GUARD + length]);
        let written = if answer == u64::MAX { 0 } else { answer as usize };
        if written > length || lent != piece || !self.state.guarded() {
            return Err(format!("a piece is answered by {answer}, and it, the tables or cells beside them are spoilt"));
        }
        let held = self.held[..GUARD].iter().chain(&self.held[GUARD + HELD..]);
        let beside = memory[..GUARD].iter().chain(&memory[GUARD + written..]);
        if !held.chain(beside).all(|&byte| byte == FILL) {
            return Err(format!("a piece is answered by {answer}, and other bytes are changed"));
        }
        Ok((answer != u64::MAX).then(|| memory[GUARD..GUARD + written].to_vec()))
    }

    /// A piece is refused with memory of this length, which must change nothing.
    pub fn refuse(&mut self, by: Call, piece: &[u8], length: usize) -> Result<(), String> {
        let before = (self.state.memory.clone(), self.held, self.progress);
        let answer = self.call(by, piece, length)?;
        if answer.is_some() || before != (self.state.memory.clone(), self.held, self.progress) {
            return Err("a piece with too little memory is taken, or changes something".to_string());
        }
        Ok(())
    }

    /// Answers a piece. One in some is refused first, for want of one byte of memory.
    fn piece(&mut self, by: Call, piece: &[u8]) -> Result<Vec<u8>, String> {
        let room = ROOM * piece.len();
        if piece.len() % SHARE == 2 {
            self.refuse(by, piece, room - 1)?;
        }
        self.call(by, piece, room)?.ok_or_else(|| "a piece with enough memory is refused".to_string())
    }

    /// Answers a text that is cut so: its pieces, and a rest without LF.
    pub fn text(&mut self, by: Call, text: &[u8], cuts: Cuts) -> Result<Vec<u8>, String> {
        let before = self.progress[0];
        let mut whole = Vec::new();
        for piece in pieces(text, cuts) {
            whole.extend(self.piece(by, piece)?);
        }
        if self.progress[1] > 0 {
            whole.extend(self.piece(by, b"\n")?);
        }
        let lines = before + oracle::lines(text).len() as u64;
        let right = self.progress == [lines, 0];
        right.then_some(whole).ok_or_else(|| format!("the progress at the end of {lines} lines is {:?}", self.progress))
    }
}

/// One of the ways to cut a text, by its length.
pub fn way(text: &[u8]) -> Cuts {
    WAYS[text.len() % WAYS.len()]
}

/// The report of a text that is cut so.
pub fn report(text: &[u8], cuts: Cuts) -> Result<Vec<u8>, String> {
    Kept::begun()?.text(of_records, text, cuts)
}

/// The same after a file of entries, which is cut in a way of its own and adds to no total; in the end they are these.
pub fn report_with(file: (&[u8], Cuts), text: (&[u8], Cuts), totals: &Totals) -> Result<Vec<u8>, String> {
    let mut kept = Kept::begun()?;
    let mut whole = kept.text(of_entries, file.0, file.1)?;
    kept.progress = [0, 0];
    kept.state.expect_totals(&Totals::NONE)?;
    whole.extend(kept.text(of_records, text.0, text.1)?);
    kept.state.expect_totals(totals)?;
    Ok(whole)
}
