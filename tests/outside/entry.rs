//! The C entry, called in memory with guard bytes on both sides.

const GUARD: usize = 64;
const FILL: u8 = 0xa5;
pub const TOO_SMALL: u64 = u64::MAX;

extern "C" {
    fn order_report(text: *const u8, text_len: usize, report: *mut u8, report_len: usize) -> u64;
}

/// Calls the entry with report memory of this length. Answers what it returned and what it wrote, or says what it spoilt.
pub fn call(text: &[u8], length: usize) -> Result<(u64, Vec<u8>), String> {
    let lent = text.to_vec();
    let mut memory = vec![FILL; GUARD + length + GUARD];
    let report = &mut memory[GUARD..GUARD + length];
    // SAFETY: both pointers are valid for their lengths and do not overlap.
    let answer = unsafe { order_report(lent.as_ptr(), lent.len(), report.as_mut_ptr(), length) };
    let written = if answer == TOO_SMALL { 0 } else { answer as usize };
    if written > length {
        return Err(format!("the entry answers {answer}, and the memory has {length} bytes"));
    }
    if lent != text {
        return Err("the entry changed the text".to_string());
    }
    let kept = memory.iter().enumerate().filter(|(at, _)| !(GUARD..GUARD + written).contains(at)).all(|(_, byte)| *byte == FILL);
    if !kept {
        return Err(format!("the entry answers {answer}, and changed bytes other than those"));
    }
    Ok((answer, memory[GUARD..GUARD + written].to_vec()))
}

/// The report of a text, where the memory is what row 11 asks for, or `spare` bytes more.
pub fn report(text: &[u8], spare: usize) -> Result<Vec<u8>, String> {
    match call(text, need(text) + spare)? {
        (TOO_SMALL, _) => Err("the entry says that 64 bytes for each line are too small".to_string()),
        (_, report) => Ok(report),
    }
}

/// 64 bytes for each line: an LF ends one, and a rest without LF is one more.
pub fn need(text: &[u8]) -> usize {
    let ended = text.iter().filter(|&&byte| byte == b'\n').count();
    let rest = text.last().is_some_and(|&byte| byte != b'\n');
    64 * (ended + rest as usize)
}
