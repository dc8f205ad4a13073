//! The programs, fed through a pipe in pieces.

use crate::cuts::{pieces, Cuts};
use std::io::{Read, Write};
use std::os::fd::{AsRawFd, RawFd};
use std::process::{Child, ChildStdin, Command, Stdio};
use std::time::{Duration, Instant};

pub const PATIENCE: Duration = Duration::from_secs(30);
const FIONREAD: u64 = 0x541b;

extern "C" {
    fn ioctl(fd: i32, request: u64, ...) -> i32;
}

/// Waits until the program has taken all that was written, so that no read of it gets two pieces at once.
fn drained(pipe: RawFd, child: &mut Child, since: Instant) -> Result<(), String> {
    loop {
        let mut waiting = 0_i32;
        // SAFETY: FIONREAD writes one int.
        if unsafe { ioctl(pipe, FIONREAD, &mut waiting as *mut i32) } != 0 {
            return Err("FIONREAD is refused".to_string());
        }
        if waiting == 0 {
            return Ok(());
        }
        if since.elapsed() > PATIENCE {
            return Err("the program does not read on".to_string());
        }
        if child.try_wait().map_err(|e| e.to_string())?.is_some() {
            return Err("the program ended before its input".to_string());
        }
        std::thread::yield_now();
    }
}

/// Feeds the pieces, and answers the pipe, which ends the input once it is dropped.
pub fn feed(child: &mut Child, pieces: &[&[u8]], since: Instant) -> Result<ChildStdin, String> {
    let mut input = child.stdin.take().unwrap();
    for piece in pieces {
        input.write_all(piece).map_err(|e| format!("the program does not take its input: {e}"))?;
        drained(input.as_raw_fd(), child, since)?;
    }
    Ok(input)
}

pub fn ended(child: &mut Child, since: Instant) -> Result<(), String> {
    while since.elapsed() < PATIENCE {
        match child.try_wait().map_err(|e| e.to_string())? {
            Some(status) if status.success() => return Ok(()),
            Some(status) => return Err(format!("the program ended with {status}")),
            None => std::thread::sleep(Duration::from_micros(200)),
        }
    }
    Err("the program does not end".to_string())
}

/// Starts the program, with pipes to it and from it.
pub fn start(program: &str, words: &[String]) -> Result<Child, String> {
    spawn(Command::new(program).args(words))
}

pub fn spawn(command: &mut Command) -> Result<Child, String> {
    let child = command.stdin(Stdio::piped()).stdout(Stdio::piped()).spawn();
    child.map_err(|e| format!("{:?} cannot be started: {e}", command.get_program()))
}

/// Runs the program without arguments.
pub fn report(program: &str, text: &[u8], cuts: Cuts) -> Result<Vec<u8>, String> {
    run(program, &[], text, cuts)
}

/// Runs the program on a text and answers what it wrote to standard output.
pub fn run(program: &str, words: &[String], text: &[u8], cuts: Cuts) -> Result<Vec<u8>, String> {
    answer(start(program, words)?, text, cuts)
}

/// The same for a program that has just been started.
pub fn answer(mut child: Child, text: &[u8], cuts: Cuts) -> Result<Vec<u8>, String> {
    let since = Instant::now();
    let mut output = child.stdout.take().unwrap();
    let reader = std::thread::spawn(move || {
        let mut wrote = Vec::new();
        output.read_to_end(&mut wrote).map(|_| wrote)
    });
    let result = feed(&mut child, &pieces(text, cuts), since).map(drop).and_then(|()| ended(&mut child, since));
    if result.is_err() {
        let _ = child.kill();
        let _ = child.wait();
    }
    let wrote = reader.join().unwrap().map_err(|e| e.to_string())?;
    result.map_err(|why| format!("{why}; it wrote {} bytes", wrote.len()))?;
    Ok(wrote)
}
