//! The programs on a recording that is still coming: what is ready is written before they wait for more input.

use crate::oracle;
use crate::program::{ended, start, PATIENCE};
use crate::tally::Tally;
use std::io::{Read, Write};
use std::process::Child;
use std::sync::mpsc::{channel, Receiver};
use std::time::{Duration, Instant};

/// How long output that should not come yet is waited for.
const QUIET: Duration = Duration::from_millis(50);

/// What the program has written so far.
struct Watched {
    chunks: Receiver<Vec<u8>>,
    got: Vec<u8>,
}

impl Watched {
    fn new(mut output: impl Read + Send + 'static) -> Watched {
        let (send, chunks) = channel();
        std::thread::spawn(move || {
            let mut chunk = [0; 4096];
            while let Ok(n @ 1..) = output.read(&mut chunk) {
                if send.send(chunk[..n].to_vec()).is_err() {
                    break;
                }
            }
        });
        Watched { chunks, got: Vec::new() }
    }

    /// Waits until so many bytes have come, for so long at most.
    fn wait(&mut self, bytes: usize, patience: Duration) {
        let since = Instant::now();
        while self.got.len() < bytes {
            match self.chunks.recv_timeout(patience.saturating_sub(since.elapsed())) {
                Ok(chunk) => self.got.extend(chunk),
                Err(_) => return,
            }
        }
    }

    /// This has come after so many bytes of input, and nothing else.
    fn expect(&mut self, input: usize, expected: &str) -> Result<(), String> {
        self.wait(expected.len(), PATIENCE);
        self.wait(expected.len() + 1, QUIET);
        if self.got == expected.as_bytes() {
            return Ok(());
        }
        Err(format!("after {input} bytes of input {} bytes of output have come, and not {}", self.got.len(), expected.len()))
    }
}

/// Feeds the parts one after the other to a program just started, through a pipe that stays open: after each, what is due for the lines that have
/// ended is there, and after the last what is due at the end. `due` says it of the text so far, and is told whether that has ended.
pub fn watch(mut child: Child, parts: &[String], due: &dyn Fn(&[u8], bool) -> String) -> Result<(), String> {
    let mut input = child.stdin.take().unwrap();
    let mut watched = Watched::new(child.stdout.take().unwrap());
    let mut text = Vec::new();
    let mut seen = Ok(());
    for part in parts {
        text.extend(part.bytes());
        seen = input.write_all(part.as_bytes()).map_err(|e| e.to_string()).and_then(|()| input.flush().map_err(|e| e.to_string()));
        let lines = text.iter().rposition(|byte| *byte == b'\n').map_or(0, |at| at + 1);
        seen = seen.and_then(|()| watched.expect(text.len(), &due(&text[..lines], false)));
        if seen.is_err() {
            break;
        }
    }
    drop(input);
    let seen = seen.and_then(|()| watched.expect(text.len(), &due(&text, true))).and_then(|()| ended(&mut child, Instant::now()));
    let _ = child.kill();
    let _ = child.wait();
    seen
}

/// Recordings in parts, each with its name.
pub fn cases() -> [(&'static str, Vec<String>); 5] {
    let line = |op: &str| format!("op={op}\n");
    let some = line("start task=0 on=1") + &line("write task=0 on=5") + &line("read task=1 on=5");
    let many: String = (0..4_000).map(|n| line(&format!("read task=0 on={}", n % 64))).collect();
    [
        ("line by line", some.split_inclusive('\n').map(String::from).collect()),
        ("a half line", vec![some.clone(), "op=write ta".into(), "sk=1 on=6\nop=re".into(), "ad task=0 on=6".into(), "\n".into()]),
        ("more than a block", vec![some.clone(), many.clone(), line("write task=1 on=9"), many]),
        ("an LF by itself", vec!["op=read task=0 on=64".into(), "\n".into(), "\n".into(), some]),
        ("a rest at the end", vec![line("write task=0 on=5"), "op=read task=0 on=5".into()]),
    ]
}

pub fn run(tally: &mut Tally, program: &str) {
    for (name, parts) in cases() {
        let seen = start(program, &[]).and_then(|child| watch(child, &parts, &|text, _| oracle::report_of(text)));
        tally.check(seen.is_ok(), || format!("program, pauses, {name}: {}", seen.unwrap_err()));
    }
    tally.part("a recording that pauses");
}
