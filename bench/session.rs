//! The session program in plain Rust: the reference port, with the benchmark's writers for its messages. As ours does, it reads
//! one byte at a time and writes once a turn.

mod forms;
#[allow(dead_code)] // the port reads no message
mod plain;
#[allow(dead_code)] // what only a test looks at
#[path = "../tests/host/reference/port.rs"]
mod port;
#[allow(dead_code)] // the replay itself
#[path = "../tests/host/reference/replay.rs"]
mod replay;

use replay::{Lens, MOST_IN_A_TURN};
use std::fs::File;
use std::io::{Read, Write};
use std::os::unix::io::FromRawFd;
use std::process::exit;

fn main() -> std::io::Result<()> {
    let letter = std::env::args().nth(1).and_then(|word| word.bytes().next()).unwrap_or(b'I');
    let mut lens = Lens::start(letter).unwrap_or_else(|_| {
        eprintln!("session: the start-up letter is none of I, M, B, b");
        exit(1)
    });
    // Standard input and output without the library's buffers.
    let (mut input, mut output) = unsafe { (File::from_raw_fd(0), File::from_raw_fd(1)) };
    let mut sent = [0; MOST_IN_A_TURN];
    let mut byte = [0];
    loop {
        let count = lens.ports[0].fill(&mut lens.settings, &mut sent);
        output.write_all(&sent[..count])?;
        if input.read(&mut byte)? == 0 {
            return Ok(());
        }
        // A line that is dropped is told to nobody.
        let _ = lens.receive(0, byte[0]);
    }
}
