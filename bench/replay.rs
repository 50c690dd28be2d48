//! The replay in plain Rust: the reference's, with the benchmark's writers for its messages.

mod forms;
#[allow(dead_code)] // the port reads no message
mod plain;
#[allow(dead_code)] // what only a test looks at
#[path = "../tests/host/reference/port.rs"]
mod port;
#[allow(dead_code)] // what only a test looks at
#[path = "../tests/host/reference/replay.rs"]
mod replay;

use std::io::{Read, Write};
use std::process::exit;

fn main() -> std::io::Result<()> {
    let mut words = std::env::args().skip(1).peekable();
    let ports = words.next_if_eq("ports").is_some();
    let letter = words.next().and_then(|word| word.bytes().next()).unwrap_or(b'I');
    let mut input = Vec::new();
    std::io::stdin().read_to_end(&mut input)?;
    let text = replay::replay(ports, letter, &input, &mut ()).unwrap_or_else(|_| {
        eprintln!("replay: the start-up letter is none of I, M, B, b");
        exit(1)
    });
    std::io::stdout().write_all(&text)
}
