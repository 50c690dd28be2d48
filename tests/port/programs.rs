//! Runs a program on an input that comes in pieces.

use crate::random::Random;
use std::io::{self, Write};
use std::os::unix::io::AsRawFd;
use std::process::{ChildStdin, Command, Output, Stdio};
use std::sync::atomic::{AtomicBool, Ordering};
use std::thread;
use std::time::Duration;

extern "C" {
    fn ioctl(fd: i32, request: u64, ...) -> i32;
}
const FIONREAD: u64 = 0x541B;

/// How many bytes in a pipe have not been read.
fn unread(pipe: &ChildStdin) -> i32 {
    let mut count = 0;
    unsafe { ioctl(pipe.as_raw_fd(), FIONREAD, &mut count) };
    count
}

/// Hands an input over in pieces, each when the one before has been read, so that with each a read ends.
fn feed(mut stdin: ChildStdin, input: &[u8], random: &mut Random, ended: &AtomicBool) {
    let most = if input.len() < 2_000 { random.pick(&[1, 2, 7, 50, 2_000]) } else { random.pick(&[200, 2_000, 65_536]) };
    let mut rest = input;
    while !rest.is_empty() {
        let (piece, after) = rest.split_at(rest.len().min(1 + random.below(most)));
        // A program that ends early is found by what it printed.
        if stdin.write_all(piece).is_err() {
            return;
        }
        let mut looks = 0;
        while unread(&stdin) > 0 && !ended.load(Ordering::Relaxed) {
            if looks < 100 {
                thread::yield_now();
            } else {
                thread::sleep(Duration::from_micros(100));
            }
            looks += 1;
        }
        rest = after;
    }
}

/// A program, which is for x86-64; on another processor the script runs it, from the project's root.
fn command(program: &str) -> Command {
    if cfg!(target_arch = "x86_64") {
        return Command::new(program);
    }
    let mut script = Command::new("tools/x86-64");
    script.args(["run", program]);
    script
}

/// Runs a program with these arguments.
pub fn output(program: &str, words: &[&str], input: &[u8], random: &mut Random) -> io::Result<Output> {
    let mut child = command(program)
        .args(words)
        .stdin(Stdio::piped())
        .stdout(Stdio::piped())
        .stderr(Stdio::piped())
        .spawn()?;
    let stdin = child.stdin.take().expect("its input is piped");
    let ended = AtomicBool::new(false);
    let mut random = Random(random.next());
    thread::scope(|scope| {
        scope.spawn(|| feed(stdin, input, &mut random, &ended));
        let output = child.wait_with_output();
        ended.store(true, Ordering::Relaxed);
        output
    })
}

/// What a program prints, if it ends well.
pub fn printed(program: &str, words: &[&str], input: &[u8], random: &mut Random) -> Result<Vec<u8>, String> {
    let output = output(program, words, input, random).map_err(|error| format!("{program}: {error}"))?;
    if output.status.success() {
        Ok(output.stdout)
    } else {
        Err(format!("{program}: {}, {}", output.status, output.stderr.escape_ascii()))
    }
}
