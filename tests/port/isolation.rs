//! Request [8]'s isolation, looked for in printed text: what is printed for one port's lines is the same whatever the other port's
//! lines are; but for X and Y there, which may turn the letter and with it the checksum of N replies.

use crate::camera::Pace;
use crate::captures::{ended, interleaved, Capture, LF};
use crate::random::Random;

const EVENTS_OF_A_PORT: usize = 5_000;

/// Where an N reply has its letter and, in checksum mode, its two checksum characters.
const LETTER: usize = "NS4050.0093OBENCH                          LPN050M050U".len();
const SUM: usize = LETTER + "IT95  B4.34".len();

/// What a port whose lines are made anew does about the letter.
#[derive(Clone, Copy, PartialEq, Eq)]
pub enum Turns {
    /// It receives no X and no Y.
    Never,
    AtTimes,
    /// X, Y and N are most of what either port receives.
    Often,
}

/// The lines of one port.
fn lines(random: &mut Random, turns: Turns) -> Vec<u8> {
    let mut capture = Capture::new(random.next());
    match turns {
        Turns::Often => capture.run(EVENTS_OF_A_PORT, Pace::of_letter),
        _ if random.below(4) == 0 => capture.send(EVENTS_OF_A_PORT),
        _ => capture.run(EVENTS_OF_A_PORT, Pace::any),
    }
    capture.text
}

/// A port's lines without those that receive an X or a Y.
fn without_units(lines: &[u8]) -> Vec<u8> {
    let kept = lines.split_inclusive(|&byte| byte == LF).filter(|line| !matches!(*line, b"R 58\n" | b"R 59\n"));
    kept.flatten().copied().collect()
}

/// Two captures of both ports with the lines of one in common.
pub fn pair(random: &mut Random, common: usize, turns: Turns) -> [Vec<u8>; 2] {
    let own = lines(random, turns);
    [(); 2].map(|()| {
        let mut other = lines(random, turns);
        if turns == Turns::Never {
            other = without_units(&other);
        }
        let text = interleaved(random, if common == 0 { [&own, &other] } else { [&other, &own] });
        ended(random, text)
    })
}

/// What was printed for each line of one port, from what was printed for each line.
pub fn own<'a>(at: usize, capture: &[u8], printed: impl Iterator<Item = &'a [u8]>) -> Vec<Vec<u8>> {
    let lines = capture.split(|&byte| byte == LF).zip(printed);
    lines.filter(|(line, _)| line.starts_with(b"1 ") == (at == 1)).map(|(_, printed)| printed.to_vec()).collect()
}

/// Makes the letter and the checksum characters of N replies alike.
pub fn blot(own: &mut [Vec<u8>]) {
    // The place of the next byte in its message, whether that is an N reply, and the byte before.
    let (mut place, mut fixed, mut last) = (0, false, *b"--");
    for printed in own.iter_mut().filter(|printed| !printed.starts_with(b"refused")) {
        for slot in printed.chunks_mut(3) {
            let sent = [slot[0], slot[1]];
            if place == 0 {
                fixed = sent == *b"4e";
            }
            let of_sum = (SUM..SUM + 2).contains(&place) && !matches!(&sent, b"0a" | b"0d");
            if fixed && (place == LETTER || of_sum) {
                slot[..2].copy_from_slice(b"..");
            }
            let ends = sent == *b"--" || (last == *b"0a" && sent == *b"0d");
            place = if ends { 0 } else { place + 1 };
            last = sent;
        }
    }
}
