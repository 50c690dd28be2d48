//! What a camera sends: commands of all kinds, lines that are none, and how densely they come.

use crate::random::Random;

pub const CR: u8 = b'\r';
const BYTES_IN_A_SESSION: usize = 2_000;

/// One of each kind of command; the digits are chosen anew.
pub const COMMANDS: [&[u8]; 18] =
    [b"B", b"C", b"D", b"G", b"H", b"Ka", b"Kb0", b"Kc", b"Kd", b"K3", b"K4", b"N", b"P", b"V", b"W", b"W00", b"X", b"Y"];

/// Lines that are nearly commands.
const NEARLY: [&[u8]; 40] = [
    b"", b"b", b"c", b"d", b"g", b"h", b"n", b"x", b"K", b"KA", b"Kb", b"Kb8", b"Kb/", b"Kb:", b"Kb00", b"KB0", b"K2", b"K5",
    b"k3", b"W0", b"W32", b"W39", b"W40", b"W99", b"W/0", b"W0/", b"W0:", b"W:0", b"W3:", b"W001", b"w01", b"V0", b"DD", b"N ",
    b" N", b"\nN", b"N\n", b"\0", b"D\0", b"\x8D",
];

pub fn command(random: &mut Random, kinds: &[&[u8]]) -> Vec<u8> {
    let kind = random.pick(kinds);
    match kind {
        b"Kb0" => format!("Kb{}", random.below(8)).into_bytes(),
        b"W00" => format!("W{:02}", random.below(32)).into_bytes(),
        _ => kind.to_vec(),
    }
}

/// A line that is no command: nearly one, a few bytes, or one as long as the line, longer, or longer than any count.
fn stray(random: &mut Random) -> Vec<u8> {
    let length = match random.below(6) {
        0..=2 => return random.pick(&NEARLY).to_vec(),
        3 => random.below(5),
        4 => random.pick(&[63, 64, 65, 66]),
        _ => random.pick(&[1, 63, 64, 65, 127, 128, 129, 255, 256, 257, 258, 320, 321]),
    };
    let mut line = vec![b'Q'; length];
    match random.below(4) {
        0 => line.fill_with(|| random.byte()),
        1 => line = [random.pick(&COMMANDS), &line].concat(),
        2 => line.extend(random.pick(&COMMANDS)),
        _ => {}
    }
    line.retain(|&byte| byte != CR);
    line
}

/// How a camera sends for a while.
pub struct Pace {
    /// The commands that come.
    pub commands: &'static [&'static [u8]],
    /// One in so many lines is none of them.
    pub strays: usize,
    /// At most so many slots after a line.
    pub slots: usize,
    /// Slots come between the bytes of a line too.
    pub mixed: bool,
}

impl Pace {
    pub fn any(random: &mut Random) -> Pace {
        Pace {
            commands: random.pick(&[
                &COMMANDS,
                &COMMANDS,
                &[b"D"],
                &[b"D", b"Kd"],
                &[b"C", b"Kc", b"N", b"P"],
                &[b"V", b"W", b"W00", b"Kb0"],
            ]),
            strays: random.pick(&[2, 8, 1000]),
            slots: random.pick(&[0, 1, 1, 1, 2, 2, 8, 30, 80, 160]),
            mixed: random.flag(),
        }
    }

    /// The commands that turn the start-up letter or show it, and slots for their replies.
    pub fn of_letter(random: &mut Random) -> Pace {
        Pace { commands: &[b"N", b"X", b"Y"], strays: 20, slots: random.pick(&[30, 160]), mixed: random.flag() }
    }

    /// A line and its carriage return.
    pub fn line(&self, random: &mut Random) -> Vec<u8> {
        let mut line = if random.below(self.strays) == 0 { stray(random) } else { command(random, self.commands) };
        line.push(CR);
        line
    }
}

/// What a session program is sent.
pub fn session(random: &mut Random) -> Vec<u8> {
    let mut input = Vec::new();
    while input.len() < BYTES_IN_A_SESSION {
        let pace = Pace::any(random);
        for _ in 0..random.below(40) {
            input.extend(if random.below(20) == 0 { vec![random.byte()] } else { pace.line(random) });
        }
    }
    input
}
