//! What the words of the requests say of single captures, and of the programs' arguments.

use crate::endings::{NUMBERED, OF_OTHER_FORM, OF_OTHER_NUMBER};
use crate::programs::{output, printed};
use crate::random::Random;
use crate::replay::{occurs, replay};

/// Captures without a port number and what is printed for them, with the argument `ports` or not.
const PLAIN: [(&[u8], &[u8]); 12] = [
    (b"S 4", b"3c 0a 0d --\nslots 4\n"),
    (b"S 004\n", b"3c 0a 0d --\nslots 4\n"),
    (b"", b"slots 0\n"),
    (b"\n", b"refused 10\nslots 0\n"),
    (b"S 4\n\nS 4\n", b"3c 0a 0d --\nrefused 10\nslots 4\n"),
    (b"S 1\nS 1\nS 2\nS 1000", b"3c\n0a\n0d --\nrefused 10\nslots 4\n"),
    (b"R 4e\nR 0d\nR 0D\nS 4\nS 5\n", b"refused 7\n3c 0a 0d 4e\n53 34 30 35 30\nslots 9\n"),
    (b"R 51\r\nS 1\n", b"refused 10\nslots 0\n"),
    (b"M 798 680 56 5 0 6123 711 909 273 23 0 I 21\nS 1\n", b"3c\nslots 1\n"),
    (b"M 798 680 56 5 0 6123 711 909 273 23 0 Q 21\nS 1\n", b"refused 1\n3c\nslots 1\n"),
    (b"M -1 0 0 0 0 0 0 0 0 -0 0 I 0\nM 0 0 0 0 0 0 0 0 0 0 0 I 999999999\nS 1\n", b"refused 1\nrefused 1\n3c\nslots 1\n"),
    (b"M 0 0 0 0 0 0 0 0 0 0 0 I 1000000000\nS 1\n", b"refused 10\nslots 0\n"),
];

/// Captures with port numbers.
const OF_BOTH: [(&[u8], &[u8]); 8] = [
    (b"0 S 4", b"3c 0a 0d --\nslots 4\n"),
    (b"1 S 4\n", b"3c 0a 0d --\nslots 4\n"),
    (b"1 S 2\nS 3\n0 S 1\n1 S 2\n", b"3c 0a\n3c 0a 0d\n--\n0d --\nslots 8\n"),
    (b"1 R 4e\n0 R 0d\n1 R 0d\n1 R 0d\nS 4\n1 S 4\nR 0d\n", b"refused 7\n3c 0a 0d 3c\n3c 0a 0d 4e\nslots 8\n"),
    (b"1 M 798 680 56 5 0 6123 711 909 273 23 0 Q 21\n1 S 1\n", b"refused 1\n3c\nslots 1\n"),
    (b"2 R 41\n0 S 1\n", b"refused 10\nslots 0\n"),
    (b"1 S 1\n0 S 1\n00 R 41\n1 S 1\n", b"3c\n3c\nrefused 10\nslots 2\n"),
    (b"1 S 1000", b"refused 10\nslots 0\n"),
];

/// From the letter B, lines at a port and their replies before LF CR: what is shared and what is each port's own.
const TALK: [(usize, &str, &str); 20] = [
    (1, "Y", "<"),
    (1, "N", "NS4050.0093OBENCH                          LPN050M050UBT95  B4.34"),
    (0, "N", "NS4050.0093OBENCH                          LPN050M050UBT95  B4.34"),
    (1, "Y", "Y"),
    (0, "N", "NS4050.0093OBENCH                          LPN050M050UbT95  B4.34"),
    (1, "N", "NS4050.0093OBENCH                          LPN050M050UbT95  B4.34"),
    (0, "D", "D0000798T0680t5.6+5Z0000H0006123N0000711F0000909V027.3E+023z0000S4050.0093"),
    (1, "D", "D0002027T0680t5.6+5Z0000H0015552N0001806F0002309V027.3E+058z0000S4050.0093"),
    (0, "G", "!MN"),
    (1, "Q", "?"),
    (0, "Q", "?L@"),
    (1, "Ka", "!"),
    (0, "X", "XJG"),
    (1, "N", "NS4050.0093OBENCH                          LPN050M050UBT95  B4.34"),
    (1, "D", "D0002027T0680t5.6+5Z0000H0015552N0001806F0002309V027.3E+058z0000S4050.0093"),
    (0, "H", "!"),
    (1, "H", "!"),
    (0, "Y", "Y"),
    (0, "X", "X"),
    (1, "N", "NS4050.0093OBENCH                          LPN050M050UBT95  B4.34"),
];

fn hex(bytes: &[u8]) -> String {
    bytes.iter().map(|byte| format!("{byte:02x}")).collect::<Vec<_>>().join(" ")
}

/// The talk as a capture, and what is printed for it.
fn talk() -> (String, String) {
    let (mut capture, mut wanted) = ("0 S 3\n1 S 3\n".to_string(), "3c 0a 0d\n3c 0a 0d\n".to_string());
    let mut slots = 6;
    for (at, line, reply) in TALK {
        for byte in format!("{line}\r").bytes() {
            capture += &format!("{at} R {byte:02x}\n");
        }
        capture += &format!("{at} S {}\n", reply.len() + 2);
        wanted += &format!("{}\n", hex(format!("{reply}\n\r").as_bytes()));
        slots += reply.len() + 2;
    }
    (capture, format!("{wanted}slots {slots}\n"))
}

/// Whether the reference takes a line: without the argument `ports`, with it, and with it and a number before the line.
fn forms() -> Result<(), String> {
    let takes = |line: &[u8]| {
        let numbered = [&b"0 "[..], b"1 "].iter().any(|number| occurs(true, &[number, line].concat()).is_some());
        [occurs(false, line).is_some(), occurs(true, line).is_some(), numbered]
    };
    let wrong = OF_OTHER_FORM.into_iter().chain(OF_OTHER_NUMBER).map(|line| (line, [false, false, false]));
    for (line, wanted) in wrong.chain(NUMBERED.map(|line| (line, [false, true, false]))) {
        if takes(line) != wanted {
            return Err(format!("the reference takes the line '{}': {:?}", line.escape_ascii(), takes(line)));
        }
    }
    Ok(())
}

/// The captures on the program and the reference.
pub fn examples(program: &str, random: &mut Random) -> Result<(), String> {
    forms()?;
    let (capture, wanted) = talk();
    let plain = PLAIN.into_iter().map(|example| (&[][..], b'I', example));
    let of_both = PLAIN.into_iter().chain(OF_BOTH).map(|example| (&["ports"][..], b'I', example));
    let talk = (&["ports", "B"][..], b'B', (capture.as_bytes(), wanted.as_bytes()));
    for (words, letter, (capture, wanted)) in plain.chain(of_both).chain([talk]) {
        let reference = replay(!words.is_empty(), letter, capture, &mut ()).unwrap_or_default();
        for (who, text) in [("the reference", reference), (program, printed(program, words, capture, random)?)] {
            if text != wanted {
                let (capture, text) = (capture.escape_ascii(), text.escape_ascii());
                return Err(format!("{who} {words:?}: '{capture}' printed '{text}', not '{}'", wanted.escape_ascii()));
            }
        }
    }
    Ok(())
}

/// The start-up letter is the first byte of the argument after these, or I; another than four is refused.
pub fn letters(program: &str, first: &[&str], input: &[u8], random: &mut Random) -> Result<(), String> {
    let words = |word| [first, &[word]].concat();
    if printed(program, first, input, random)? != printed(program, &words("I"), input, random)? {
        return Err(format!("{program} {first:?}: the start-up letter is not I"));
    }
    for (word, letter) in [("", "I"), ("IM", "I"), ("MI", "M"), ("Bb", "B"), ("b ", "b")] {
        if printed(program, &words(word), input, random)? != printed(program, &words(letter), input, random)? {
            return Err(format!("{program} {first:?}: the argument '{word}' is not the start-up letter {letter}"));
        }
    }
    for word in ["i", "m", "A", "C", "H", "J", "L", "N", "a", "c", "0", " ", "-", "xI"] {
        refuses(program, &words(word), input, random)?;
    }
    Ok(())
}

/// `replay` takes the word `ports`, then a start-up letter, and no more.
pub fn arguments(program: &str, input: &[u8], random: &mut Random) -> Result<(), String> {
    for words in ["port", "portsI", "Ports", "ports ports", "I ports", "I I", "ports I I"] {
        refuses(program, &words.split(' ').collect::<Vec<_>>(), input, random)?;
    }
    Ok(())
}

/// With these arguments there is a message and nothing else.
fn refuses(program: &str, words: &[&str], input: &[u8], random: &mut Random) -> Result<(), String> {
    let output = output(program, words, input, random).map_err(|error| format!("{program}: {error}"))?;
    if output.stdout.is_empty() && !output.stderr.is_empty() {
        return Ok(());
    }
    let (out, message) = (output.stdout.escape_ascii(), output.stderr.escape_ascii());
    Err(format!("{program} {words:?} printed '{out}', and the message is '{message}'"))
}
