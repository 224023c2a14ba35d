//! The stored files of the program that takes bytes from a cable.

use crate::bytes::{every_pair, push_message};
use crate::packets::Dice;
use crate::times;
use reading::{cable_idle, import, import_filter, Cable, CUT_OFF, DROPPED, SENT, TAKEN_IN};
use std::path::Path;

/// The bytes of one buffer.
const BUFFER: usize = 65536;

/// Bytes of the random mix behind the last edge.
const AFTER_LAST_EDGE: usize = 8000;

/// The group that the packets are for, as an argument and as a number.
const ARGUMENTS: [&str; 1] = ["05"];
const GROUP: u8 = 5;

/// One case of the rules after another.
const EXAMPLES: [&[u8]; 24] = [
    // running status, and what ends it
    &[0x90, 60, 64, 61, 65, 60, 0],
    &[0xC3, 5, 6, 7],
    &[0xF1, 3, 60, 64],
    &[0x91, 60, 64, 0xF2, 1, 2, 61, 65],
    &[0x92, 60, 64, 0xF3, 9, 61],
    &[0x93, 60, 64, 0xF6, 61],
    &[0x94, 60, 64, 0xF4, 61, 0x94, 62, 64, 0xF5, 61],
    &[0x95, 60, 64, 0xF7, 61],
    // real time between and inside, and what is like it and dropped
    &[0x90, 0xF8, 60, 0xFA, 64, 0xFB, 61, 0xFC, 65, 0xFE, 0xFF],
    &[0x90, 60, 0xF9, 64, 0xFD, 61, 65],
    &[0xF0, 1, 0xF8, 2, 0xFD, 3, 0xF7, 0xFE],
    // exclusives of no bytes, of one packet, of one byte more, and of three packets
    &[0xF0, 0xF7],
    &[0xF0, 1, 2, 3, 4, 5, 6, 0xF7],
    &[0xF0, 1, 2, 3, 4, 5, 6, 7, 0xF7],
    &[0xF0, 1, 2, 3, 4, 5, 6, 7, 8, 9, 10, 11, 12, 0xF7],
    &[0xF0, 1, 2, 3, 4, 5, 6, 7, 8, 9, 10, 11, 12, 13, 0xF7, 0xF7],
    // exclusives cut off, with what cuts them off
    &[0xF0, 0xF0, 1, 0x90, 60, 64],
    &[0xF0, 1, 2, 3, 4, 5, 6, 0xF6],
    &[0xF0, 1, 2, 3, 4, 5, 6, 7, 0xF4, 8],
    &[0xF0, 0xF8, 0xF1, 5],
    // messages dropped
    &[0x90, 0x80, 60, 64],
    &[0x90, 60, 0x80, 60, 64, 61, 0xF7, 62],
    &[0xF2, 1, 0xF2, 1, 2, 0xC0, 0xD0, 5],
    &[0xF1, 0xF0, 0xF3, 0xF7, 5],
];

/// A start packet of it is sent; three bytes are held when the input ends.
const OPEN_END: [u8; 10] = [0xF0, 1, 2, 3, 4, 5, 6, 7, 8, 9];

/// Adds random messages until so many bytes are there, or a little less.
fn mix_to(dice: &mut Dice, length: usize, bytes: &mut Vec<u8>) {
    loop {
        let before = bytes.len();
        push_message(dice, bytes);
        if bytes.len() > length {
            bytes.truncate(before);
            return;
        }
    }
}

/// Active sensing until so many bytes are there.
fn pad_to(length: usize, bytes: &mut Vec<u8>) {
    assert!(bytes.len() <= length);
    bytes.resize(length, 0xFE);
}

/// Examples, every two neighbouring bytes and random messages, with a message across each edge.
fn whole_input() -> Vec<u8> {
    let mut dice = Dice::new(7);
    let pairs = every_pair();
    let (first, second) = (&pairs[..=pairs.len() / 2], &pairs[pairs.len() / 2..]);
    let mut bytes = EXAMPLES.concat();
    bytes.extend(first);
    mix_to(&mut dice, BUFFER - 8, &mut bytes);
    pad_to(BUFFER - 8, &mut bytes);
    bytes.extend([0xF0, 1, 2, 3, 4, 5, 6, 7, 8, 9, 0xF7]);
    bytes.extend(second);
    mix_to(&mut dice, 2 * BUFFER - 2, &mut bytes);
    pad_to(2 * BUFFER - 2, &mut bytes);
    bytes.extend([0x9A, 60, 64]);
    mix_to(&mut dice, 2 * BUFFER + AFTER_LAST_EDGE, &mut bytes);
    bytes.push(0xF6);
    bytes.extend(OPEN_END);
    bytes
}

/// What occurs in the input.
struct Seen {
    answers: [usize; 26],
    /// Exclusive packets by status and count.
    exclusives: [[usize; 7]; 4],
    /// Real time bytes where nothing, a message and an exclusive is open.
    real_time: [usize; 3],
    /// Data bytes that began another message under running status.
    repeated: usize,
}

impl Seen {
    fn count(&mut self, before: Cable, byte: u8, answer: u32, packet: &[u32]) {
        self.answers[answer as usize] += 1;
        if let [first, _] = packet {
            let (status, count) = (first >> 20 & 15, first >> 16 & 15);
            self.exclusives[status as usize][count as usize] += 1;
        }
        match (byte, before.status) {
            (0xF8.., 0) => self.real_time[0] += 1,
            (0xF8.., 0xF0) => self.real_time[2] += 1,
            (0xF8.., _) => self.real_time[1] += 1,
            (..=0x7F, 0) if before.running != 0 => self.repeated += 1,
            _ => (),
        }
    }
}

fn see(bytes: &[u8]) -> Seen {
    let mut seen = Seen {
        answers: [0; 26],
        exclusives: [[0; 7]; 4],
        real_time: [0; 3],
        repeated: 0,
    };
    let (mut cable, mut place) = (cable_idle(), 0);
    while place < bytes.len() {
        let mut out = [0; 2];
        let one = import(cable, GROUP, &bytes[place..], &mut out);
        seen.count(cable, bytes[place], one.answer, &out[..one.written]);
        cable = one.after;
        place += one.read;
    }
    seen
}

/// Fails unless every answer is there, and every exclusive packet that a cable can give.
fn check(seen: &Seen) {
    println!("import: answers {}", times(&seen.answers));
    println!(
        "import: exclusive packets by status and count {:?}",
        seen.exclusives
    );
    println!(
        "import: real time with nothing, a message, an exclusive open {:?}",
        seen.real_time
    );
    println!(
        "import: messages begun under running status {}",
        seen.repeated
    );
    for answer in [SENT, TAKEN_IN, DROPPED, CUT_OFF] {
        assert!(seen.answers[answer as usize] > 0);
    }
    let [complete, start, middle, end] = seen.exclusives;
    assert!(complete.iter().chain(&end[1..]).all(|count| *count > 0));
    for full in [start, middle] {
        assert!(full[..6].iter().all(|count| *count == 0) && full[6] > 0);
    }
    assert!(end[0] == 0 && seen.repeated > 0);
    assert!(seen.real_time.iter().all(|count| *count > 0));
}

pub fn write(folder: &Path) -> std::io::Result<()> {
    let input = whole_input();
    check(&see(&input));
    let output = import_filter(&input, &ARGUMENTS).expect("a group");
    let folder = folder.join("import");
    std::fs::create_dir_all(&folder)?;
    std::fs::write(folder.join("args"), ARGUMENTS.join("\n") + "\n")?;
    std::fs::write(folder.join("stdout"), output)?;
    std::fs::write(folder.join("stdin"), input)
}
