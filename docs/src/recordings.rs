//! Recordings with damage of every sort, and a count of what is said of them.

use crate::packets::{bad_packet, every_place, packet, Dice};
use reading::{size, HEADER};
use std::collections::BTreeMap;

/// The types whose fields are checked.
const CHECKED: [u32; 4] = [1, 2, 3, 4];

pub const EDGE_STAMPS: [u32; 8] = [0, 1, 2, 0x7FFF, 0x8000, 0x8001, 0xFFFE, 0xFFFF];

/// A file with these words behind a good header.
pub fn recording(words: &[u32]) -> Vec<u8> {
    let bytes = words.iter().flat_map(|word| word.to_be_bytes());
    HEADER.into_iter().chain(bytes).collect()
}

/// Words of so many packets, in which good ones, stamps and each sort of damage take turns.
pub fn throw_words(dice: &mut Dice, packets: usize) -> Vec<u32> {
    let mut words = vec![];
    for _ in 0..packets {
        let thrown = throw_packet(dice);
        words.extend(&thrown[..size(thrown[0])]);
    }
    words
}

fn throw_packet(dice: &mut Dice) -> [u32; 4] {
    match dice.below(12) {
        0 | 1 => {
            let bad = dice.pick(&every_place(&CHECKED));
            bad_packet(dice, bad)
        }
        2 => packet_with_bad_status(dice),
        3 | 4 => [timestamp(dice), 0, 0, 0],
        5 => flipped(dice),
        _ => any_good(dice),
    }
}

/// A good packet, or one of a reserved type.
fn any_good(dice: &mut Dice) -> [u32; 4] {
    let message_type = dice.below(16) as u32;
    packet(dice, message_type)
}

/// One bit is changed, be it of the type, so that what follows may be read as other packets.
fn flipped(dice: &mut Dice) -> [u32; 4] {
    let mut words = any_good(dice);
    words[dice.below(2)] ^= 1 << dice.below(32);
    words
}

fn timestamp(dice: &mut Dice) -> u32 {
    let thrown = dice.word();
    let any = thrown & 0xFFFF;
    let edge = dice.pick(&EDGE_STAMPS);
    0x0020_0000 | thrown & 0x0F0F_0000 | dice.pick(&[any, edge])
}

fn packet_with_bad_status(dice: &mut Dice) -> [u32; 4] {
    let message_type = dice.below(5) as u32;
    let mut words = packet(dice, message_type);
    let status = match message_type {
        0 => 5 + dice.below(11) as u32,
        1 => dice.below(15) as u32,
        2 => dice.pick(&[0, 1, 2, 3, 4, 5, 6, 7, 15]),
        3 => 4 + dice.below(12) as u32,
        _ => 7,
    };
    words[0] = words[0] & !0x00F0_0000 | status << 20;
    if message_type == 1 && dice.one_in(2) {
        let status = dice.pick(&[0xF0, 0xF4, 0xF5, 0xF7, 0xF9, 0xFD]);
        words[0] = words[0] & !0x00FF_0000 | status << 16;
    }
    words
}

/// The lines by their form, without the place of a drop and the number of ticks.
pub const FORMS: [&str; 22] = [
    "4 1", "4 2", "4 3", "4 4", "6 1", "6 2", "7 1 1", "7 1 2", "7 2 1", "7 2 2", "7 2 3", "7 2 4",
    "7 2 5", "7 2 6", "7 2 7", "ticks", "3 1", "3 2", "3 3", "bytes 1", "bytes 2", "bytes 3",
];

/// How often each form of a line was seen, and how many recordings had no line.
pub struct Lines {
    forms: BTreeMap<String, usize>,
    without: usize,
}

impl Lines {
    pub fn new() -> Lines {
        Lines {
            forms: BTreeMap::new(),
            without: 0,
        }
    }

    pub fn count(&mut self, lines: &str) {
        self.without += usize::from(lines.is_empty());
        for line in lines.lines() {
            let form = match line.split_once(' ') {
                Some(("ticks", _)) => "ticks",
                Some(("bytes", _)) | None => line,
                Some((_, rest)) => rest,
            };
            *self.forms.entry(form.to_string()).or_default() += 1;
        }
    }

    /// Prints the counts; false if one of these forms never came.
    pub fn summary(&self, who: &str, forms: &[&str]) -> bool {
        println!("{who}: {} lines", self.forms.values().sum::<usize>());
        println!("{who}: by form {:?}, no line {}", self.forms, self.without);
        forms.iter().all(|form| self.forms.contains_key(*form))
    }
}
