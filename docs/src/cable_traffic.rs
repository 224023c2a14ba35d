//! The recipes of what is timed on a cable, which follow from the seeds here.
//!
//! The bytes that come in are those of a keyboard and its librarian. Nine things of ten are one to
//! eight voice messages under one status byte, one in fifty is a message of the system, and the rest
//! are exclusives of up to 200 bytes. Before one byte in twelve stands a clock, in an exclusive too.
//! One thing in fifty lacks its last byte, so that a message is dropped or an exclusive cut off.
//!
//! Of a hundred things that go out 80 are voices, 11 are messages of the system, four are exclusives
//! of such lengths, and five are packets of any type. One packet in ten is of another group, and one
//! in fifty has a flipped bit.

use crate::packets::{packet, Dice};
use crate::traffic::end_at;
use reading::{
    cable_idle, export, import, size, BAD_DATA, BAD_STATUS, COMPLETE, CONTINUE, CUT_OFF, DROPPED,
    END, NOT_FOR_CABLE, RESERVED_TYPE, SENT, START, TAKEN_IN,
};

/// The group of the cable.
pub const GROUP: u8 = 5;

const CLOCK: u8 = 0xF8;

/// Lengths of exclusives; most are not a number of full packets.
const LENGTHS: [usize; 10] = [0, 1, 4, 6, 7, 12, 20, 45, 100, 200];

/// Statuses of voices, which are followed by two data bytes or by one.
const VOICES: [(u8, usize); 9] = [
    (0x80, 2),
    (0x90, 2),
    (0x90, 2),
    (0x90, 2),
    (0xA0, 2),
    (0xB0, 2),
    (0xC0, 1),
    (0xD0, 1),
    (0xE0, 2),
];

const COMMON: [(u8, usize); 4] = [(0xF1, 1), (0xF2, 2), (0xF3, 1), (0xF6, 0)];

fn push_data(dice: &mut Dice, count: usize, bytes: &mut Vec<u8>) {
    bytes.extend((0..count).map(|_| dice.below(128) as u8));
}

/// Voices, a message of the system or an exclusive.
fn push_thing(dice: &mut Dice, bytes: &mut Vec<u8>) {
    match dice.below(50) {
        0 => {
            let (status, count) = dice.pick(&COMMON);
            bytes.push(status);
            push_data(dice, count, bytes);
        }
        1..=4 => {
            bytes.push(0xF0);
            let length = dice.pick(&LENGTHS);
            push_data(dice, length, bytes);
            bytes.push(0xF7);
        }
        _ => {
            let (status, count) = dice.pick(&VOICES);
            bytes.push(status | dice.below(16) as u8);
            let messages = 1 + dice.below(8);
            push_data(dice, messages * count, bytes);
        }
    }
}

/// So many bytes of a cable.
pub fn bytes(length: usize) -> Vec<u8> {
    let mut dice = Dice::new(400);
    let mut bytes = vec![];
    while bytes.len() < length {
        let mut thing = vec![];
        push_thing(&mut dice, &mut thing);
        if dice.one_in(50) {
            thing.pop();
        }
        for byte in thing {
            if dice.one_in(12) {
                bytes.push(CLOCK);
            }
            bytes.push(byte);
        }
    }
    bytes.truncate(length);
    bytes
}

/// The form of a packet of a message, by its number and how many there are.
pub fn form(number: usize, count: usize) -> u32 {
    match (number, number + 1 == count) {
        (0, true) => COMPLETE,
        (0, false) => START,
        (_, false) => CONTINUE,
        (_, true) => END,
    }
}

/// The packets of an exclusive: a complete one, or a start, full ones and an end.
pub fn exclusive(dice: &mut Dice) -> Vec<[u32; 4]> {
    let length = dice.pick(&LENGTHS);
    let mut data = vec![];
    push_data(dice, length, &mut data);
    let count = length.div_ceil(6).max(1);
    let mut packets = vec![];
    for number in 0..count {
        let form = form(number, count);
        let held = &data[6 * number..length.min(6 * number + 6)];
        let mut payload = [0; 8];
        payload[2..2 + held.len()].copy_from_slice(held);
        let payload = u64::from_be_bytes(payload);
        let head = 0x3000_0000 | form << 20 | (held.len() as u32) << 16;
        packets.push([head | (payload >> 32) as u32, payload as u32, 0, 0]);
    }
    packets
}

/// So many words of packets, most of them for the cable.
pub fn packets(length: usize) -> Vec<u32> {
    let mut dice = Dice::new(500);
    let mut words = vec![];
    while words.len() < length {
        let any_type = dice.below(16) as u32;
        let packets = match dice.below(100) {
            0..=79 => vec![packet(&mut dice, 2)],
            80..=90 => vec![packet(&mut dice, 1)],
            91..=94 => exclusive(&mut dice),
            _ => vec![packet(&mut dice, any_type)],
        };
        for mut packet in packets {
            if !dice.one_in(10) {
                packet[0] = packet[0] & 0xF0FF_FFFF | u32::from(GROUP) << 24;
            }
            if dice.one_in(50) {
                packet[0] ^= 1 << dice.below(24);
            }
            words.extend(&packet[..size(packet[0])]);
        }
    }
    end_at(length, words, 0)
}

/// Fails unless the bytes meet everything that a byte can do.
pub fn check_bytes(bytes: &[u8]) {
    let (mut cable, mut place, mut answers) = (cable_idle(), 0, [0; 13]);
    while place < bytes.len() {
        let one = import(cable, GROUP, &bytes[place..], &mut [0; 2]);
        place += one.read;
        cable = one.after;
        answers[one.answer as usize] += 1;
    }
    let all = [SENT, TAKEN_IN, DROPPED, CUT_OFF];
    assert!(all.iter().all(|answer| answers[*answer as usize] > 0));
}

/// Fails unless the words meet everything that a packet can do, but for one without bytes.
pub fn check_packets(words: &[u32]) {
    let (mut place, mut answers) = (0, [0; 26]);
    while place < words.len() {
        let done = export(GROUP, &words[place..], &mut [0; 8]);
        place += done.read;
        answers[done.answer as usize] += 1;
    }
    let all = [SENT, RESERVED_TYPE, BAD_STATUS, BAD_DATA, NOT_FOR_CABLE];
    assert!(all.iter().all(|answer| answers[*answer as usize] > 0));
}
