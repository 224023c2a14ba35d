//! Bytes of a MIDI 1.0 cable, whole messages and damaged ones, and packets for one group, from a
//! fixed recipe.

use crate::packets::Dice;
use reading::size;

const REAL_TIME: [u8; 6] = [0xF8, 0xFA, 0xFB, 0xFC, 0xFE, 0xFF];

/// What is dropped where nothing is open: undefined bytes, an end without a start, and data.
const STRAYS: [u8; 7] = [0xF4, 0xF5, 0xF7, 0xF9, 0xFD, 0x00, 0x7F];

/// Lengths of exclusives, most of them beside a full packet.
const LENGTHS: [usize; 10] = [0, 1, 5, 6, 7, 11, 12, 13, 18, 19];

fn data(dice: &mut Dice) -> u8 {
    let any = dice.below(128) as u8;
    dice.pick(&[0, 1, 64, 127, any, any, any, any])
}

fn push_data(dice: &mut Dice, count: usize, bytes: &mut Vec<u8>) {
    for _ in 0..count {
        bytes.push(data(dice));
    }
}

/// A voice message, one in four of them without its last data byte.
fn push_voice(dice: &mut Dice, bytes: &mut Vec<u8>) {
    let status = 0x80 + dice.below(0x70) as u8;
    let count = if let 0xC0..=0xDF = status { 1 } else { 2 };
    bytes.push(status);
    let cut = usize::from(dice.one_in(4));
    push_data(dice, count - cut, bytes);
}

fn push_common(dice: &mut Dice, bytes: &mut Vec<u8>) {
    let (status, count) = dice.pick(&[(0xF1, 1), (0xF2, 2), (0xF3, 1), (0xF6, 0)]);
    bytes.push(status);
    let cut = usize::from(count > 0 && dice.one_in(4));
    push_data(dice, count - cut, bytes);
}

/// An exclusive, one in four of them without its end.
fn push_exclusive(dice: &mut Dice, bytes: &mut Vec<u8>) {
    let any = dice.below(40);
    let length = match dice.below(3) {
        0 => any,
        _ => dice.pick(&LENGTHS),
    };
    bytes.push(0xF0);
    push_data(dice, length, bytes);
    if !dice.one_in(4) {
        bytes.push(0xF7);
    }
}

/// One more message, or something that is none; in some of them stands a real time byte.
pub fn push_message(dice: &mut Dice, bytes: &mut Vec<u8>) {
    let start = bytes.len();
    match dice.below(16) {
        0..=5 => push_voice(dice, bytes),
        // Messages of whatever voice came last, or data of nothing.
        6..=9 => {
            let count = 1 + dice.below(6);
            push_data(dice, count, bytes);
        }
        10 | 11 => push_common(dice, bytes),
        12 | 13 => push_exclusive(dice, bytes),
        14 => bytes.push(dice.pick(&STRAYS)),
        _ => bytes.push(dice.word() as u8),
    }
    if dice.one_in(6) {
        let place = start + dice.below(bytes.len() - start + 1);
        let byte = dice.pick(&REAL_TIME);
        bytes.insert(place, byte);
    }
}

/// Gives most packets of a stream a group.
pub fn regroup(dice: &mut Dice, group: u8, words: &mut [u32]) {
    let mut place = 0;
    while let Some(first) = words.get_mut(place) {
        if !dice.one_in(8) {
            *first = *first & 0xF0FF_FFFF | u32::from(group & 15) << 24;
        }
        place += size(*first);
    }
}

/// Bytes in which every two values stand side by side once, the last and the first again to close
/// the circle.
pub fn every_pair() -> Vec<u8> {
    let mut bytes = vec![];
    for first in 0..=255 {
        bytes.push(first);
        for second in (0..=255).skip(usize::from(first) + 1) {
            bytes.extend([first, second]);
        }
    }
    bytes.push(0);
    bytes
}
