//! Packets of types 1, 2 and 3 in one group as bytes for a MIDI 1.0 cable. Every status byte is
//! written.

use super::{END_OF_EXCLUSIVE, START_OF_EXCLUSIVE};
use crate::{
    bad_data, check_two_words, refused, send, size, stopped, Done, ABOVE_15, BAD_DATA, BAD_STATUS,
    COMPLETE, CUT, END, OUTPUT_SHORT, RESERVED_TYPE, SENT, START, TAKEN_IN,
};

// Export has this one between 4 and 6, and 24 before all others.
pub const NOT_FOR_CABLE: u32 = 25;

/// Turns the packet at the start of the words into bytes for a cable, if it is of the chosen group.
#[inline(always)]
pub fn export(group: u8, words: &[u32], out: &mut [u8]) -> Done {
    if group > 15 {
        return stopped(ABOVE_15);
    }
    export_packet(group, words, out)
}

/// Turns packet after packet into bytes for a cable.
pub fn run_export(group: u8, words: &[u32], out: &mut [u8]) -> Done {
    if group > 15 {
        return stopped(ABOVE_15);
    }
    let mut total = stopped(SENT);
    while total.read < words.len() {
        let one = export_packet(group, &words[total.read..], &mut out[total.written..]);
        total.read += one.read;
        total.written += one.written;
        if let CUT | OUTPUT_SHORT = one.answer {
            total.answer = one.answer;
            break;
        }
    }
    total
}

#[inline(always)]
fn export_packet(group: u8, words: &[u32], out: &mut [u8]) -> Done {
    let is = |word: u32, message_type: u8| word >> 24 == u32::from(message_type << 4 | group);
    match *words {
        [word, ..] if is(word, 2) => export_voice(word, out),
        [word, ..] if is(word, 1) => export_system(word, out),
        [first, second, ..] if is(first, 3) => export_exclusive(first, second, out),
        [word, ..] if size(word) <= words.len() => not_for_cable(word),
        _ => stopped(CUT),
    }
}

/// The answer for a packet of another type or of another group.
fn not_for_cable(first: u32) -> Done {
    let answer = match first >> 28 {
        0x6..=0xC | 0xE => RESERVED_TYPE,
        _ => NOT_FOR_CABLE,
    };
    refused(answer, size(first))
}

#[inline(always)]
fn export_voice(word: u32, out: &mut [u8]) -> Done {
    let [_, status, a, b] = word.to_be_bytes();
    match status {
        0x80..=0xBF | 0xE0..=0xEF => match word & 0x8080 {
            0 => send(1, [status, a, b], out),
            _ => bad_data(&[word]),
        },
        0xC0..=0xDF => match word & 0x8000 {
            0 => send(1, [status, a], out),
            _ => bad_data(&[word]),
        },
        _ => refused(BAD_STATUS, 1),
    }
}

#[inline(always)]
fn export_system(word: u32, out: &mut [u8]) -> Done {
    let [_, status, a, b] = word.to_be_bytes();
    match status {
        0xF6 | 0xF8 | 0xFA | 0xFB | 0xFC | 0xFE | 0xFF => send(1, [status], out),
        0xF1 | 0xF3 => match word & 0x8000 {
            0 => send(1, [status, a], out),
            _ => bad_data(&[word]),
        },
        0xF2 => match word & 0x8080 {
            0 => send(1, [status, a, b], out),
            _ => bad_data(&[word]),
        },
        _ => refused(BAD_STATUS, 1),
    }
}

#[inline(always)]
fn export_exclusive(first: u32, second: u32, out: &mut [u8]) -> Done {
    match check_two_words(first, second) {
        SENT => (),
        BAD_DATA => return bad_data(&[first, second]),
        answer => return refused(answer, 2),
    }
    let (bytes, length) = exclusive_bytes(first, second);
    let Some(place) = out.get_mut(..length) else {
        return stopped(OUTPUT_SHORT);
    };
    place.copy_from_slice(&bytes[..length]);
    Done {
        answer: if length == 0 { TAKEN_IN } else { SENT },
        place: 0,
        read: 2,
        written: length,
    }
}

/// The bytes of a good packet of an exclusive, eight at most, and how many they are.
#[inline(always)]
fn exclusive_bytes(first: u32, second: u32) -> ([u8; 8], usize) {
    let (status, count) = (first >> 20 & 15, first >> 16 & 15);
    let payload = u64::from(first & 0xFFFF) << 48 | u64::from(second) << 16;
    let (mut bytes, mut length) = (payload & !(u64::MAX >> (8 * count)), count);
    if let COMPLETE | START = status {
        bytes = u64::from(START_OF_EXCLUSIVE) << 56 | bytes >> 8;
        length += 1;
    }
    if let COMPLETE | END = status {
        bytes |= u64::from(END_OF_EXCLUSIVE) << 56 >> (8 * length);
        length += 1;
    }
    (bytes.to_be_bytes(), length as usize)
}
