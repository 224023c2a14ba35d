//! The two recipes of the words that are timed, which follow from the seeds here.
//!
//! The random mix is the traffic of many keyboards at once. Two packets of three are MIDI 1.0
//! voices: of 13 on average three are notes, six are control changes, and one each is poly pressure,
//! a program change, channel pressure and the bend. Of the control changes more than three in four
//! are about banks, addresses and data. Three voices of four keep to four channels, the others are
//! on any of the 256. The third packet is of any of the 16 types, so utility and system messages,
//! exclusives, text and data are there as well as reserved types and MIDI 2.0 voices. One packet in
//! twenty has a flipped bit below its group, so that some are refused for their status or their
//! data.
//!
//! The played music is that of eight players in one group. Of a hundred things that they do 77 are
//! chords of one to three notes with values from a wide range, some with a sweep in between, 15 are
//! sweeps of a controller, the bend or the pressure by small steps, seven are timing clocks, and one
//! is a new sound: a bank, a program and the range of the bend.
//!
//! What goes down is what runs up send of these words. In the mix one packet in three is another one:
//! half of those are MIDI 2.0 voices of any status, the others are of any type, and one in twenty has
//! a flipped bit.

use crate::packets::{packet, Dice};
use reading::{down, empty, run_up, size, NO_MIDI_1_FORM, SENT, TAKEN_IN};

/// A recipe: its name, and what makes so many words by it.
pub type Recipe = (&'static str, fn(usize) -> Vec<u32>);

pub const RECIPES: [Recipe; 2] = [("random mix", random_mix), ("played music", played_music)];

/// What goes down.
pub const RECIPES_DOWN: [Recipe; 2] = [("random mix", mix_down), ("played music", music_down)];

/// Packets of all sorts, some of them refused.
fn random_mix(length: usize) -> Vec<u32> {
    let mut dice = Dice::new(100);
    let mut words = vec![];
    while words.len() + 4 <= length {
        let message_type = match dice.below(3) {
            0 => dice.below(16) as u32,
            _ => 2,
        };
        let mut packet = packet(&mut dice, message_type);
        if dice.one_in(20) {
            packet[0] ^= 1 << dice.below(24);
        }
        words.extend(&packet[..size(packet[0])]);
    }
    words.resize(length, 0);
    words
}

/// Eight players in one group: notes and sweeps of controllers and bend, now and then a new sound.
fn played_music(length: usize) -> Vec<u32> {
    let mut dice = Dice::new(200);
    let mut words = vec![];
    while words.len() + 64 <= length {
        let channel = (dice.below(8) as u32) << 16;
        match dice.below(100) {
            0 => new_sound(&mut dice, channel, &mut words),
            1..=15 => sweep(&mut dice, channel, &mut words),
            16..=22 => words.push(0x10F8_0000),
            _ => chord(&mut dice, channel, &mut words),
        }
    }
    words.resize(length, 0x10F8_0000);
    words
}

/// Notes that begin and end together; half of the players end theirs by a silent Note On.
fn chord(dice: &mut Dice, channel: u32, words: &mut Vec<u32>) {
    let notes = [0; 3].map(|_: u32| (36 + dice.below(60) as u32) << 8);
    let notes = &notes[..1 + dice.below(3)];
    for note in notes {
        words.push(0x2090_0000 | channel | note | 1 + dice.below(127) as u32);
    }
    if dice.one_in(4) {
        sweep(dice, channel, words);
    }
    let off = if channel & 0x1_0000 == 0 {
        0x2090_0000
    } else {
        0x2080_0040
    };
    words.extend(notes.iter().map(|note| off | channel | note));
}

/// A controller, the bend or the pressure moved by small steps.
fn sweep(dice: &mut Dice, channel: u32, words: &mut Vec<u32>) {
    let head = dice.pick(&[
        0x20B0_0100,
        0x20B0_0700,
        0x20B0_0B00,
        0x20B0_4000,
        0x20E0_0000,
        0x20D0_0000,
    ]);
    let mut value = dice.below(100) as u32;
    for _ in 0..4 + dice.below(8) {
        let place = if head == 0x20D0_0000 {
            value << 8
        } else {
            value
        };
        words.push(head | channel | place);
        value = (value + dice.below(5) as u32).min(127);
    }
}

/// Bank, program, and the range of the bend as a registered controller.
fn new_sound(dice: &mut Dice, channel: u32, words: &mut Vec<u32>) {
    let program = (dice.below(128) as u32) << 8;
    words.extend([0x20B0_0000, 0x20B0_2001, 0x20C0_0000 | program].map(|word| word | channel));
    words.extend([0x20B0_6500, 0x20B0_6400, 0x20B0_0602, 0x20B0_2600].map(|word| word | channel));
}

/// What a run up over these words sends.
fn sent_up(words: &[u32]) -> Vec<u32> {
    let mut out = vec![0; 2 * words.len()];
    let done = run_up(words, &mut [empty(); 256], &mut out);
    out.truncate(done.written);
    out
}

/// What is sent of the random mix, and among it packets of all sorts.
fn mix_down(length: usize) -> Vec<u32> {
    let mut dice = Dice::new(300);
    let (sent, mut place) = (sent_up(&random_mix(length)), 0);
    let mut words = vec![];
    while words.len() + 4 <= length {
        if dice.one_in(3) {
            let any_type = dice.below(16) as u32;
            let message_type = dice.pick(&[4, any_type]);
            let mut packet = packet(&mut dice, message_type);
            if dice.one_in(20) {
                packet[0] ^= 1 << dice.below(24);
            }
            words.extend(&packet[..size(packet[0])]);
        } else {
            let end = place + size(sent[place]);
            words.extend(&sent[place..end]);
            place = end;
        }
    }
    words.resize(length, 0);
    words
}

/// What is sent of the played music.
fn music_down(length: usize) -> Vec<u32> {
    end_at(length, sent_up(&played_music(length)), 0x10F8_0000)
}

/// So many words of these, with packets of one word behind the last packet that ends by then.
pub fn end_at(length: usize, mut words: Vec<u32>, filler: u32) -> Vec<u32> {
    let mut end = 0;
    while let Some(first) = words.get(end).filter(|first| end + size(**first) <= length) {
        end += size(*first);
    }
    words.truncate(end);
    words.resize(length, filler);
    words
}

/// Fails unless the words have what the head of this file says of the random mix: packets of every
/// type, good voices of every status and with every controller, data entries and banks that are
/// sent, and every refusal that does not stop a run.
pub fn check_mix(words: &[u32]) {
    let (mut types, mut statuses, mut controllers) = ([0; 16], [0; 16], [0; 128]);
    let (mut answers, mut entries, mut banks) = ([0; 11], [0; 2], 0);
    let (mut place, mut table) = (0, [empty(); 256]);
    while place < words.len() {
        let (word, mut out) = (words[place], [0; 4]);
        let done = reading::up(&words[place..], &mut table, &mut out);
        place += done.read;
        types[(word >> 28) as usize] += 1;
        answers[done.answer as usize] += 1;
        if let (2, SENT | TAKEN_IN) = (word >> 28, done.answer) {
            let status = word >> 20 & 15;
            statuses[status as usize] += 1;
            if status == 0xB {
                controllers[(word >> 8 & 127) as usize] += 1;
            }
            match out[0] >> 20 {
                0x402 => entries[0] += 1,
                0x403 => entries[1] += 1,
                0x40C => banks += out[0] & 1,
                _ => (),
            }
        }
    }
    assert!(types.iter().chain(&controllers).all(|count| *count > 0));
    assert!(statuses[0x8..0xF]
        .iter()
        .chain(&entries)
        .all(|count| *count > 0));
    assert!([0, 1, 4, 5, 6, 7].iter().all(|answer| answers[*answer] > 0));
    assert!(banks > 0);
}

/// Fails unless the words have packets of every type, good MIDI 2.0 voices of every status that there
/// is, and every refusal that does not stop a run.
pub fn check_mix_down(words: &[u32]) {
    let (mut types, mut statuses, mut answers) = ([0; 16], [0; 16], [0; 10]);
    let mut place = 0;
    while place < words.len() {
        let (word, done) = (words[place], down(&words[place..], &mut [0; 4]));
        place += done.read;
        types[(word >> 28) as usize] += 1;
        answers[done.answer as usize] += 1;
        if let (4, SENT | NO_MIDI_1_FORM) = (word >> 28, done.answer) {
            statuses[(word >> 20 & 15) as usize] += 1;
        }
    }
    assert!(types.iter().all(|count| *count > 0));
    assert!((0..16).all(|status| (statuses[status] > 0) == (status != 7)));
    assert!([0, 2, 4, 5, 6, 7].iter().all(|answer| answers[*answer] > 0));
}
