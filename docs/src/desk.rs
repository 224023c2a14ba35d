//! The tuning desk: read from request M-110, from the layouts of MIDI 2.0 voices in the build
//! specification, and from M2-104-UM 1.1.1, section 7.4.15.
//! Every pitch is a whole number here, of hundred-cent units times 2 to the 31, so none is rounded.

use crate::screening::{screened, whole_packet};
use crate::{decimal, words_of, BAD_DATA, SENT};
use std::collections::BTreeMap;

#[cfg(test)]
#[path = "desk_tests.rs"]
mod tests;

// The refusals of the question.
pub const BAD_RANGE: u32 = 21;
pub const NOT_SOUNDING: u32 = 22;

/// A channel's bend before any comes, and the bend that moves no pitch.
const CENTRE: u32 = 0x8000_0000;

/// The binary places behind the point of a pitch.
const PLACES: u32 = 31;

/// What a pitch is counted from.
#[derive(Clone, Copy, Debug, PartialEq, Eq)]
pub enum Base {
    NoteNumber,
    Pitch7_25,
    Pitch7_9,
}

#[derive(Clone, Copy, Debug, PartialEq, Eq)]
pub struct Shown {
    pub base: Base,
    pub pitch: i64,
}

/// A note that sounds may have brought its own pitch, in an attribute.
#[derive(Clone, Copy, Debug, PartialEq, Eq)]
enum Note {
    Silent,
    Sounding,
    SoundingAt(u16),
}

/// What is known of one channel of one group.
pub struct Desk {
    group: u8,
    channel: u8,
    bend: u32,
    notes: [Note; 128],
    /// The Pitch 7.25 that came last for each note number.
    pitches: [Option<u32>; 128],
}

impl Desk {
    pub fn new(group: u8, channel: u8) -> Desk {
        Desk {
            group,
            channel,
            bend: CENTRE,
            notes: [Note::Silent; 128],
            pitches: [None; 128],
        }
    }

    /// Hears a packet. One that is not sound, or not a MIDI 2.0 voice of the channel, changes nothing.
    pub fn hear(&mut self, packet: &[u32]) {
        if let ([first, second], SENT) = (packet, screened(packet).answer) {
            let [type_and_group, status_and_channel, ..] = first.to_be_bytes();
            if type_and_group == 0x40 | self.group && status_and_channel & 15 == self.channel {
                self.hear_voice(status_and_channel >> 4, *first, *second);
            }
        }
    }

    fn hear_voice(&mut self, status: u8, first: u32, second: u32) {
        let [_, _, index, last] = first.to_be_bytes();
        let note = usize::from(index);
        match (status, index, last) {
            (0x0, _, 3) => self.pitches[note] = Some(second),
            (0x8, _, _) => self.notes[note] = Note::Silent,
            (0x9, _, 3) => self.notes[note] = Note::SoundingAt(second as u16),
            (0x9, _, _) => self.notes[note] = Note::Sounding,
            (0xB, 120 | 123, _) => self.notes = [Note::Silent; 128],
            (0xE, _, _) => self.bend = second,
            _ => (),
        }
    }

    /// What is shown of a note with this range of the bend, or why nothing is.
    pub fn shown(&self, note: u8, units: u32, cents: u32) -> Result<Shown, u32> {
        let sounding = self.notes.get(usize::from(note));
        let attribute = match sounding {
            None | Some(Note::Silent) => return Err(NOT_SOUNDING),
            Some(Note::Sounding) => None,
            Some(Note::SoundingAt(pitch)) => Some(*pitch),
        };
        if cents != 0 || units > 127 {
            return Err(BAD_RANGE);
        }
        let (base, pitch) = match (attribute, self.pitches[usize::from(note)]) {
            (Some(pitch), _) => (Base::Pitch7_9, i64::from(pitch) << (PLACES - 9)),
            (None, Some(pitch)) => (Base::Pitch7_25, i64::from(pitch) << (PLACES - 25)),
            (None, None) => (Base::NoteNumber, i64::from(note) << PLACES),
        };
        let offset = i64::from(self.bend) - i64::from(CENTRE);
        let pitch = pitch + offset * i64::from(units);
        Ok(Shown { base, pitch })
    }

    /// The notes that sound, from the lowest number on.
    fn picture(&self, units: u32) -> Vec<(u8, Shown)> {
        let note = |note| Some((note, self.shown(note, units, 0).ok()?));
        (0..128).filter_map(note).collect()
    }
}

/// A pitch in digits, all of them. A fraction of n binary places ends after n decimal places, since
/// ten is twice five.
pub fn exact_decimal(pitch: i64) -> String {
    let size = pitch.unsigned_abs();
    let fraction_of = |size: u64| size & ((1 << PLACES) - 1);
    let sign = if pitch < 0 { "-" } else { "" };
    let mut text = format!("{sign}{}", size >> PLACES);
    let mut rest = fraction_of(size);
    if rest != 0 {
        text.push('.');
    }
    while rest != 0 {
        rest *= 10;
        text += &(rest >> PLACES).to_string();
        rest = fraction_of(rest);
    }
    text
}

fn line(picture: &[(u8, Shown)]) -> String {
    let mut text = picture.len().to_string();
    for (note, shown) in picture {
        let base = match shown.base {
            Base::NoteNumber => "note",
            Base::Pitch7_25 => "7.25",
            Base::Pitch7_9 => "7.9",
        };
        text += &format!(" {note} {base} {}", exact_decimal(shown.pitch));
    }
    text + "\n"
}

/// What the program writes.
#[derive(Debug, PartialEq, Eq)]
pub struct Display {
    pub stdout: String,
    pub stderr: String,
}

/// What the program writes for this standard input. There is nothing if the arguments are not a group,
/// a channel and the units of the range.
pub fn desk(bytes: &[u8], arguments: &[&str]) -> Option<Display> {
    let [group, channel, units] = arguments else {
        return None;
    };
    let (group, channel, units) = (decimal(group)?, decimal(channel)?, range(units)?);
    (group <= 15 && channel <= 15).then(|| display(bytes, Desk::new(group, channel), units))
}

/// A number of one digit to three, of at most 127.
fn range(digits: &str) -> Option<u32> {
    let is_number = digits.len() <= 3 && digits.bytes().all(|digit| digit.is_ascii_digit());
    let units = digits.parse().ok()?;
    (is_number && units <= 127).then_some(units)
}

/// One line for each packet after which another picture is shown.
fn display(bytes: &[u8], mut desk: Desk, units: u32) -> Display {
    let words = words_of(bytes);
    let mut stdout = String::new();
    let mut refused = BTreeMap::new();
    let (mut place, mut picture) = (0, vec![]);
    while let Some(packet) = whole_packet(&words[place..]) {
        let screened = screened(packet);
        if screened.answer != SENT {
            *refused
                .entry((screened.answer, screened.place))
                .or_default() += 1;
        }
        desk.hear(packet);
        let now = desk.picture(units);
        if now != picture {
            stdout += &line(&now);
        }
        picture = now;
        place += packet.len();
    }
    let stderr = notice(place, &refused, 4 * place < bytes.len());
    Display { stdout, stderr }
}

/// The line about what was refused and about a cut end, or nothing where there was neither.
fn notice(read: usize, refused: &BTreeMap<(u32, u32), usize>, cut: bool) -> String {
    if refused.is_empty() && !cut {
        return String::new();
    }
    let mut text = format!("desk: read {read} words");
    let mut before = "; refused: ";
    for ((answer, place), times) in refused {
        text += &match *answer {
            BAD_DATA => format!("{before}{answer} at {place} x{times}"),
            _ => format!("{before}{answer} x{times}"),
        };
        before = ", ";
    }
    text + if cut {
        "; cut packet at the end\n"
    } else {
        "\n"
    }
}
