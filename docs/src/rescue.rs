//! The rescue of a damaged recording: read from request M-109 and from the build specification's packet
//! sizes and checks.

use crate::screening::{screened, whole_packet};
use crate::{words_of, BAD_DATA, CUT, SENT};

#[cfg(test)]
#[path = "rescue_tests.rs"]
mod tests;

// The answers to a file that is no recording.
pub const WRONG_MARK: u32 = 19;
pub const WRONG_VERSION: u32 = 20;

const MARK: [u8; 3] = *b"UPK";
const VERSION: [u8; 2] = [0, 1];

/// What every recording begins with.
pub const HEADER: [u8; 5] = *b"UPK\0\x01";

/// What a file gives: the lines, and the clean recording unless the file is no recording.
#[derive(Debug, PartialEq, Eq)]
pub struct Rescued {
    pub lines: String,
    pub clean: Option<Vec<u8>>,
}

pub fn rescue(file: &[u8]) -> Rescued {
    match behind_header(file) {
        Ok(bytes) => rescue_words(bytes),
        Err(answer) => Rescued {
            lines: format!("{answer}\n"),
            clean: None,
        },
    }
}

/// The bytes of the words; or what is wrong with the header, and of that the mark first.
fn behind_header(file: &[u8]) -> Result<&[u8], u32> {
    let behind_mark = file.strip_prefix(&MARK).ok_or(WRONG_MARK)?;
    behind_mark.strip_prefix(&VERSION).ok_or(WRONG_VERSION)
}

fn rescue_words(bytes: &[u8]) -> Rescued {
    let words = words_of(bytes);
    let mut lines = String::new();
    let mut clean = HEADER.to_vec();
    let (mut place, mut last_stamp) = (0, None);
    while let Some(packet) = whole_packet(&words[place..]) {
        match refusal_line(place, packet) {
            Some(line) => lines += &line,
            None => clean.extend(packet.iter().flat_map(|word| word.to_be_bytes())),
        }
        if let Some(stamp) = jr_timestamp(packet) {
            lines += &ticks_line(last_stamp.replace(stamp), stamp);
        }
        place += packet.len();
    }
    if place < words.len() {
        lines += &format!("{place} {CUT} {}\n", words.len() - place);
    }
    match bytes.len() % 4 {
        0 => (),
        left_over => lines += &format!("bytes {left_over}\n"),
    }
    let clean = Some(clean);
    Rescued { lines, clean }
}

/// The line of a packet that is dropped, or none of one that is kept.
fn refusal_line(place: usize, packet: &[u32]) -> Option<String> {
    let (refusal, count) = (screened(packet), packet.len());
    match refusal.answer {
        SENT => None,
        BAD_DATA => Some(format!("{place} {BAD_DATA} {count} {}\n", refusal.place)),
        answer => Some(format!("{place} {answer} {count}\n")),
    }
}

fn jr_timestamp(packet: &[u32]) -> Option<u16> {
    (packet[0] & 0xF0F0_0000 == 0x0020_0000).then_some(packet[0] as u16)
}

/// Nothing is said of the first stamp, since none stands before it.
fn ticks_line(earlier: Option<u16>, later: u16) -> String {
    match earlier {
        Some(earlier) => format!("ticks {}\n", later.wrapping_sub(earlier)),
        None => String::new(),
    }
}
