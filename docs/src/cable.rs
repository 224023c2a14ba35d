//! The five-pin sockets: bytes of a MIDI 1.0 cable become packets of types 1, 2 and 3 in one group,
//! and such packets become bytes again. Read from request M-100, from the build specification's
//! rules for cable bytes and from its layouts.

#[path = "cable_out.rs"]
mod out;
#[path = "cable_run.rs"]
mod run;

#[cfg(test)]
#[path = "cable_tests.rs"]
mod tests;

pub use out::{export, run_export, NOT_FOR_CABLE};
pub use run::run_import;

use crate::{
    decimal, words_of, ABOVE_15, COMPLETE, CONTINUE, CUT, END, NOT_SOUND, OUTPUT_SHORT, SENT,
    START, TAKEN_IN,
};

// Import has these two, and 0, 1, 3, 8, 9 and 24.
pub const DROPPED: u32 = 11;
pub const CUT_OFF: u32 = 12;

const START_OF_EXCLUSIVE: u8 = 0xF0;
const END_OF_EXCLUSIVE: u8 = 0xF7;

/// What is remembered of a cable between two bytes.
/// `running` is the status byte of the last channel voice message while data bytes alone may repeat
/// it, and otherwise 0. `status` is that of the message in hand, 0 where none is open, and `held`
/// has the `count` data bytes that came of it and were not sent. `begun` is 1 in an exclusive of
/// which a packet was sent already.
#[repr(C)]
#[derive(Clone, Copy, Debug, PartialEq, Eq)]
pub struct Cable {
    pub running: u8,
    pub status: u8,
    pub begun: u8,
    pub count: u8,
    pub held: [u8; 6],
}

/// The answer of an import, the bytes it read, the words it wrote, and the cable after it.
#[repr(C)]
#[derive(Clone, Copy, Debug, PartialEq, Eq)]
pub struct Imported {
    pub answer: u32,
    pub read: usize,
    pub written: usize,
    pub after: Cable,
}

/// The words that one byte sends, of which the first `size` count.
#[derive(Clone, Copy)]
struct Packet {
    words: [u32; 2],
    size: usize,
}

/// What a byte does to a sound cable, if there is room for its packet.
struct Step {
    answer: u32,
    read: usize,
    packet: Packet,
    after: Cable,
}

const NO_PACKET: Packet = Packet {
    words: [0; 2],
    size: 0,
};

/// A cable on which nothing was heard yet.
pub fn cable_idle() -> Cable {
    idle_after(0)
}

/// Nothing is open, and data bytes belong to this status, if to any.
fn idle_after(running: u8) -> Cable {
    Cable {
        running,
        status: 0,
        begun: 0,
        count: 0,
        held: [0; 6],
    }
}

fn is_voice(status: u8) -> bool {
    (0x80..=0xEF).contains(&status)
}

/// How many data bytes a message with this status byte has, exclusives aside.
fn data_bytes(status: u8) -> usize {
    match status {
        0x80..=0xBF | 0xE0..=0xEF | 0xF2 => 2,
        0xC0..=0xDF | 0xF1 | 0xF3 => 1,
        _ => 0,
    }
}

impl Cable {
    fn is_exclusive(&self) -> bool {
        self.status == START_OF_EXCLUSIVE
    }

    /// Whether the numbers of the cable fit together.
    pub fn sound(&self) -> bool {
        let count = usize::from(self.count);
        let open = match self.status {
            0 => count == 0 && self.begun == 0,
            START_OF_EXCLUSIVE => {
                self.running == 0 && count <= 6 && self.begun <= 1 && self.begun <= self.count
            }
            status => {
                count < data_bytes(status)
                    && self.begun == 0
                    && (self.running == 0 || self.running == status)
            }
        };
        let runs = self.running == 0 || is_voice(self.running);
        open && runs && self.held_well()
    }

    /// Whether the bytes held are data bytes, and the places behind them are 0, for six at most.
    fn held_well(&self) -> bool {
        let [a, b, c, d, e, f] = self.held;
        let (first, last) = (u32::from_le_bytes([a, b, c, d]), u16::from_le_bytes([e, f]));
        let held = u64::from(first) | u64::from(last) << 32;
        held & 0x8080_8080_8080 == 0 && held >> (8 * self.count) == 0
    }

    fn holding(mut self, byte: u8) -> Cable {
        self.held[usize::from(self.count)] = byte;
        self.count += 1;
        self
    }

    /// The packet of an exclusive's held bytes.
    fn exclusive_packet(&self, group: u8, status: u32) -> Packet {
        let [a, b, c, d, e, f] = self.held;
        let head = [0x30 | group, (status << 4) as u8 | self.count, a, b];
        Packet {
            words: [u32::from_be_bytes(head), u32::from_be_bytes([c, d, e, f])],
            size: 2,
        }
    }

    /// An exclusive's last packet, which is also its first if none was sent before.
    fn closing_packet(&self, group: u8) -> Packet {
        let status = if self.begun == 0 { COMPLETE } else { END };
        self.exclusive_packet(group, status)
    }

    fn step(self, group: u8, byte: u8) -> Step {
        match byte {
            0xF9 | 0xFD => read(DROPPED, NO_PACKET, self),
            0xF8..=0xFF => read(SENT, message(group, byte, [0; 6]), self),
            0x80..=0xF7 if self.is_exclusive() => self.close(group, byte),
            0x80..=0xF7 if self.status != 0 => Step {
                answer: DROPPED,
                read: 0,
                packet: NO_PACKET,
                after: idle_after(self.running),
            },
            0x80..=0xF7 => begin(group, byte),
            _ if self.is_exclusive() => self.lengthen(group, byte),
            _ => self.fill(group, byte),
        }
    }

    /// A status byte ends the exclusive. Only its own end is read here.
    fn close(self, group: u8, byte: u8) -> Step {
        let (answer, read) = match byte {
            END_OF_EXCLUSIVE => (SENT, 1),
            _ => (CUT_OFF, 0),
        };
        Step {
            answer,
            read,
            packet: self.closing_packet(group),
            after: idle_after(0),
        }
    }

    /// A data byte of an exclusive. Six bytes wait for it, since it shows that they are not the last.
    fn lengthen(self, group: u8, byte: u8) -> Step {
        if self.count < 6 {
            return read(TAKEN_IN, NO_PACKET, self.holding(byte));
        }
        let status = if self.begun == 0 { START } else { CONTINUE };
        let after = Cable {
            begun: 1,
            count: 0,
            held: [0; 6],
            ..self
        };
        let packet = self.exclusive_packet(group, status);
        read(SENT, packet, after.holding(byte))
    }

    /// A data byte of the open message, or of another one under running status.
    fn fill(self, group: u8, byte: u8) -> Step {
        let status = if self.status == 0 {
            self.running
        } else {
            self.status
        };
        if status == 0 {
            return read(DROPPED, NO_PACKET, self);
        }
        let after = Cable { status, ..self }.holding(byte);
        if usize::from(after.count) < data_bytes(status) {
            return read(TAKEN_IN, NO_PACKET, after);
        }
        let running = if is_voice(status) { status } else { 0 };
        read(
            SENT,
            message(group, status, after.held),
            idle_after(running),
        )
    }
}

fn read(answer: u32, packet: Packet, after: Cable) -> Step {
    Step {
        answer,
        read: 1,
        packet,
        after,
    }
}

/// The packet of a message that is no exclusive; data bytes that it has not are 0.
fn message(group: u8, status: u8, [first, second, ..]: [u8; 6]) -> Packet {
    let message_type = if is_voice(status) { 0x20 } else { 0x10 };
    let word = u32::from_be_bytes([message_type | group, status, first, second]);
    Packet {
        words: [word, 0],
        size: 1,
    }
}

/// A status byte below F8 where nothing is open. None of them leaves the running status as it was.
fn begin(group: u8, byte: u8) -> Step {
    let open = Cable {
        status: byte,
        ..idle_after(0)
    };
    match byte {
        0xF4 | 0xF5 | END_OF_EXCLUSIVE => read(DROPPED, NO_PACKET, idle_after(0)),
        0xF6 => read(SENT, message(group, byte, [0; 6]), idle_after(0)),
        _ => read(TAKEN_IN, NO_PACKET, open),
    }
}

fn not_imported(answer: u32, cable: Cable) -> Imported {
    Imported {
        answer,
        read: 0,
        written: 0,
        after: cable,
    }
}

/// Takes the byte at the start of these bytes from a cable.
#[inline(always)]
pub fn import(cable: Cable, group: u8, bytes: &[u8], out: &mut [u32]) -> Imported {
    if group > 15 {
        return not_imported(ABOVE_15, cable);
    }
    if !cable.sound() {
        return not_imported(NOT_SOUND, cable);
    }
    let Some(byte) = bytes.first() else {
        return not_imported(CUT, cable);
    };
    let step = cable.step(group, *byte);
    let Packet { words, size } = step.packet;
    match (size, out) {
        (0, _) => (),
        (1, [place, ..]) => *place = words[0],
        (2, [first, second, ..]) => [*first, *second] = words,
        _ => return not_imported(OUTPUT_SHORT, cable),
    }
    Imported {
        answer: step.answer,
        read: step.read,
        written: size,
        after: step.after,
    }
}

/// The group that the arguments of a program choose. There is none if they are not one group at most.
fn chosen_group(arguments: &[&str]) -> Option<u8> {
    match arguments {
        [] => Some(0),
        [group] => decimal(group).filter(|group| *group <= 15),
        _ => None,
    }
}

/// The standard output of the importing program for this standard input.
pub fn import_filter(bytes: &[u8], arguments: &[&str]) -> Option<Vec<u8>> {
    let group = chosen_group(arguments)?;
    // A packet has two words at most, and a byte or more that belong to no other.
    let mut out = vec![0; 2 * bytes.len()];
    let done = run_import(cable_idle(), group, bytes, &mut out);
    let sent = out[..done.written].iter();
    Some(sent.flat_map(|word| word.to_be_bytes()).collect())
}

/// The standard output of the exporting program for this standard input.
pub fn export_filter(bytes: &[u8], arguments: &[&str]) -> Option<Vec<u8>> {
    let group = chosen_group(arguments)?;
    let words = words_of(bytes);
    // Two words become eight bytes at most, and one word three.
    let mut out = vec![0; 4 * words.len()];
    let done = run_export(group, &words, &mut out);
    out.truncate(done.written);
    Some(out)
}
