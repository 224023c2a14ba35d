//! The run over the bytes of a cable, which is the calls for them one after another. It is written
//! for speed: the cable stays in registers, and two data bytes of a message are taken at once.

use super::{
    data_bytes, is_voice, not_imported, Cable, Imported, END_OF_EXCLUSIVE, START_OF_EXCLUSIVE,
};
use crate::{ABOVE_15, COMPLETE, CONTINUE, END, NOT_SOUND, OUTPUT_SHORT, SENT, START};

/// Takes byte after byte from a cable. A message that is open at the end stays in the cable.
pub fn run_import(cable: Cable, group: u8, bytes: &[u8], out: &mut [u32]) -> Imported {
    if group > 15 {
        return not_imported(ABOVE_15, cable);
    }
    if !cable.sound() {
        return not_imported(NOT_SOUND, cable);
    }
    let mut run = Run {
        line: Line::of(cable),
        group,
        bytes,
        read: 0,
        out,
        written: 0,
    };
    let end = run.go_to_the_end();
    Imported {
        answer: end.map_or(OUTPUT_SHORT, |_| SENT),
        read: run.read,
        written: run.written,
        after: run.line.cable(),
    }
}

/// A cable in a run. The held bytes are one number, of which the last is the lowest byte.
#[derive(Clone, Copy)]
struct Line {
    running: u8,
    status: u8,
    begun: u8,
    count: u8,
    held: u64,
}

/// Nothing is open, and data bytes belong to this status, if to any.
fn idle_after(running: u8) -> Line {
    Line {
        running,
        status: 0,
        begun: 0,
        count: 0,
        held: 0,
    }
}

impl Line {
    fn of(cable: Cable) -> Line {
        let [a, b, c, d, e, f] = cable.held;
        let places = u64::from_be_bytes([0, 0, a, b, c, d, e, f]);
        Line {
            running: cable.running,
            status: cable.status,
            begun: cable.begun,
            count: cable.count,
            held: places >> (8 * (6 - cable.count)),
        }
    }

    fn cable(self) -> Cable {
        let [_, _, held @ ..] = self.payload().to_be_bytes();
        Cable {
            running: self.running,
            status: self.status,
            begun: self.begun,
            count: self.count,
            held,
        }
    }

    /// The held bytes where they stand in the packet of an exclusive, and zeros behind them.
    fn payload(self) -> u64 {
        self.held << (8 * (6 - self.count))
    }

    fn holding(self, byte: u8) -> Line {
        Line {
            count: self.count + 1,
            held: self.held << 8 | u64::from(byte),
            ..self
        }
    }

    /// The packet of an exclusive's held bytes.
    fn exclusive_packet(self, group: u8, status: u32) -> [u32; 2] {
        let head = [0x30 | group, (status << 4) as u8 | self.count, 0, 0];
        let payload = self.payload();
        let first = u32::from_be_bytes(head) | (payload >> 32) as u32;
        [first, payload as u32]
    }

    /// The status that a data byte belongs to outside an exclusive, or 0.
    fn filled_status(self) -> u8 {
        match self.status {
            0 => self.running,
            status => status,
        }
    }
}

/// The packet of a message that is no exclusive; data bytes that it has not are 0.
fn message(group: u8, status: u8, [first, second]: [u8; 2]) -> [u32; 1] {
    let message_type = if is_voice(status) { 0x20 } else { 0x10 };
    [u32::from_be_bytes([
        message_type | group,
        status,
        first,
        second,
    ])]
}

/// How far a run has come.
struct Run<'a> {
    line: Line,
    group: u8,
    bytes: &'a [u8],
    read: usize,
    out: &'a mut [u32],
    written: usize,
}

impl Run<'_> {
    /// Sends words, if there is room for them.
    #[inline(always)]
    fn send<const COUNT: usize>(&mut self, words: [u32; COUNT]) -> Option<()> {
        let place = self.out.get_mut(self.written..)?.get_mut(..COUNT)?;
        place.copy_from_slice(&words);
        self.written += COUNT;
        Some(())
    }

    /// Takes all bytes, up to one whose packet has no room.
    #[inline(always)]
    fn go_to_the_end(&mut self) -> Option<()> {
        while let Some(byte) = self.bytes.get(self.read) {
            self.go_on(*byte)?;
        }
        Some(())
    }

    /// Does what the next byte says; nothing is done where its packet has no room.
    #[inline(always)]
    fn go_on(&mut self, byte: u8) -> Option<()> {
        match byte {
            0xF8..=0xFF => self.real_time(byte),
            0x80..=0xF7 if self.line.status == START_OF_EXCLUSIVE => self.close(byte),
            _ if self.line.status == START_OF_EXCLUSIVE => self.lengthen(byte),
            0x80..=0xF7 => self.begin(byte),
            _ => self.fill(byte),
        }
    }

    #[inline(always)]
    fn real_time(&mut self, byte: u8) -> Option<()> {
        if !matches!(byte, 0xF9 | 0xFD) {
            self.send(message(self.group, byte, [0; 2]))?;
        }
        self.read += 1;
        Some(())
    }

    /// A status byte ends the exclusive. Only its own end is read here.
    #[inline(always)]
    fn close(&mut self, byte: u8) -> Option<()> {
        let status = if self.line.begun == 0 { COMPLETE } else { END };
        self.send(self.line.exclusive_packet(self.group, status))?;
        self.line = idle_after(0);
        self.read += usize::from(byte == END_OF_EXCLUSIVE);
        Some(())
    }

    /// A data byte of an exclusive, and those behind it until six are held.
    #[inline(always)]
    fn lengthen(&mut self, byte: u8) -> Option<()> {
        if self.line.count == 6 {
            let status = if self.line.begun == 0 {
                START
            } else {
                CONTINUE
            };
            self.send(self.line.exclusive_packet(self.group, status))?;
            self.line = Line {
                begun: 1,
                count: 0,
                held: 0,
                ..self.line
            };
        }
        self.line = self.line.holding(byte);
        self.read += 1;
        while let (0..=5, Some(byte @ ..=0x7F)) = (self.line.count, self.bytes.get(self.read)) {
            self.line = self.line.holding(*byte);
            self.read += 1;
        }
        Some(())
    }

    /// A status byte drops the message that is open, and begins another one if there is none.
    #[inline(always)]
    fn begin(&mut self, byte: u8) -> Option<()> {
        if self.line.status != 0 {
            self.line = idle_after(self.line.running);
            return Some(());
        }
        self.line = match byte {
            0xF4 | 0xF5 | END_OF_EXCLUSIVE => idle_after(0),
            0xF6 => {
                self.send(message(self.group, byte, [0; 2]))?;
                idle_after(0)
            }
            _ => Line {
                status: byte,
                ..idle_after(0)
            },
        };
        self.read += 1;
        Some(())
    }

    /// A data byte of the open message, or of another one under running status. Behind the first of
    /// two the second is taken too.
    #[inline(always)]
    fn fill(&mut self, byte: u8) -> Option<()> {
        let status = self.line.filled_status();
        match (data_bytes(status), self.line.count) {
            (0, _) => self.read += 1,
            (1, _) => return self.complete(status, [byte, 0]),
            (_, 1) => return self.complete(status, [self.line.held as u8, byte]),
            _ => {
                let open = Line {
                    status,
                    ..self.line
                };
                self.line = open.holding(byte);
                self.read += 1;
                if let Some(second @ ..=0x7F) = self.bytes.get(self.read) {
                    return self.complete(status, [byte, *second]);
                }
            }
        }
        Some(())
    }

    /// The last data byte sends its message.
    #[inline(always)]
    fn complete(&mut self, status: u8, data: [u8; 2]) -> Option<()> {
        self.send(message(self.group, status, data))?;
        self.line = idle_after(if is_voice(status) { status } else { 0 });
        self.read += 1;
        Some(())
    }
}
