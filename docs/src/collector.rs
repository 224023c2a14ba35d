//! Whole messages out of packets, over a list of chains and a buffer that are lent: the collector and
//! its run, written for speed. What it does is what the plain one does, and tests hold it to that.

pub use crate::chains::CLOSED;
use crate::chains::{
    Chain, BAD_ADDRESS, FLEX_PACKETS, NO_CHAIN, OUT_OF_TURN, TOO_LONG, TOO_MANY_PACKETS,
};
use crate::{
    bad_data, check_packet, check_two_words, size, BAD_DATA, COMPLETE, CUT, END, SENT, START,
    TAKEN_IN,
};

#[cfg(test)]
#[path = "collector_tests.rs"]
mod tests;

/// The list of chains is longer or shorter than it must be.
const NOT_32_CHAINS: u32 = 10;

/// The answer for a packet or of a run, the place of bad data, and the words read. For a packet of a
/// chain also that chain's number, where its part starts, and its length.
#[repr(C)]
#[derive(Clone, Copy, Debug, PartialEq, Eq)]
pub struct Collected {
    pub answer: u32,
    pub place: u32,
    pub read: usize,
    pub chain: usize,
    pub start: usize,
    pub length: usize,
}

/// A good piece of a message: its chain, its form, and what all pieces of its message share.
struct Piece {
    chain: usize,
    form: u32,
    shared: u32,
}

/// The report of a piece, and whether it ends a run.
struct Joined {
    report: Collected,
    stops: bool,
}

/// Takes the packet at the start of the words into its chain.
#[inline(always)]
pub fn collect(chains: &mut [Chain], buffer: &mut [u8], words: &[u32]) -> Collected {
    let Some(chains) = whole_list(chains) else {
        return beside(NOT_32_CHAINS, 0);
    };
    match take_piece(chains, buffer, words) {
        Some(joined) => joined.report,
        None => step_over(words),
    }
}

/// Takes packet after packet, until a message is whole, an open chain is dropped, or a packet is cut.
pub fn run_collect(chains: &mut [Chain], buffer: &mut [u8], words: &[u32]) -> Collected {
    let Some(chains) = whole_list(chains) else {
        return beside(NOT_32_CHAINS, 0);
    };
    let mut read = 0;
    while let Some(rest @ [first, ..]) = words.get(read..) {
        if first >> 28 == 2 {
            read += 1;
        } else if let Some(Joined { report, stops }) = take_piece(chains, buffer, rest) {
            read += report.read;
            if stops {
                return Collected { read, ..report };
            }
        } else if size(*first) <= rest.len() {
            read += size(*first);
        } else {
            return beside(CUT, read);
        }
    }
    beside(TAKEN_IN, read)
}

fn whole_list(chains: &mut [Chain]) -> Option<&mut [Chain; NO_CHAIN]> {
    chains.try_into().ok()
}

/// The report of what belongs to no chain.
fn beside(answer: u32, read: usize) -> Collected {
    Collected {
        answer,
        place: 0,
        read,
        chain: NO_CHAIN,
        start: 0,
        length: 0,
    }
}

/// The report of a packet that is no good piece.
#[inline(always)]
fn step_over(words: &[u32]) -> Collected {
    let size = words.first().map_or(1, |word| size(*word));
    let Some(packet) = words.get(..size) else {
        return beside(CUT, 0);
    };
    match check_packet(packet) {
        SENT => beside(TAKEN_IN, size),
        BAD_DATA => Collected {
            place: bad_data(packet).place,
            ..beside(BAD_DATA, size)
        },
        answer => beside(answer, size),
    }
}

/// Takes the packet at the start of the words into its chain, if it is a good piece of a message.
#[inline(always)]
fn take_piece(chains: &mut [Chain; NO_CHAIN], buffer: &mut [u8], words: &[u32]) -> Option<Joined> {
    match *words {
        [first, second, ..] if first >> 28 == 3 => {
            let is_good = check_two_words(first, second) == SENT;
            is_good.then(|| take_exclusive(chains, buffer, first, second))
        }
        [first, a, b, c, ..] if first >> 28 == 0xD => {
            Some(take_flex(chains, buffer, first, [a, b, c]))
        }
        _ => None,
    }
}

/// Most pieces of exclusives are full, so six bytes are copied as six.
#[inline(always)]
fn take_exclusive(
    chains: &mut [Chain; NO_CHAIN],
    buffer: &mut [u8],
    first: u32,
    second: u32,
) -> Joined {
    let piece = Piece {
        chain: (first >> 24 & 15) as usize,
        form: first >> 20 & 15,
        shared: 0,
    };
    let payload = u64::from(first & 0xFFFF) << 48 | u64::from(second) << 16;
    let bytes = payload.to_be_bytes();
    match (first >> 16 & 15) as usize {
        6 => piece.join(chains, buffer, &bytes[..6]),
        count => piece.join(chains, buffer, &bytes[..count]),
    }
}

#[inline(always)]
fn take_flex(
    chains: &mut [Chain; NO_CHAIN],
    buffer: &mut [u8],
    first: u32,
    words: [u32; 3],
) -> Joined {
    let piece = Piece {
        chain: 16 + (first >> 24 & 15) as usize,
        form: first >> 22 & 3,
        shared: first & 0x003F_FFFF,
    };
    let mut bytes = [0; 12];
    for (four, word) in bytes.chunks_exact_mut(4).zip(words) {
        four.copy_from_slice(&word.to_be_bytes());
    }
    piece.join(chains, buffer, &bytes)
}

impl Piece {
    fn begins(&self) -> bool {
        matches!(self.form, COMPLETE | START)
    }

    fn finishes(&self) -> bool {
        matches!(self.form, COMPLETE | END)
    }

    /// Where so many bytes go in the part of the chain, or the answer that refuses them.
    #[inline(always)]
    fn place(&self, before: Chain, count: usize, part: usize) -> Result<usize, u32> {
        let is_open = before.packets > 0;
        let length = if self.begins() { 0 } else { before.length };
        if self.shared >> 20 > 1 {
            Err(BAD_ADDRESS)
        } else if self.begins() == is_open || is_open && self.shared != before.shared {
            Err(OUT_OF_TURN)
        } else if before.packets >= FLEX_PACKETS {
            Err(TOO_MANY_PACKETS)
        } else if count > part || length > part - count {
            Err(TOO_LONG)
        } else {
            Ok(length)
        }
    }

    /// The chain after so many bytes were stored in it.
    #[inline(always)]
    fn joined(&self, before: Chain, length: usize) -> Chain {
        let is_flex = self.chain >= 16;
        let packets = match (self.finishes(), self.begins()) {
            (true, _) => 0,
            (_, true) => 1,
            _ => before.packets + u32::from(is_flex),
        };
        Chain {
            length,
            shared: self.shared,
            packets,
        }
    }

    /// Stores the bytes in the chain, or drops it if they are refused while it is open.
    #[inline(always)]
    fn join(self, chains: &mut [Chain; NO_CHAIN], buffer: &mut [u8], bytes: &[u8]) -> Joined {
        let part = buffer.len() / NO_CHAIN;
        let (chain, start) = (&mut chains[self.chain], self.chain * part);
        let (before, is_open) = (*chain, chain.packets > 0);
        let answer = match self.place(before, bytes.len(), part) {
            Ok(place) => {
                buffer[start + place..][..bytes.len()].copy_from_slice(bytes);
                *chain = self.joined(before, place + bytes.len());
                if self.finishes() {
                    SENT
                } else {
                    TAKEN_IN
                }
            }
            Err(answer) => {
                if is_open && answer != BAD_ADDRESS || answer == TOO_LONG {
                    *chain = CLOSED;
                }
                answer
            }
        };
        let drops = is_open && !matches!(answer, TAKEN_IN | BAD_ADDRESS);
        Joined {
            report: Collected {
                answer,
                place: 0,
                read: if self.chain < 16 { 2 } else { 4 },
                chain: self.chain,
                start,
                length: chain.length,
            },
            stops: answer == SENT || drops,
        }
    }
}
