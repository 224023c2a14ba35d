//! Whole messages out of packets: exclusives and Flex Data, one chain of each sort for every group,
//! collected into a lent buffer. Read from request M-106 and from the build specification's layouts.

use crate::{
    bad_data, check_packet, size, words_of, BAD_DATA, COMPLETE, CUT, END, SENT, START, TAKEN_IN,
};

#[cfg(test)]
#[path = "chains_tests.rs"]
mod tests;

// The collector has these four in the order 17, 15, 16, 18, behind 3, 4, 6 and 7.
pub const OUT_OF_TURN: u32 = 15;
pub const TOO_MANY_PACKETS: u32 = 16;
pub const BAD_ADDRESS: u32 = 17;
pub const TOO_LONG: u32 = 18;

/// Stands for the chain of a packet that has none.
pub const NO_CHAIN: usize = 32;

/// So many packets a chain of Flex Data has at most.
pub const FLEX_PACKETS: u32 = 32;

/// The part of each chain in the program.
const PROGRAM_PART: usize = 2048;

/// What is known of a chain beside its bytes.
/// `packets` is 0 where none is open, counts those of open Flex Data, and is 1 in an open exclusive.
/// `shared` has the fields in which all packets of Flex Data agree. It stays with `length` when the
/// chain is finished, until another begins.
#[repr(C)]
#[derive(Clone, Copy, Debug, PartialEq, Eq)]
pub struct Chain {
    pub length: usize,
    pub shared: u32,
    pub packets: u32,
}

/// The exclusives of the groups 0 to 15, then their Flex Data.
#[derive(Clone, Copy, Debug, PartialEq, Eq)]
pub struct Chains {
    pub all: [Chain; 32],
}

/// The answer for a packet, the place of bad data, the words read, and the chains after it.
/// For a packet of a chain also that chain's number, where its part starts, and its length.
#[derive(Clone, Copy, Debug, PartialEq, Eq)]
pub struct Collected {
    pub answer: u32,
    pub place: u32,
    pub read: usize,
    pub chain: usize,
    pub start: usize,
    pub length: usize,
    pub chains: Chains,
}

/// A chain of which none was ever open.
pub const CLOSED: Chain = Chain {
    length: 0,
    shared: 0,
    packets: 0,
};

/// Chains of which none was ever open.
pub fn chains_closed() -> Chains {
    Chains { all: [CLOSED; 32] }
}

/// What a packet brings to its chain.
struct Piece {
    chain: usize,
    form: u32,
    shared: u32,
    payload: Vec<u8>,
}

/// The bytes of words, first to last.
fn bytes_of(words: &[u32]) -> Vec<u8> {
    words.iter().flat_map(|word| word.to_be_bytes()).collect()
}

impl Piece {
    /// The piece of a good packet. Other types than these two have none.
    fn of(packet: &[u32]) -> Option<Piece> {
        let first = packet[0];
        let group = (first >> 24 & 15) as usize;
        match first >> 28 {
            0x3 => {
                let count = (first >> 16 & 15) as usize;
                Some(Piece {
                    chain: group,
                    form: first >> 20 & 15,
                    shared: 0,
                    payload: bytes_of(packet)[2..2 + count].to_vec(),
                })
            }
            0xD => Some(Piece {
                chain: 16 + group,
                form: first >> 22 & 3,
                shared: first & 0x003F_FFFF,
                payload: bytes_of(&packet[1..]),
            }),
            _ => None,
        }
    }

    fn is_flex(&self) -> bool {
        self.chain >= 16
    }

    fn begins(&self) -> bool {
        matches!(self.form, COMPLETE | START)
    }

    fn finishes(&self) -> bool {
        matches!(self.form, COMPLETE | END)
    }

    /// Addresses 2 and 3 have no meaning yet.
    fn has_bad_address(&self) -> bool {
        self.is_flex() && self.shared >> 20 > 1
    }

    /// It begins where a chain is open or goes on where none is, or it goes on with other fields. An
    /// exclusive shares none, so a lent chain that says otherwise is not the one it goes on with.
    fn is_out_of_turn(&self, before: &Chain) -> bool {
        let differs = self.shared != before.shared;
        self.begins() == before.is_open() || !self.begins() && differs
    }

    fn is_one_too_many(&self, before: &Chain) -> bool {
        !self.begins() && before.packets >= FLEX_PACKETS
    }

    /// Where its payload goes in the part of the chain, if it has room there.
    fn place(&self, before: &Chain, part: usize) -> Option<std::ops::Range<usize>> {
        let start = if self.begins() { 0 } else { before.length };
        let end = start.checked_add(self.payload.len())?;
        (end <= part).then_some(start..end)
    }

    /// The chain after this packet was taken.
    fn joined(&self, before: &Chain, length: usize) -> Chain {
        let packets = match (self.finishes(), self.begins(), self.is_flex()) {
            (true, ..) => 0,
            (_, true, _) => 1,
            (_, _, true) => before.packets + 1,
            _ => before.packets,
        };
        Chain {
            length,
            shared: self.shared,
            packets,
        }
    }

    /// The answer and the chain after it, with the payload written to the part if it was taken.
    fn join(&self, before: Chain, part: &mut [u8]) -> (u32, Chain) {
        if self.has_bad_address() {
            return (BAD_ADDRESS, before);
        }
        if self.is_out_of_turn(&before) {
            let after = if before.is_open() { CLOSED } else { before };
            return (OUT_OF_TURN, after);
        }
        if self.is_one_too_many(&before) {
            return (TOO_MANY_PACKETS, CLOSED);
        }
        let Some(place) = self.place(&before, part.len()) else {
            return (TOO_LONG, CLOSED);
        };
        let after = self.joined(&before, place.end);
        part[place].copy_from_slice(&self.payload);
        (if self.finishes() { SENT } else { TAKEN_IN }, after)
    }
}

impl Chain {
    fn is_open(&self) -> bool {
        self.packets > 0
    }
}

/// The report of a packet that belongs to no chain.
fn beside(answer: u32, read: usize, chains: Chains) -> Collected {
    Collected {
        answer,
        place: 0,
        read,
        chain: NO_CHAIN,
        start: 0,
        length: 0,
        chains,
    }
}

/// Takes the packet at the start of the words into its chain.
pub fn collect(mut chains: Chains, buffer: &mut [u8], words: &[u32]) -> Collected {
    let size = words.first().map_or(1, |word| size(*word));
    let Some(packet) = words.get(..size) else {
        return beside(CUT, 0, chains);
    };
    match check_packet(packet) {
        SENT => (),
        answer @ BAD_DATA => {
            let place = bad_data(packet).place;
            return Collected {
                place,
                ..beside(answer, size, chains)
            };
        }
        answer => return beside(answer, size, chains),
    }
    let Some(piece) = Piece::of(packet) else {
        return beside(TAKEN_IN, size, chains);
    };
    let part = buffer.len() / 32;
    let (chain, start) = (piece.chain, piece.chain * part);
    let (answer, after) = piece.join(chains.all[chain], &mut buffer[start..start + part]);
    chains.all[chain] = after;
    Collected {
        answer,
        place: 0,
        read: size,
        chain,
        start,
        length: after.length,
        chains,
    }
}

/// Call after call, until a message is whole, an open chain is dropped or a packet is cut. Where the
/// words end without, the answer is that of a packet that is taken in.
pub fn run_collect(mut chains: Chains, buffer: &mut [u8], words: &[u32]) -> Collected {
    let mut read = 0;
    while read < words.len() {
        let one = collect(chains, buffer, &words[read..]);
        let drops = matches!(one.answer, OUT_OF_TURN | TOO_MANY_PACKETS | TOO_LONG);
        let dropped = drops && chains.all[one.chain].is_open();
        read += one.read;
        if dropped || matches!(one.answer, SENT | CUT) {
            return Collected { read, ..one };
        }
        chains = one.chains;
    }
    beside(TAKEN_IN, read, chains)
}

/// The sort and the group of a chain, as the program writes them.
fn name(chain: usize) -> String {
    let sort = if chain < 16 { "exclusive" } else { "flex" };
    format!("{sort} {}", chain % 16)
}

/// The text of the collecting program for this standard input. There is none if it has arguments.
pub fn whole(bytes: &[u8], arguments: &[&str]) -> Option<Vec<u8>> {
    if !arguments.is_empty() {
        return None;
    }
    let words = words_of(bytes);
    let (mut buffer, mut chains) = (vec![0; 32 * PROGRAM_PART], chains_closed());
    let (mut text, mut place) = (String::new(), 0);
    loop {
        let one = collect(chains, &mut buffer, &words[place..]);
        match one.answer {
            CUT => return Some(text.into_bytes()),
            SENT => {
                text += &name(one.chain);
                for byte in &buffer[one.start..one.start + one.length] {
                    text += &format!(" {byte:02X}");
                }
                text.push('\n');
            }
            answer @ (OUT_OF_TURN | TOO_MANY_PACKETS | TOO_LONG)
                if chains.all[one.chain].is_open() =>
            {
                text += &format!("{answer} {}\n", name(one.chain));
            }
            _ => (),
        }
        chains = one.chains;
        place += one.read;
    }
}
