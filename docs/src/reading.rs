//! The translation of Universal MIDI Packets, from MIDI 1.0 up to MIDI 2.0 and back down.
//! Read from the build specification, the requests that amend it, and M2-104-UM 1.1.1, sections 7.2
//! to 7.7 and Appendix D.

pub mod as_c;
mod cable;
mod chains;
pub mod collector;
mod desk;
mod down_run;
mod hosts;
mod identity;
mod pupil;
mod rescue;
mod screening;

#[cfg(test)]
#[path = "reading_tests.rs"]
mod tests;

pub use cable::{
    cable_idle, export, export_filter, import, import_filter, run_export, run_import, Cable,
    Imported, CUT_OFF, DROPPED, NOT_FOR_CABLE,
};
pub use chains::{
    chains_closed, collect, run_collect, whole, Chain, Chains, Collected, BAD_ADDRESS, NO_CHAIN,
    OUT_OF_TURN, TOO_LONG, TOO_MANY_PACKETS,
};
pub use desk::{desk, exact_decimal, Base, Desk, Display, Shown, BAD_RANGE, NOT_SOUNDING};
pub use down_run::run_down;
pub use hosts::{
    give_group, host_down, host_keys_down, host_mark_coarse, host_run_down, host_run_up, host_up,
    GIVEN, NOBODY, NOT_YOUR_GROUP,
};
pub use identity::{identity_new, identity_old, Identity, Maker, NO_COUNTERPART};
pub use pupil::{only, only_filter};
pub use rescue::{rescue, Rescued, HEADER, WRONG_MARK, WRONG_VERSION};
pub use screening::screened;

// The answers of a call, by their numbers in the build specification.
pub const SENT: u32 = 0;
pub const TAKEN_IN: u32 = 1;
pub const NO_MIDI_1_FORM: u32 = 2;
pub const CUT: u32 = 3;
pub const RESERVED_TYPE: u32 = 4;
pub const WRONG_PROTOCOL: u32 = 5;
pub const BAD_STATUS: u32 = 6;
pub const BAD_DATA: u32 = 7;
pub const NOT_SOUND: u32 = 8;
pub const OUTPUT_SHORT: u32 = 9;
pub const NOT_256_RECORDS: u32 = 10;

// In the beginners' room there is one more, between 7 and 8.
pub const NOT_FOR_THIS_ROOM: u32 = 23;

// The question of the keys has these two and 10.
pub const ANSWERED: u32 = 0;
pub const ABOVE_15: u32 = 24;

// The marking call has this one, and 8, 10 and 24.
pub const SET: u32 = 0;

// The statuses of exclusive packets, which are the formats of Flex Data as well.
pub const COMPLETE: u32 = 0;
pub const START: u32 = 1;
pub const CONTINUE: u32 = 2;
pub const END: u32 = 3;

/// The number of a record that is not there.
pub const MISSING: u8 = 255;

// The address kinds of a record.
pub const NONE: u16 = 0;
pub const REGISTERED: u16 = 1;
pub const ASSIGNABLE: u16 = 2;

// The marks of a record.
pub const FINE: u8 = 0;
pub const COARSE: u8 = 1;

/// Stands for the lowest key where no key is down.
pub const NO_KEY: u32 = 255;

// What is known of the table that a packet goes up with. A lent one may hold any record, and its
// keys are asked for later. Once all its records are known to be sound they stay so. A run's own
// began fresh, so it is sound too, and what it knows of keys is never seen.
const LENT: u8 = 0;
const LENT_AND_SOUND: u8 = 1;
const OWN: u8 = 2;

/// Over so many words it is faster to ask for all records once than for one at every voice.
const LONG_RUN: usize = 512;

// Which room a packet goes up in. In the beginners' room not everything that is good may pass.
const BEGINNERS: bool = true;
const ANY_ROOM: bool = false;

/// What is remembered of one channel of one group between two packets.
/// Bit k of the first 64 keys is 1 if key k is down, and bit k of the others if key k + 64 is.
#[repr(C)]
#[derive(Clone, Copy, Debug, PartialEq, Eq)]
pub struct Record {
    pub keys: [u64; 2],
    pub kind: u16,
    pub bank_high: u8,
    pub bank_low: u8,
    pub address_bank: u8,
    pub address_index: u8,
    pub data_high: u8,
    pub coarse: u8,
}

/// The answer of a call or of a run, and the words it read and wrote. With bad data the place says
/// which checked field is the first bad one, counted from 1; with every other answer it is 0.
#[repr(C)]
#[derive(Clone, Copy, Debug, PartialEq, Eq)]
pub struct Done {
    pub answer: u32,
    pub place: u32,
    pub read: usize,
    pub written: usize,
}

/// What the question of the keys gives back: its answer, how many keys are down, and the lowest.
#[repr(C)]
#[derive(Clone, Copy, Debug, PartialEq, Eq)]
pub struct Keys {
    pub answer: u32,
    pub down: u32,
    pub lowest: u32,
}

/// The record of a channel that nothing has been heard of.
pub fn empty() -> Record {
    Record {
        keys: [0; 2],
        kind: NONE,
        bank_high: MISSING,
        bank_low: MISSING,
        address_bank: MISSING,
        address_index: MISSING,
        data_high: MISSING,
        coarse: FINE,
    }
}

impl Record {
    /// Any keys may be down in a sound record. A coarse channel never keeps data high.
    pub fn sound(&self) -> bool {
        let address = match (self.kind, self.coarse) {
            (NONE, FINE | COARSE) => {
                [self.address_bank, self.address_index, self.data_high] == [MISSING; 3]
            }
            (REGISTERED | ASSIGNABLE, FINE) => self.data_high == MISSING || self.takes_data(),
            (REGISTERED | ASSIGNABLE, COARSE) => self.data_high == MISSING,
            _ => false,
        };
        address && self.bad_numbers() == 0
    }

    /// The highest bit of each number, one to a byte, that is neither at most 127 nor missing.
    fn bad_numbers(&self) -> u64 {
        let numbers = u64::from_le_bytes([
            self.bank_high,
            self.bank_low,
            self.address_bank,
            self.address_index,
            self.data_high,
            0,
            0,
            0,
        ]);
        // Of the lower bits only those of 127 and of a missing number carry into the highest.
        let carried = (numbers & 0x7F7F_7F7F_7F7F_7F7F) + 0x0101_0101_0101_0101;
        numbers & !carried & 0x8080_8080_8080_8080
    }

    /// Both address halves are present and are not the null address.
    fn takes_data(&self) -> bool {
        self.address_bank != MISSING
            && self.address_index != MISSING
            && !(self.kind == REGISTERED && null(self.address_bank, self.address_index))
    }

    /// Makes ready for a new address half, or for none; a half of another kind is not kept.
    fn begin_address(&mut self, kind: u16) {
        if self.kind != kind {
            self.kind = kind;
            self.address_bank = MISSING;
            self.address_index = MISSING;
        }
        self.data_high = MISSING;
    }

    fn set_address_bank(&mut self, kind: u16, value: u8) {
        self.begin_address(kind);
        self.address_bank = value;
    }

    fn set_address_index(&mut self, kind: u16, value: u8) {
        self.begin_address(kind);
        self.address_index = value;
    }

    /// Data high goes even where the mark stays what it was.
    fn set_mark(&mut self, mark: u8) {
        self.coarse = mark;
        self.data_high = MISSING;
    }

    #[inline(always)]
    fn set_key(&mut self, key: u32, down: bool) {
        let bit = key % 64;
        let half = &mut self.keys[(key / 64) as usize];
        *half = *half & !(1 << bit) | u64::from(down) << bit;
    }

    fn lamp(&self, key: usize) -> char {
        match self.keys[key / 64] >> (key % 64) & 1 {
            1 => '#',
            _ => '.',
        }
    }
}

/// The null address, if registered; an assignable 127/127 is an ordinary address.
fn null(bank: u8, index: u8) -> bool {
    bank == 127 && index == 127
}

const SIZES: [usize; 16] = [1, 1, 1, 2, 2, 4, 1, 1, 2, 2, 2, 3, 3, 4, 4, 4];

/// The size in words of the packet that begins with this word.
pub fn size(word: u32) -> usize {
    SIZES[(word >> 28) as usize]
}

/// Min-Center-Max scaling of 004 D.1.3, here for every value.
#[inline(always)]
const fn scale_up(value: u32, source_bits: u32, target_bits: u32) -> u32 {
    let mut empty_bits = target_bits - source_bits;
    let repeat_bits = source_bits - 1;
    let mut scaled = value << empty_bits;
    if value > 1 << repeat_bits {
        let repeated = value & ((1 << repeat_bits) - 1);
        while empty_bits > repeat_bits {
            empty_bits -= repeat_bits;
            scaled |= repeated << empty_bits;
        }
        scaled |= repeated >> (repeat_bits - empty_bits);
    }
    scaled
}

const fn every_7_bit_value(target_bits: u32) -> [u32; 128] {
    let mut scaled = [0; 128];
    let mut value = 0;
    while value < 128 {
        scaled[value] = scale_up(value as u32, 7, target_bits);
        value += 1;
    }
    scaled
}

static SCALED_7_TO_16: [u32; 128] = every_7_bit_value(16);
static SCALED_7_TO_32: [u32; 128] = every_7_bit_value(32);

fn stopped(answer: u32) -> Done {
    Done {
        answer,
        place: 0,
        read: 0,
        written: 0,
    }
}

fn refused(answer: u32, read: usize) -> Done {
    Done {
        answer,
        place: 0,
        read,
        written: 0,
    }
}

/// Refuses a packet that is known to have a bad field. Few packets have one, so its place is looked
/// for here and nowhere before.
#[inline(always)]
fn bad_data(packet: &[u32]) -> Done {
    Done {
        place: first_bad_field(packet),
        ..refused(BAD_DATA, packet.len())
    }
}

#[cold]
fn first_bad_field(packet: &[u32]) -> u32 {
    match *packet {
        [first, second] if first >> 28 == 3 => first_bad_of_exclusive(first, second),
        [first, second] if first >> 20 & 15 == 0xC => first_bad_of_program(second),
        [first, ..] if first & 0x8000 != 0 => 1,
        _ => 2,
    }
}

fn first_bad_of_exclusive(first: u32, second: u32) -> u32 {
    if first >> 16 & 15 > 6 {
        1
    } else {
        2 + bad_payload(first, second).leading_zeros() / 8
    }
}

/// The bank bytes come behind the program, and only where the bank flag is set can they be bad.
fn first_bad_of_program(second: u32) -> u32 {
    match second {
        0x8000_0000.. => 1,
        _ if second & 0x8000 != 0 => 2,
        _ => 3,
    }
}

/// Sends the words that a packet of `read` words becomes, or the bytes.
#[inline(always)]
fn send<T: Copy, const COUNT: usize>(read: usize, words: [T; COUNT], out: &mut [T]) -> Done {
    match out.get_mut(..COUNT) {
        Some(place) => place.copy_from_slice(&words),
        None => return stopped(OUTPUT_SHORT),
    }
    Done {
        answer: SENT,
        place: 0,
        read,
        written: COUNT,
    }
}

fn high_byte(word: u32) -> u8 {
    (word >> 8) as u8
}

fn low_byte(word: u32) -> u8 {
    word as u8
}

/// Answers for every type but 2 and 4, on which both directions agree, and for whatever is cut.
#[inline(always)]
fn other_type<const ROOM: bool>(words: &[u32], out: &mut [u32]) -> Done {
    let size = words.first().map_or(0, |word| size(*word));
    match (size, words) {
        (1, &[word, ..]) => unchanged::<ROOM, 1>(check_one_word(word), [word], out),
        (2, &[first, second, ..]) => {
            unchanged::<ROOM, 2>(check_two_words(first, second), [first, second], out)
        }
        (3, [_, _, _, ..]) => refused(RESERVED_TYPE, 3),
        (4, &[first, second, third, fourth, ..]) => {
            let packet = [first, second, third, fourth];
            unchanged::<ROOM, 4>(check_four_words(first), packet, out)
        }
        _ => stopped(CUT),
    }
}

#[inline(always)]
fn unchanged<const ROOM: bool, const COUNT: usize>(
    answer: u32,
    packet: [u32; COUNT],
    out: &mut [u32],
) -> Done {
    match answer {
        SENT if ROOM == BEGINNERS && !for_beginners(packet[0]) => refused(NOT_FOR_THIS_ROOM, COUNT),
        SENT => send(COUNT, packet, out),
        BAD_DATA => bad_data(&packet),
        _ => refused(answer, COUNT),
    }
}

fn check_one_word(word: u32) -> u32 {
    match word >> 28 {
        0 if word >> 20 & 15 <= 4 => SENT,
        0 => BAD_STATUS,
        1 => check_system(word),
        _ => RESERVED_TYPE,
    }
}

fn check_system(word: u32) -> u32 {
    let data_bits = match word >> 16 & 255 {
        0xF1 | 0xF3 => 0x8000,
        0xF2 => 0x8080,
        0xF6 | 0xF8 | 0xFA | 0xFB | 0xFC | 0xFE | 0xFF => 0,
        _ => return BAD_STATUS,
    };
    if word & data_bits == 0 {
        SENT
    } else {
        BAD_DATA
    }
}

fn check_two_words(first: u32, second: u32) -> u32 {
    if first >> 28 != 3 {
        return RESERVED_TYPE;
    }
    if first >> 20 & 15 > 3 {
        return BAD_STATUS;
    }
    if first >> 16 & 15 > 6 || bad_payload(first, second) != 0 {
        BAD_DATA
    } else {
        SENT
    }
}

/// The highest bit of each payload byte that is counted and bad, for a count of 6 at most.
/// The payload stands at the top, so the counted bytes are the upper ones.
fn bad_payload(first: u32, second: u32) -> u64 {
    let payload = u64::from(first & 0xFFFF) << 48 | u64::from(second) << 16;
    let counted = !(u64::MAX >> (8 * (first >> 16 & 15)));
    payload & counted & 0x8080_8080_8080_8080
}

fn check_four_words(first: u32) -> u32 {
    match first >> 28 {
        0x5 | 0xD | 0xF => SENT,
        _ => RESERVED_TYPE,
    }
}

fn check_voice(word: u32) -> u32 {
    match voice_data_bits(word >> 20 & 15) {
        None => BAD_STATUS,
        Some(data_bits) if word & data_bits != 0 => BAD_DATA,
        Some(_) => SENT,
    }
}

fn check_voice_2(first: u32, second: u32) -> u32 {
    match first >> 20 & 15 {
        7 => BAD_STATUS,
        _ if data_in_range(first, second) => SENT,
        _ => BAD_DATA,
    }
}

/// Which answer a whole packet gets where neither protocol is wrong.
fn check_packet(packet: &[u32]) -> u32 {
    match *packet {
        [word] if word >> 28 == 2 => check_voice(word),
        [word] => check_one_word(word),
        [first, second] if first >> 28 == 4 => check_voice_2(first, second),
        [first, second] => check_two_words(first, second),
        [first, ..] => check_four_words(first),
        [] => CUT,
    }
}

/// The place of a packet's own record: 16 times group plus channel.
fn record_number(word: u32) -> usize {
    (word >> 20 & 0xF0 | word >> 16 & 0x0F) as usize
}

/// The first word of a MIDI 2.0 message in the group and channel of `word`.
fn midi_2_word(word: u32, status: u32, index: u32) -> u32 {
    0x4000_0000 | word & 0x0F0F_0000 | status << 20 | index
}

fn whole_table(table: &mut [Record]) -> Option<&mut [Record; 256]> {
    table.try_into().ok()
}

/// Treats the packet at the start of the words, going up.
#[inline(always)]
pub fn up(words: &[u32], table: &mut [Record], out: &mut [u32]) -> Done {
    match whole_table(table) {
        Some(table) => up_packet::<LENT, ANY_ROOM>(words, table, out),
        None => stopped(NOT_256_RECORDS),
    }
}

/// Treats packet after packet, going up.
pub fn run_up(words: &[u32], table: &mut [Record], out: &mut [u32]) -> Done {
    run_up_unless::<ANY_ROOM>(words, table, out, |_| None)
}

/// Treats packet after packet, going up in a room, but for packets that are refused before all else.
#[inline(always)]
fn run_up_unless<const ROOM: bool>(
    words: &[u32],
    table: &mut [Record],
    out: &mut [u32],
    refusal: impl Fn(&[u32]) -> Option<Done>,
) -> Done {
    match whole_table(table) {
        Some(table) if words.len() >= LONG_RUN && table.iter().all(Record::sound) => {
            run(words, out, |words, out| {
                let call = || up_packet::<LENT_AND_SOUND, ROOM>(words, table, out);
                refusal(words).unwrap_or_else(call)
            })
        }
        Some(table) => run(words, out, |words, out| {
            let call = || up_packet::<LENT, ROOM>(words, table, out);
            refusal(words).unwrap_or_else(call)
        }),
        None => stopped(NOT_256_RECORDS),
    }
}

/// Treats the packet at the start of the words, going up in the beginners' room.
#[inline(always)]
pub fn beginners_up(words: &[u32], table: &mut [Record], out: &mut [u32]) -> Done {
    match whole_table(table) {
        Some(table) => up_packet::<LENT, BEGINNERS>(words, table, out),
        None => stopped(NOT_256_RECORDS),
    }
}

/// Treats packet after packet, going up in the beginners' room.
pub fn beginners_run_up(words: &[u32], table: &mut [Record], out: &mut [u32]) -> Done {
    run_up_unless::<BEGINNERS>(words, table, out, |_| None)
}

/// Whether the good packet that begins with this word may pass in the beginners' room: utility
/// messages, notes, the bend, and controllers from a short list.
fn for_beginners(word: u32) -> bool {
    match (word >> 28, word >> 20 & 15) {
        (0, _) | (2, 0x8 | 0x9 | 0xE) => true,
        (2, 0xB) => matches!(high_byte(word), 1 | 7 | 64 | 120 | 121 | 123),
        _ => false,
    }
}

/// Treats packet after packet, going up from a fresh table of its own with these marks.
pub fn lesson(words: &[u32], coarse: &[u16], out: &mut [u32]) -> Done {
    let mut table = lesson_table(coarse);
    run(words, out, |words, out| {
        up_packet::<OWN, ANY_ROOM>(words, &mut table, out)
    })
}

/// A group has a number, and a channel a bit in it, which is its mark.
fn lesson_table(coarse: &[u16]) -> [Record; 256] {
    let mut table = [empty(); 256];
    for (group, marks) in table.chunks_exact_mut(16).zip(coarse) {
        for (channel, record) in group.iter_mut().enumerate() {
            record.coarse = (marks >> channel & 1) as u8;
        }
    }
    table
}

/// How many keys of a channel are down, and the lowest of them.
pub fn keys_down(table: &[Record], group: u8, channel: u8) -> Keys {
    if table.len() != 256 {
        return no_keys(NOT_256_RECORDS);
    }
    if group > 15 || channel > 15 {
        return no_keys(ABOVE_15);
    }
    let [low, high] = table[16 * usize::from(group) + usize::from(channel)].keys;
    match u128::from(high) << 64 | u128::from(low) {
        0 => no_keys(ANSWERED),
        keys => Keys {
            answer: ANSWERED,
            down: keys.count_ones(),
            lowest: keys.trailing_zeros(),
        },
    }
}

fn no_keys(answer: u32) -> Keys {
    Keys {
        answer,
        down: 0,
        lowest: NO_KEY,
    }
}

/// Marks a channel coarse, or takes its mark off where `coarse` is 0.
pub fn mark_coarse(table: &mut [Record], group: u8, channel: u8, coarse: u8) -> u32 {
    let Some(table) = whole_table(table) else {
        return NOT_256_RECORDS;
    };
    if group > 15 || channel > 15 {
        return ABOVE_15;
    }
    let record = &mut table[16 * usize::from(group) + usize::from(channel)];
    if !record.sound() {
        return NOT_SOUND;
    }
    record.set_mark(if coarse == 0 { FINE } else { COARSE });
    SET
}

/// Treats the packet at the start of the words, going down.
#[inline(always)]
pub fn down(words: &[u32], out: &mut [u32]) -> Done {
    down_packet(words, out)
}

/// Upward the whole of a call becomes part of the loop, so that its report stays in registers.
#[inline(always)]
fn run(words: &[u32], out: &mut [u32], mut call: impl FnMut(&[u32], &mut [u32]) -> Done) -> Done {
    let mut total = Done {
        answer: SENT,
        place: 0,
        read: 0,
        written: 0,
    };
    while total.read < words.len() {
        let one = call(&words[total.read..], &mut out[total.written..]);
        total.read += one.read;
        total.written += one.written;
        if let CUT | NOT_SOUND | OUTPUT_SHORT = one.answer {
            total.answer = one.answer;
            break;
        }
    }
    total
}

#[inline(always)]
fn up_packet<const TABLE: u8, const ROOM: bool>(
    words: &[u32],
    table: &mut [Record; 256],
    out: &mut [u32],
) -> Done {
    match *words {
        [word, ..] if word >> 28 == 2 => {
            up_voice::<TABLE, ROOM>(word, &mut table[record_number(word)], out)
        }
        [word, _, ..] if word >> 28 == 4 => refused(WRONG_PROTOCOL, 2),
        _ => other_type::<ROOM>(words, out),
    }
}

/// The highest bits of the data bytes that a MIDI 1.0 voice with this status has.
#[inline(always)]
fn voice_data_bits(status: u32) -> Option<u32> {
    match status {
        0x8..=0xB | 0xE => Some(0x8080),
        0xC | 0xD => Some(0x8000),
        _ => None,
    }
}

#[inline(always)]
fn up_voice<const TABLE: u8, const ROOM: bool>(
    word: u32,
    record: &mut Record,
    out: &mut [u32],
) -> Done {
    let status = word >> 20 & 15;
    let Some(data_bits) = voice_data_bits(status) else {
        return refused(BAD_STATUS, 1);
    };
    if word & data_bits != 0 {
        return bad_data(&[word]);
    }
    if ROOM == BEGINNERS && !for_beginners(word) {
        return refused(NOT_FOR_THIS_ROOM, 1);
    }
    if TABLE == LENT && !record.sound() {
        return stopped(NOT_SOUND);
    }
    let same = word & 0x0FFF_0000 | 0x4000_0000;
    let (first, second) = (word >> 8 & 127, word & 127);
    match status {
        0x8 | 0x9 => up_note::<TABLE>(word, record, out),
        0xA => send(1, [same | first << 8, SCALED_7_TO_32[second as usize]], out),
        0xB => up_control_change(word, record, out),
        0xC => up_program_change(word, record, out),
        0xD => send(1, [same, SCALED_7_TO_32[first as usize]], out),
        _ => send(1, [same, scale_up(second << 7 | first, 14, 32)], out),
    }
}

/// A Note On with a velocity presses its key, and every other note lifts it, if keys can be seen.
#[inline(always)]
fn up_note<const TABLE: u8>(word: u32, record: &mut Record, out: &mut [u32]) -> Done {
    let velocity = word & 127;
    let status = if velocity == 0 { 0x8 } else { word >> 20 & 15 };
    let scaled = SCALED_7_TO_16[velocity as usize];
    let words = [midi_2_word(word, status, word & 0x7F00), scaled << 16];
    let done = send(1, words, out);
    if TABLE != OWN && done.answer == SENT {
        record.set_key(word >> 8 & 127, status == 0x9);
    }
    done
}

#[inline(always)]
fn up_control_change(word: u32, record: &mut Record, out: &mut [u32]) -> Done {
    let value = low_byte(word);
    match high_byte(word) {
        0 => record.bank_high = value,
        32 => record.bank_low = value,
        101 => record.set_address_bank(REGISTERED, value),
        100 => record.set_address_index(REGISTERED, value),
        99 => record.set_address_bank(ASSIGNABLE, value),
        98 => record.set_address_index(ASSIGNABLE, value),
        6 if record.takes_data() => match record.coarse {
            FINE => record.data_high = value,
            _ => return up_data(word, record, [value, 0], out),
        },
        38 if record.data_high != MISSING => {
            return up_data(word, record, [record.data_high, value], out)
        }
        6 | 38 | 96 | 97 => (),
        120 | 123 => return up_silence(word, record, out),
        121 => return up_reset(word, record, out),
        _ => return up_plain(word, out),
    }
    refused(TAKEN_IN, 1)
}

/// A controller with its own index.
#[inline(always)]
fn up_plain(word: u32, out: &mut [u32]) -> Done {
    let first = midi_2_word(word, 0xB, word & 0x7F00);
    send(1, [first, SCALED_7_TO_32[(word & 127) as usize]], out)
}

/// All Sound Off and All Notes Off go on as themselves and lift every key of the channel.
#[inline(always)]
fn up_silence(word: u32, record: &mut Record, out: &mut [u32]) -> Done {
    let done = up_plain(word, out);
    if done.answer == SENT {
        record.keys = [0; 2];
    }
    done
}

/// Reset All Controllers goes on as itself and closes the address; bank halves, keys and mark stay.
#[inline(always)]
fn up_reset(word: u32, record: &mut Record, out: &mut [u32]) -> Done {
    let done = up_plain(word, out);
    if done.answer == SENT {
        record.begin_address(NONE);
    }
    done
}

/// The registered or assignable controller that the record addresses, with both halves of its data.
#[inline(always)]
fn up_data(word: u32, record: &Record, [high, low]: [u8; 2], out: &mut [u32]) -> Done {
    let status = if record.kind == REGISTERED { 0x2 } else { 0x3 };
    let index = u32::from(record.address_bank) << 8 | u32::from(record.address_index);
    let value = u32::from(high) << 7 | u32::from(low);
    send(
        1,
        [midi_2_word(word, status, index), scale_up(value, 14, 32)],
        out,
    )
}

/// A bank goes out once, with the first program change after it.
#[inline(always)]
fn up_program_change(word: u32, record: &mut Record, out: &mut [u32]) -> Done {
    let (high, low) = (record.bank_high, record.bank_low);
    let (flag, bank) = if high != MISSING && low != MISSING {
        (1, u32::from(high) << 8 | u32::from(low))
    } else {
        (0, 0)
    };
    let program = word >> 8 & 127;
    let done = send(1, [midi_2_word(word, 0xC, flag), program << 24 | bank], out);
    if done.answer == SENT {
        record.bank_high = MISSING;
        record.bank_low = MISSING;
    }
    done
}

#[inline(always)]
fn down_packet(words: &[u32], out: &mut [u32]) -> Done {
    match *words {
        [first, second, ..] if first >> 28 == 4 => down_voice(first, second, out),
        [word, ..] if word >> 28 == 2 => refused(WRONG_PROTOCOL, 1),
        _ => other_type::<ANY_ROOM>(words, out),
    }
}

/// A MIDI 1.0 message in the group and channel of `word`.
fn midi_1_word(word: u32, status: u32, data_1: u32, data_2: u32) -> u32 {
    0x2000_0000 | word & 0x0F0F_0000 | status << 20 | data_1 << 8 | data_2
}

/// Where the words go that a MIDI 2.0 voice becomes, and what is said of it.
trait Outlet {
    type Said;

    fn send<const COUNT: usize>(&mut self, words: [u32; COUNT]) -> Self::Said;

    /// What is said of a voice that sends nothing.
    fn refuse(&mut self, first: u32, second: u32) -> Self::Said;
}

/// A single call for a voice.
impl Outlet for [u32] {
    type Said = Done;

    #[inline(always)]
    fn send<const COUNT: usize>(&mut self, words: [u32; COUNT]) -> Done {
        send(2, words, self)
    }

    #[inline(always)]
    fn refuse(&mut self, first: u32, second: u32) -> Done {
        match check_voice_2(first, second) {
            SENT => refused(NO_MIDI_1_FORM, 2),
            BAD_DATA => bad_data(&[first, second]),
            answer => refused(answer, 2),
        }
    }
}

/// Sends what a voice becomes, if it is good and can be said in MIDI 1.0.
#[inline(always)]
fn down_voice<O: Outlet + ?Sized>(first: u32, second: u32, out: &mut O) -> O::Said {
    let same = first & 0x0FFF_7F00 | 0x2000_0000;
    let (high_7, high_14) = (second >> 25, second >> 18);
    match first >> 20 & 15 {
        0x8 | 0xA if first & 0x8000 == 0 => out.send([same | high_7]),
        0x9 if first & 0x8000 == 0 => out.send([same | high_7.max(1)]),
        0xB if has_control_change(first) => out.send([same | high_7]),
        0x2 if first & 0x8080 == 0 && !null(high_byte(first), low_byte(first)) => {
            out.send(controller_words(first, high_14, [101, 100]))
        }
        0x3 if first & 0x8080 == 0 => out.send(controller_words(first, high_14, [99, 98])),
        0xC if data_in_range(first, second) => match first & 1 {
            0 => out.send([program_word(first, second)]),
            _ => out.send(bank_and_program_words(first, second)),
        },
        0xD => out.send([midi_1_word(first, 0xD, high_7, 0)]),
        0xE => out.send([midi_1_word(first, 0xE, high_14 & 127, high_14 >> 7)]),
        _ => out.refuse(first, second),
    }
}

fn data_in_range(first: u32, second: u32) -> bool {
    match first >> 20 & 15 {
        0x0 | 0x1 | 0x6 | 0x8..=0xB | 0xF => first & 0x8000 == 0,
        0x2..=0x5 => first & 0x8080 == 0,
        0xC if first & 1 == 1 => second & 0x8000_8080 == 0,
        0xC => second & 0x8000_0000 == 0,
        _ => true,
    }
}

/// Both halves of the address and both of the value.
#[inline(always)]
fn controller_words(first: u32, value: u32, address: [u32; 2]) -> [u32; 4] {
    let control = |index, value| midi_1_word(first, 0xB, index, value);
    [
        control(address[0], first >> 8 & 127),
        control(address[1], first & 127),
        control(6, value >> 7),
        control(38, value & 127),
    ]
}

/// Whether a controller is good and has no other meaning in MIDI 1.0 than its own.
fn has_control_change(first: u32) -> bool {
    !matches!(high_byte(first), 0 | 6 | 32 | 38 | 96..=101 | 128..)
}

fn program_word(first: u32, second: u32) -> u32 {
    midi_1_word(first, 0xC, second >> 24, 0)
}

/// Both halves of the bank and then the program.
#[inline(always)]
fn bank_and_program_words(first: u32, second: u32) -> [u32; 3] {
    [
        midi_1_word(first, 0xB, 0, second >> 8 & 127),
        midi_1_word(first, 0xB, 32, second & 127),
        program_word(first, second),
    ]
}

/// The table that programs start from: empty, but marked coarse where their arguments say so.
/// There is none if one of these is not a group, a colon and a channel.
pub fn marked_table(arguments: &[&str]) -> Option<[Record; 256]> {
    let mut table = [empty(); 256];
    for argument in arguments {
        let (group, channel) = argument.split_once(':')?;
        let answer = mark_coarse(&mut table, decimal(group)?, decimal(channel)?, COARSE);
        if answer != SET {
            return None;
        }
    }
    Some(table)
}

/// A number of one digit or two.
fn decimal(digits: &str) -> Option<u8> {
    match *digits.as_bytes() {
        [one @ b'0'..=b'9'] => Some(one - b'0'),
        [ten @ b'0'..=b'9', one @ b'0'..=b'9'] => Some(10 * (ten - b'0') + (one - b'0')),
        _ => None,
    }
}

/// The text of the listing program for this standard input, starting from this table.
pub fn listing(bytes: &[u8], mut table: [Record; 256]) -> Vec<u8> {
    let words = words_of(bytes);
    let mut text = String::new();
    let mut place = 0;
    while place < words.len() {
        let mut out = [0; 4];
        let done = up(&words[place..], &mut table, &mut out);
        if done.answer == CUT {
            break;
        }
        text += &format!("{} {}", done.answer, done.read);
        if done.answer == BAD_DATA {
            text += &format!(" {}", done.place);
        }
        for word in &out[..done.written] {
            text += &format!(" {:08X}", word);
        }
        text.push('\n');
        place += done.read;
    }
    if 4 * place < bytes.len() {
        text += "3 0\n";
    }
    text.into_bytes()
}

/// The standard output of the upward filter for this standard input, starting from this table.
pub fn up_filter(bytes: &[u8], mut table: [Record; 256]) -> Vec<u8> {
    filter(bytes, |words, out| run_up(words, &mut table, out))
}

/// The standard output of the downward filter for this standard input.
pub fn down_filter(bytes: &[u8]) -> Vec<u8> {
    filter(bytes, run_down)
}

fn filter(bytes: &[u8], call: impl FnOnce(&[u32], &mut [u32]) -> Done) -> Vec<u8> {
    let words = words_of(bytes);
    // No packet becomes more than twice its own words.
    let mut out = vec![0; 2 * words.len()];
    let done = call(&words, &mut out);
    let sent = out[..done.written].iter();
    sent.flat_map(|word| word.to_be_bytes()).collect()
}

/// The standard output of the panel program for this standard input, starting from this table.
pub fn panel(bytes: &[u8], mut table: [Record; 256]) -> Vec<u8> {
    let words = words_of(bytes);
    run_up(&words, &mut table, &mut vec![0; 2 * words.len()]);
    let mut text = String::new();
    for group in 0..16 {
        for channel in 0..16 {
            text += &panel_line(&table, group, channel);
        }
    }
    text.into_bytes()
}

/// The line of a channel, or nothing where no key is down.
fn panel_line(table: &[Record; 256], group: u8, channel: u8) -> String {
    let keys = keys_down(table, group, channel);
    if keys.down == 0 {
        return String::new();
    }
    let record = table[16 * usize::from(group) + usize::from(channel)];
    let lamps: String = (0..128).map(|key| record.lamp(key)).collect();
    format!("{group} {channel} {} {} {lamps}\n", keys.down, keys.lowest)
}

/// The whole big-endian words; one to three left-over bytes are no word.
fn words_of(bytes: &[u8]) -> Vec<u32> {
    let whole = bytes.chunks_exact(4);
    whole
        .map(|four| u32::from_be_bytes([four[0], four[1], four[2], four[3]]))
        .collect()
}
