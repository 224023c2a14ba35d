//! Packets of every sort, valid and damaged, from a fixed recipe.

/// A xorshift generator; the same seed always gives the same numbers.
pub struct Dice(u64);

impl Dice {
    pub fn new(seed: u64) -> Dice {
        Dice((seed + 1).wrapping_mul(0x9E37_79B9_7F4A_7C15))
    }

    pub fn word(&mut self) -> u32 {
        self.0 ^= self.0 >> 12;
        self.0 ^= self.0 << 25;
        self.0 ^= self.0 >> 27;
        (self.0.wrapping_mul(0x2545_F491_4F6C_DD1D) >> 32) as u32
    }

    pub fn below(&mut self, bound: usize) -> usize {
        (u64::from(self.word()) * bound as u64 >> 32) as usize
    }

    pub fn one_in(&mut self, bound: usize) -> bool {
        self.below(bound) == 0
    }

    pub fn pick<T: Copy>(&mut self, from: &[T]) -> T {
        from[self.below(from.len())]
    }
}

/// Second words of MIDI 2.0 voices at which a narrower value or a check turns over.
pub const EDGE_VALUES: [u32; 10] = [
    0,
    0x0003_FFFF,
    0x0100_0102,
    0x01FF_FFFF,
    0x0200_0000,
    0x7FFF_7F7F,
    0x7FFF_8000,
    0x8000_0000,
    0x8208_2082,
    0xFFFF_FFFF,
];

const EDGE_DATA: [u32; 8] = [0, 1, 63, 64, 65, 126, 127, 127];
const RECORD_INDEXES: [u32; 12] = [0, 32, 6, 38, 38, 6, 96, 97, 98, 99, 100, 101];
const EDGE_KEYS: [u32; 10] = [0, 1, 31, 32, 62, 63, 64, 65, 126, 127];
/// Controllers that lift all keys, and their neighbours, which lift none.
const KEY_INDEXES: [u32; 10] = [120, 120, 120, 123, 123, 123, 121, 119, 122, 124];
const SYSTEM_STATUSES: [u32; 10] = [0xF1, 0xF2, 0xF3, 0xF6, 0xF8, 0xFA, 0xFB, 0xFC, 0xFE, 0xFF];

/// A valid packet of a message type, in four words of which its size counts.
/// Places that no check reads hold whatever was thrown.
pub fn packet(dice: &mut Dice, message_type: u32) -> [u32; 4] {
    let mut words = [dice.word(), dice.word(), dice.word(), dice.word()];
    let thrown = words[0] & 0x0FFF_FFFF;
    words[0] = message_type << 28
        | match message_type {
            0 => thrown & !0x00F0_0000 | (dice.below(5) as u32) << 20,
            1 => system(dice, thrown),
            2 => voice_1(dice, thrown),
            3 => exclusive(dice, thrown, &mut words[1]),
            4 => voice_2(dice, thrown, &mut words[1]),
            _ => thrown,
        };
    words
}

fn system(dice: &mut Dice, thrown: u32) -> u32 {
    let status = dice.pick(&SYSTEM_STATUSES);
    let clear = match status {
        0xF1 | 0xF3 => 0x00FF_8000,
        0xF2 => 0x00FF_8080,
        _ => 0x00FF_0000,
    };
    thrown & !clear | status << 16
}

/// The number of the record that belongs to a voice packet with this first word.
pub fn record_number(first: u32) -> usize {
    (first >> 20 & 0xF0 | first >> 16 & 0x0F) as usize
}

/// Group and channel of a record, where they stand in a first word.
pub fn place_of(number: usize) -> u32 {
    (number as u32 & 0xF0) << 20 | (number as u32 & 0x0F) << 16
}

/// Group and channel; mostly few of them, so that their records are met again.
fn place(dice: &mut Dice, thrown: u32) -> u32 {
    if dice.one_in(4) {
        thrown & 0x0F0F_0000
    } else {
        dice.pick(&[0x0000_0000, 0x0001_0000, 0x0100_0000, 0x0F0F_0000])
    }
}

fn data(dice: &mut Dice) -> u32 {
    if dice.one_in(2) {
        dice.pick(&EDGE_DATA)
    } else {
        dice.below(128) as u32
    }
}

fn voice_1(dice: &mut Dice, thrown: u32) -> u32 {
    let status = dice.pick(&[
        0x8, 0x9, 0x9, 0xA, 0xB, 0xB, 0xB, 0xB, 0xB, 0xB, 0xC, 0xD, 0xE,
    ]);
    let index = match status {
        0xB if !dice.one_in(4) => dice.pick(&RECORD_INDEXES),
        _ => data(dice),
    };
    let last = match status {
        0xC | 0xD => thrown & 0xFF,
        _ => data(dice),
    };
    place(dice, thrown) | status << 20 | index << 8 | last
}

/// A packet like those of `packet`, but half of the MIDI 1.0 voices are about keys.
pub fn packet_about_keys(dice: &mut Dice, message_type: u32) -> [u32; 4] {
    let mut words = packet(dice, message_type);
    if message_type == 2 && dice.one_in(2) {
        words[0] = 0x2000_0000 | voice_about_keys(dice);
    }
    words
}

fn voice_about_keys(dice: &mut Dice) -> u32 {
    let any_key = dice.below(128) as u32;
    let key = match dice.below(2) {
        0 => dice.pick(&EDGE_KEYS),
        _ => any_key,
    };
    let (status, first, second) = match dice.below(16) {
        0..=7 => (0x9, key, data(dice).max(1)),
        8..=10 => (0x9, key, 0),
        11..=13 => (0x8, key, data(dice)),
        _ => (0xB, dice.pick(&KEY_INDEXES), data(dice)),
    };
    let thrown = dice.word();
    place(dice, thrown) | status << 20 | first << 8 | second
}

/// A packet like those of `packet`, but half of the MIDI 1.0 voices are about data entry.
pub fn packet_about_data(dice: &mut Dice, message_type: u32) -> [u32; 4] {
    let mut words = packet(dice, message_type);
    if message_type == 2 && dice.one_in(2) {
        words[0] = 0x2000_0000 | voice_about_data(dice);
    }
    words
}

/// Mostly a channel keeps to one kind of address, so that both halves of it come together.
fn voice_about_data(dice: &mut Dice) -> u32 {
    let thrown = dice.word();
    let place = place(dice, thrown);
    let registered = (place >> 16 & 1 == 0) != dice.one_in(8);
    let [bank, index] = if registered { [101, 100] } else { [99, 98] };
    let (controller, value) = match dice.below(16) {
        0..=2 => (bank, dice.pick(&EDGE_DATA)),
        3..=5 => (index, dice.pick(&EDGE_DATA)),
        6..=10 => (6, data(dice)),
        11..=14 => (38, data(dice)),
        _ => (dice.pick(&[121, 96, 97]), data(dice)),
    };
    place | 0x00B0_0000 | controller << 8 | value
}

fn exclusive(dice: &mut Dice, thrown: u32, second: &mut u32) -> u32 {
    let count = dice.below(7) as u32;
    let counted = !(u64::MAX >> (8 * count)) & 0x8080_8080_8080_0000;
    *second &= !(counted >> 16) as u32;
    let head = (dice.below(4) as u32) << 20 | count << 16;
    thrown & 0x0F00_FFFF & !(counted >> 48) as u32 | head
}

fn voice_2(dice: &mut Dice, thrown: u32, second: &mut u32) -> u32 {
    let status = dice.pick(&[
        0, 1, 2, 2, 2, 3, 3, 4, 5, 6, 8, 9, 9, 0xA, 0xB, 0xB, 0xC, 0xC, 0xD, 0xE, 0xF,
    ]);
    if dice.one_in(2) {
        *second = dice.pick(&EDGE_VALUES);
    }
    let head = place(dice, thrown) | status << 20;
    let low = match status {
        0x2..=0x5 => data(dice),
        _ => thrown & 0xFF,
    };
    if status == 0xC {
        let bank_bits = if low & 1 == 1 { 0x8080 } else { 0 };
        *second &= !(0x8000_0000 | bank_bits);
    }
    match status {
        0xC..=0xE => head | thrown & 0xFF00 | low,
        _ => head | data(dice) << 8 | low,
    }
}

/// How many checked fields the messages of a type and status have, so at how many places they can
/// be bad.
fn places(message_type: u32, status: u32) -> u32 {
    match (message_type, status) {
        (1, 0xF) => 2,
        (2, 0xC | 0xD) => 1,
        (2, 0x8..=0xE) => 2,
        (3, 0x0..=0x3) => 7,
        (4, 0x2..=0x5) => 2,
        (4, 0xC) => 3,
        (4, 0x7 | 0xD | 0xE) => 0,
        (4, _) => 1,
        _ => 0,
    }
}

/// A place of bad data: the type and the status of the message, and the field, from 1.
#[derive(Clone, Copy)]
pub struct BadField {
    message_type: u32,
    status: u32,
    place: u32,
}

/// Every place at which the messages of these types can be bad.
pub fn every_place(types: &[u32]) -> Vec<BadField> {
    let mut all = vec![];
    for message_type in types.iter().copied() {
        for status in 0..16 {
            all.extend((1..=places(message_type, status)).map(|place| BadField {
                message_type,
                status,
                place,
            }));
        }
    }
    all
}

// The highest bits of the checked fields in packet order, of the first two words as one number.
// What makes a count bad is not one bit.
const OF_BYTES: [u64; 2] = [1 << 47, 1 << 39];
const OF_EXCLUSIVE: [u64; 7] = [0, 1 << 47, 1 << 39, 1 << 31, 1 << 23, 1 << 15, 1 << 7];
const OF_PROGRAM: [u64; 3] = [1 << 31, 1 << 15, 1 << 7];

/// A packet that is bad at this place and at none before it; behind it stands whatever was thrown.
pub fn bad_packet(dice: &mut Dice, bad: BadField) -> [u32; 4] {
    let mut words = [0; 4].map(|_: u32| dice.word());
    let (keep, head) = bad_head(dice, bad);
    words[0] = words[0] & keep | head | bad.message_type << 28 | bad.status << 20;
    let fields = match (bad.message_type, bad.status) {
        (3, _) => &OF_EXCLUSIVE[..bad.place as usize],
        (4, 0xC) => &OF_PROGRAM[..bad.place as usize],
        _ => &OF_BYTES[..bad.place as usize],
    };
    let both = u64::from(words[0]) << 32 | u64::from(words[1]);
    let both = both & !fields.iter().sum::<u64>() | fields[fields.len() - 1];
    words[0] = (both >> 32) as u32;
    words[1] = both as u32;
    words
}

/// The bits of a first word that may be thrown, and others that give the message such a field.
fn bad_head(dice: &mut Dice, bad: BadField) -> (u32, u32) {
    let place = bad.place as usize;
    let count = |count: usize| (0x0F00_FFFF, (count as u32) << 16);
    match (bad.message_type, place) {
        (1, 1) => (0x0F00_FFFF, dice.pick(&[0x1_0000, 0x2_0000, 0x3_0000])),
        (1, _) => (0x0F00_FFFF, 0x2_0000),
        (3, 1) => count(7 + dice.below(9)),
        (3, _) => count(place - 1 + dice.below(8 - place)),
        (4, 2..) if bad.status == 0xC => (0x0F0F_FFFF, 1),
        _ => (0x0F0F_FFFF, 0),
    }
}

/// How often each place of bad data was named, for each type and status.
pub struct Named([[usize; 8]; 256]);

impl Named {
    pub fn new() -> Named {
        Named([[0; 8]; 256])
    }

    /// Counts the place that was named for the packet with this first word.
    pub fn count(&mut self, first: u32, place: u32) {
        let (message_type, status) = (first >> 28, first >> 20 & 15);
        assert!((1..=places(message_type, status)).contains(&place));
        self.0[(message_type << 4 | status) as usize][place as usize] += 1;
    }

    fn times(&self, bad: &BadField) -> usize {
        self.0[(bad.message_type << 4 | bad.status) as usize][bad.place as usize]
    }

    /// Every place at which the messages of these types can be bad was named.
    pub fn all_of(&self, types: &[u32]) -> bool {
        every_place(types).iter().all(|bad| self.times(bad) > 0)
    }

    /// How often each place of a type was named, from the first on.
    pub fn of_type(&self, message_type: u32) -> Vec<usize> {
        let mut sums = vec![];
        for bad in every_place(&[message_type]) {
            sums.resize(sums.len().max(bad.place as usize), 0);
            sums[bad.place as usize - 1] += self.times(&bad);
        }
        sums
    }
}
