//! Holds the calls of the five-pin sockets to the reading: one byte or many, one packet or many.
//! Usage: cable_sweeps [CASES] with the number of random cases, which follow millions of swept ones.

mod bytes;
// Not everything that the other comparison throws is thrown here.
#[allow(dead_code)]
mod packets;

use bytes::{every_pair, push_message, regroup};
use packets::{bad_packet, every_place, packet, Dice, Named};
use reading::{cable_idle, size, Cable, Done, Imported, BAD_DATA, NOT_SOUND, OUTPUT_SHORT};

#[link(name = "quernbrae", kind = "static")]
extern "C" {
    fn quernbrae_cable_idle() -> Cable;
    fn quernbrae_import(
        cable: Cable,
        group: u8,
        bytes: *const u8,
        bytes_len: usize,
        out: *mut u32,
        out_len: usize,
    ) -> Imported;
    fn quernbrae_run_import(
        cable: Cable,
        group: u8,
        bytes: *const u8,
        bytes_len: usize,
        out: *mut u32,
        out_len: usize,
    ) -> Imported;
    fn quernbrae_export(
        group: u8,
        words: *const u32,
        words_len: usize,
        out: *mut u8,
        out_len: usize,
    ) -> Done;
    fn quernbrae_run_export(
        group: u8,
        words: *const u32,
        words_len: usize,
        out: *mut u8,
        out_len: usize,
    ) -> Done;
}

const DEFAULT_CASES: usize = 1_000_000;

/// Places behind an output that a call must leave alone.
const GUARDS: usize = 16;

/// Answers are below this number.
const ANSWERS: usize = 26;

/// Groups at the edges of their range and of a byte.
const EDGE_GROUPS: [u8; 8] = [0, 1, 14, 15, 16, 17, 128, 255];

type ProductImport = unsafe extern "C" fn(Cable, u8, *const u8, usize, *mut u32, usize) -> Imported;
type ProductExport = unsafe extern "C" fn(u8, *const u32, usize, *mut u8, usize) -> Done;

/// A function of both sides, and the answers that can occur in it.
struct Function<P, R> {
    name: &'static str,
    product: P,
    reading: R,
    answers: &'static [usize],
}

/// The single call and the run of a direction.
type Both<P, R> = [Function<P, R>; 2];
const SINGLE: usize = 0;
const RUN: usize = 1;

static IMPORTS: Both<ProductImport, fn(Cable, u8, &[u8], &mut [u32]) -> Imported> = [
    Function {
        name: "import",
        product: quernbrae_import,
        reading: reading::import,
        answers: &[0, 1, 3, 8, 9, 11, 12, 24],
    },
    Function {
        name: "run_import",
        product: quernbrae_run_import,
        reading: reading::run_import,
        answers: &[0, 8, 9, 24],
    },
];

static EXPORTS: Both<ProductExport, fn(u8, &[u32], &mut [u8]) -> Done> = [
    Function {
        name: "export",
        product: quernbrae_export,
        reading: reading::export,
        answers: &[0, 1, 3, 4, 6, 7, 9, 24, 25],
    },
    Function {
        name: "run_export",
        product: quernbrae_run_export,
        reading: reading::run_export,
        answers: &[0, 3, 9, 24],
    },
];

/// The outputs of both sides, which go on behind the lent room.
struct Outputs<T> {
    product: Vec<T>,
    reading: Vec<T>,
}

impl<T: Copy> Outputs<T> {
    fn new() -> Outputs<T> {
        Outputs {
            product: vec![],
            reading: vec![],
        }
    }

    fn make_room(&mut self, room: usize, filler: T) {
        for side in [&mut self.product, &mut self.reading] {
            side.clear();
            side.resize(room + GUARDS, filler);
        }
    }
}

/// The outputs of the case in hand, and what was seen so far.
struct Comparison {
    dice: Dice,
    words: Outputs<u32>,
    bytes: Outputs<u8>,
    imports: [[usize; ANSWERS]; 2],
    exports: [[usize; ANSWERS]; 2],
    named: Named,
    taken_up_again: usize,
}

impl Comparison {
    fn new() -> Comparison {
        Comparison {
            dice: Dice::new(100),
            words: Outputs::new(),
            bytes: Outputs::new(),
            imports: [[0; ANSWERS]; 2],
            exports: [[0; ANSWERS]; 2],
            named: Named::new(),
            taken_up_again: 0,
        }
    }

    /// Imports on both sides, and compares what they return and what stands in their outputs.
    fn import(
        &mut self,
        which: usize,
        cable: Cable,
        group: u8,
        bytes: &[u8],
        room: usize,
    ) -> Imported {
        let function = &IMPORTS[which];
        let filler = self.dice.word();
        self.words.make_room(room, filler);
        let out = self.words.product.as_mut_ptr();
        // Behind the room there are guards, and the bytes are a slice.
        let done =
            unsafe { (function.product)(cable, group, bytes.as_ptr(), bytes.len(), out, room) };
        let expected = (function.reading)(cable, group, bytes, &mut self.words.reading[..room]);
        self.imports[which][expected.answer as usize] += 1;
        if done != expected || self.words.product != self.words.reading {
            println!(
                "DIFFERENCE in {}: {cable:X?}, group {group}, room {room}",
                function.name
            );
            println!("bytes: {bytes:02X?}\nproduct: {done:X?}\nreading: {expected:X?}");
            println!("product wrote {:08X?}", &self.words.product);
            println!("reading wrote {:08X?}", &self.words.reading);
            std::process::exit(1);
        }
        expected
    }

    /// Exports on both sides, and compares what they return and what stands in their outputs.
    fn export(&mut self, which: usize, group: u8, words: &[u32], room: usize) -> Done {
        let function = &EXPORTS[which];
        let filler = self.dice.word() as u8;
        self.bytes.make_room(room, filler);
        let out = self.bytes.product.as_mut_ptr();
        // Behind the room there are guards, and the words are a slice.
        let done = unsafe { (function.product)(group, words.as_ptr(), words.len(), out, room) };
        let expected = (function.reading)(group, words, &mut self.bytes.reading[..room]);
        self.exports[which][expected.answer as usize] += 1;
        if expected.answer == BAD_DATA {
            self.named.count(words[0], expected.place);
        }
        if done != expected || self.bytes.product != self.bytes.reading {
            println!(
                "DIFFERENCE in {}: group {group}, room {room}",
                function.name
            );
            println!("words: {words:08X?}\nproduct: {done:?}\nreading: {expected:?}");
            println!("product wrote {:02X?}", &self.bytes.product);
            println!("reading wrote {:02X?}", &self.bytes.reading);
            std::process::exit(1);
        }
        expected
    }

    fn import_both(&mut self, cable: Cable, group: u8, bytes: &[u8], room: usize) {
        for which in [SINGLE, RUN] {
            self.import(which, cable, group, bytes, room);
        }
    }

    fn export_both(&mut self, group: u8, words: &[u32], room: usize) {
        for which in [SINGLE, RUN] {
            self.export(which, group, words, room);
        }
    }

    /// Single calls over all the bytes, each from the cable that the one before it left.
    fn import_each(&mut self, mut cable: Cable, group: u8, bytes: &[u8]) {
        let mut place = 0;
        while place < bytes.len() {
            let one = self.import(SINGLE, cable, group, &bytes[place..], 2);
            place += one.read;
            cable = one.after;
        }
    }
}

fn cable(running: u8, status: u8, begun: u8, held: &[u8]) -> Cable {
    let mut cable = Cable {
        running,
        status,
        begun,
        count: held.len() as u8,
        ..cable_idle()
    };
    cable.held[..held.len()].copy_from_slice(held);
    cable
}

/// Sound cables: nothing open, and messages of every sort at every count.
fn states() -> Vec<Cable> {
    let mut states = vec![
        cable_idle(),
        cable(0x93, 0, 0, &[]),
        cable(0xC5, 0, 0, &[]),
        cable(0, 0x80, 0, &[]),
        cable(0, 0x93, 0, &[60]),
        cable(0x93, 0x93, 0, &[]),
        cable(0xEF, 0xEF, 0, &[127]),
        cable(0, 0xDF, 0, &[]),
        cable(0xC5, 0xC5, 0, &[]),
        cable(0, 0xF1, 0, &[]),
        cable(0, 0xF2, 0, &[]),
        cable(0, 0xF2, 0, &[5]),
        cable(0, 0xF3, 0, &[]),
        cable(0, 0xF0, 0, &[]),
    ];
    for count in [1, 5, 6] {
        let held = &[1, 127, 2, 0, 3, 126][..count];
        states.extend([cable(0, 0xF0, 0, held), cable(0, 0xF0, 1, held)]);
    }
    assert!(states.iter().all(Cable::sound));
    states
}

/// Sweeps over imports.
impl Comparison {
    /// Every byte and none, from every sort of cable, in every group and with little room.
    fn every_byte(&mut self) {
        for state in states() {
            for room in 0..4 {
                for group in EDGE_GROUPS {
                    self.import_both(state, group, &[], room);
                    for byte in 0..=255 {
                        self.import_both(state, group, &[byte, 0xF7][..1], room);
                    }
                }
            }
            for group in 0..=255 {
                self.import_both(state, group, &[0xF8, 0xF7, 0x90, 1, 2], 9);
            }
        }
    }

    /// Every two neighbouring bytes, from every sort of cable.
    fn every_pair(&mut self) {
        for state in states() {
            for pair in 0..=u16::MAX {
                let bytes = pair.to_be_bytes();
                let group = self.dice.below(16) as u8;
                let room = self.dice.below(9);
                self.import(RUN, state, group, &bytes, room);
                self.import_each(state, group, &bytes);
            }
        }
    }

    /// Every two neighbouring bytes in one run, with little room, half of it, and about enough.
    fn every_pair_in_one_run(&mut self) {
        let bytes = every_pair();
        for state in states() {
            let whole = self.import(RUN, state, 15, &bytes, 2 * bytes.len()).written;
            for room in [
                0,
                1,
                2,
                3,
                whole / 2,
                whole - 2,
                whole - 1,
                whole,
                whole + 1,
            ] {
                self.import(RUN, state, 15, &bytes, room);
            }
        }
    }

    /// Every value of each number of every sort of cable, and every two values of running and status.
    fn every_cable(&mut self) {
        for state in states() {
            for place in 0..10 {
                for value in 0..=255 {
                    self.from_any_cable(changed(state, place, value));
                }
            }
        }
        for pair in 0..=u16::MAX {
            let [running, status] = pair.to_be_bytes();
            for (begun, held) in [(0, &[][..]), (0, &[1]), (1, &[1]), (0, &[1, 2])] {
                self.from_any_cable(cable(running, status, begun, held));
            }
        }
    }

    fn from_any_cable(&mut self, state: Cable) {
        let byte = self
            .dice
            .pick(&[0x00, 0x7F, 0x80, 0x93, 0xF0, 0xF4, 0xF7, 0xF8, 0xF9]);
        let group = self.dice.pick(&EDGE_GROUPS);
        let (bytes, room) = ([byte, 0x40, 0xF7], self.dice.below(8));
        let length = self.dice.below(4);
        self.import_both(state, 15, &bytes[..length], room);
        self.import_both(state, group, &bytes, room);
    }
}

/// The cable with another number at one place, in the order of its fields.
fn changed(mut state: Cable, place: usize, value: u8) -> Cable {
    match place {
        0 => state.running = value,
        1 => state.status = value,
        2 => state.begun = value,
        3 => state.count = value,
        _ => state.held[place - 4] = value,
    }
    state
}

/// A packet of four words, of which its size counts.
type Packet = [u32; 4];

/// Sweeps over exports.
impl Comparison {
    /// Every value of a first word's upper half, with good data mostly, in its group and in another.
    fn every_head(&mut self) {
        for head in 0..=u16::MAX {
            let own = (head >> 8 & 15) as u8;
            for group in [own, own ^ 1 << self.dice.below(4)] {
                let mut words: Packet = [0; 4].map(|_: u32| self.dice.word());
                if !self.dice.one_in(4) {
                    words = words.map(|word| word & 0x7F7F_7F7F);
                }
                words[0] = u32::from(head) << 16 | words[0] & 0xFFFF;
                let (length, room) = (self.dice.pick(&[4, 4, 4, 0, 1, 2, 3]), self.dice.below(10));
                self.export_both(group, &words[..length], room);
            }
        }
    }

    /// Every room for every message of a type that has bytes.
    fn every_room(&mut self) {
        for message_type in 1..4 {
            for status in 0..256 {
                let first = message_type << 28 | 0x0300_0102 | status << 16;
                for room in 0..10 {
                    self.export_both(3, &[first, 0x0304_0506], room);
                }
            }
        }
    }

    /// Every two data bytes of every voice, and of the system messages that have data.
    fn every_data(&mut self) {
        let voices = (0x8..0xF).map(|status| 0x2000_0000 | status << 20);
        for head in voices.chain([0x10F1_0000, 0x10F2_0000, 0x10F3_0000]) {
            for data in 0..=0xFFFF {
                let which = self.dice.below(2);
                self.export(which, 0, &[head | data], 3);
            }
        }
    }

    /// Every place of bad data, with whatever behind it.
    fn every_bad_place(&mut self) {
        for bad in every_place(&[1, 2, 3]) {
            for _ in 0..500 {
                let mut words = bad_packet(&mut self.dice, bad);
                let group = self.dice.below(16) as u8;
                let size = size(words[0]);
                regroup(&mut self.dice, group, &mut words[..size]);
                let room = self.dice.below(10);
                self.export_both(group, &words[..size], room);
            }
        }
    }

    /// Every group for a packet of every type and length.
    fn every_group(&mut self) {
        for group in 0..=255 {
            for message_type in 0..16 {
                for length in 0..5 {
                    let mut words = packet(&mut self.dice, message_type);
                    regroup(&mut self.dice, group, &mut words[..1]);
                    let room = self.dice.below(10);
                    self.export_both(group, &words[..length], room);
                }
            }
        }
    }
}

/// Random cases.
impl Comparison {
    fn throw_group(&mut self) -> u8 {
        let any = self.dice.word() as u8;
        let group = any & 15;
        self.dice
            .pick(&[group, group, group, group, group, group, group, any])
    }

    /// Mostly an idle cable or a sound one, and sometimes one with a number changed.
    fn throw_cable(&mut self) -> Cable {
        let sound = self.dice.pick(&states());
        let (place, value) = (self.dice.below(10), self.dice.word() as u8);
        let any = changed(sound, place, value);
        self.dice
            .pick(&[cable_idle(), cable_idle(), sound, sound, sound, any])
    }

    fn random_import(&mut self) {
        let (cable, group) = (self.throw_cable(), self.throw_group());
        let mut bytes = vec![];
        for _ in 0..self.dice.below(12) {
            push_message(&mut self.dice, &mut bytes);
        }
        let length = match self.dice.below(3) {
            0 => self.dice.below(bytes.len() + 1),
            _ => bytes.len(),
        };
        let bytes = &bytes[..length];
        let room = match self.dice.below(3) {
            0 => self.dice.below(4),
            1 => self.dice.below(length + 1),
            _ => 2 * length + 2,
        };
        self.import(SINGLE, cable, group, bytes, room);
        let done = self.import(RUN, cable, group, bytes, room);
        if done.answer == OUTPUT_SHORT {
            self.take_up_import_again(cable, group, bytes, done);
        }
        if done.answer != NOT_SOUND && group < 16 && self.dice.one_in(4) {
            self.import_each(cable, group, bytes);
        }
    }

    /// A run that stopped at 9 is taken up again where it reports: the whole comes.
    fn take_up_import_again(&mut self, cable: Cable, group: u8, bytes: &[u8], first: Imported) {
        let mut words = self.words.product[..first.written].to_vec();
        let rest = &bytes[first.read..];
        let second = self.import(RUN, first.after, group, rest, 2 * bytes.len() + 2);
        words.extend(&self.words.product[..second.written]);
        let whole = self.import(RUN, cable, group, bytes, 2 * bytes.len() + 2);
        assert_eq!(words, self.words.product[..whole.written]);
        assert_eq!(first.read + second.read, whole.read);
        assert_eq!((second.answer, second.after), (whole.answer, whole.after));
        self.taken_up_again += 1;
    }

    fn random_export(&mut self) {
        let group = self.throw_group();
        let mut words = vec![];
        for _ in 0..self.dice.below(12) {
            let any_type = self.dice.below(16) as u32;
            let message_type = self.dice.pick(&[1, 2, 2, 3, 3, any_type]);
            let packet = packet(&mut self.dice, message_type);
            words.extend(&packet[..size(packet[0])]);
        }
        regroup(&mut self.dice, group, &mut words);
        if !words.is_empty() && self.dice.one_in(4) {
            let place = self.dice.below(words.len());
            words[place] ^= 1 << self.dice.below(32);
        }
        let length = match self.dice.below(3) {
            0 => self.dice.below(words.len() + 1),
            _ => words.len(),
        };
        let words = &words[..length];
        let room = match self.dice.below(3) {
            0 => self.dice.below(10),
            1 => self.dice.below(3 * length + 1),
            _ => 4 * length,
        };
        self.export(SINGLE, group, words, room);
        let done = self.export(RUN, group, words, room);
        if done.answer == OUTPUT_SHORT {
            self.take_up_export_again(group, words, done);
        }
    }

    fn take_up_export_again(&mut self, group: u8, words: &[u32], first: Done) {
        let mut bytes = self.bytes.product[..first.written].to_vec();
        let second = self.export(RUN, group, &words[first.read..], 4 * words.len());
        bytes.extend(&self.bytes.product[..second.written]);
        let whole = self.export(RUN, group, words, 4 * words.len());
        assert_eq!(bytes, self.bytes.product[..whole.written]);
        assert_eq!(first.read + second.read, whole.read);
        assert_eq!(second.answer, whole.answer);
        self.taken_up_again += 1;
    }
}

/// Prints how often a function gave each of its answers; false if one never came.
fn row(name: &str, answers: &[usize], seen: &[usize; ANSWERS]) -> bool {
    let counts: Vec<_> = answers
        .iter()
        .map(|n| format!("{n}: {}", seen[*n]))
        .collect();
    println!("{name} answered {}", counts.join(", "));
    answers.iter().all(|answer| seen[*answer] > 0)
}

impl Comparison {
    /// How often each answer and each place was seen; fails if one that can occur was not.
    fn summary(&self) {
        let counts = self
            .imports
            .as_flattened()
            .iter()
            .chain(self.exports.as_flattened());
        println!("{} cases without a difference", counts.sum::<usize>());
        println!(
            "{} runs taken up again after 9 gave the whole",
            self.taken_up_again
        );
        let mut complete = self.taken_up_again > 0 && self.named.all_of(&[1, 2, 3]);
        for which in [SINGLE, RUN] {
            let (import, export) = (&IMPORTS[which], &EXPORTS[which]);
            complete &= row(import.name, import.answers, &self.imports[which]);
            complete &= row(export.name, export.answers, &self.exports[which]);
        }
        for message_type in [1, 2, 3] {
            let named = self.named.of_type(message_type);
            println!("export named places of type {message_type}: {named:?}");
        }
        if !complete {
            println!("something that can occur was never seen");
            std::process::exit(1);
        }
    }
}

fn main() {
    let cases = match std::env::args().nth(1) {
        Some(cases) => cases.parse().expect("usage: cable_sweeps [CASES]"),
        None => DEFAULT_CASES,
    };
    // It takes nothing and gives back a plain cable.
    let product_idle = unsafe { quernbrae_cable_idle() };
    assert_eq!(product_idle, cable_idle(), "quernbrae_cable_idle differs");
    let mut comparison = Comparison::new();
    comparison.every_byte();
    comparison.every_pair();
    comparison.every_pair_in_one_run();
    comparison.every_cable();
    comparison.every_head();
    comparison.every_room();
    comparison.every_data();
    comparison.every_bad_place();
    comparison.every_group();
    for _ in 0..cases / 2 {
        comparison.random_import();
        comparison.random_export();
    }
    comparison.summary();
}
