//! Packets for the tuning desk, scenes that show each rule of it, and a count of what its lines show.

use crate::packets::{packet, Dice};

/// Notes that are played again and again.
const NOTES: [u32; 5] = [0, 1, 60, 69, 127];

/// Bends at the ends, around the middle, and halfway.
const BENDS: [u32; 9] = [
    0, 1, 0x40000000, 0x7FFFFFFF, 0x80000000, 0x80000001, 0xC0000000, 0xFFFFFFFE, 0xFFFFFFFF,
];

/// Pitches of 7.25 and of 7.9, of which some are whole numbers of units.
const PITCHES_7_25: [u32; 7] = [
    0, 1, 0x78000000, 0x8A800000, 0x01FFFFFF, 0xFE000000, 0xFFFFFFFF,
];
const PITCHES_7_9: [u32; 7] = [0, 1, 0x7800, 0x8A80, 0x01FF, 0xFE00, 0xFFFF];

/// Controllers that end all notes, and others near them or with the same number elsewhere.
const CONTROLLERS: [u32; 8] = [120, 123, 119, 121, 122, 124, 3, 0];

/// A voice of the channel at this place in a word, of which most change what is shown.
pub fn throw_voice(dice: &mut Dice, place: u32) -> [u32; 2] {
    let (one, any) = (dice.pick(&NOTES), dice.below(128) as u32);
    let number = if dice.one_in(16) { any } else { one };
    let (note, value) = (number << 8, dice.word());
    let (first, second) = match dice.below(32) {
        0..=5 => (0x90_0000 | note | dice.pick(&[0, 0, 1, 2, 4, 255]), value),
        6..=9 => (
            0x90_0003 | note,
            value << 16 | some(dice, &PITCHES_7_9) & 0xFFFF,
        ),
        10..=16 => (0x80_0000 | note | dice.pick(&[0, 3]), value),
        17..=20 => (note | 3, some(dice, &PITCHES_7_25)),
        21..=25 => (0xE0_0000 | value & 0xFFFF, some(dice, &BENDS)),
        26..=28 => (0xB0_0000 | dice.pick(&CONTROLLERS) << 8, value),
        29 => (note | dice.pick(&[0, 2, 4, 0x83]), value),
        30 => (dice.pick(&NOT_READ) << 20 | note | 3, value & 0x7F7F_7F7F),
        _ => (dice.pick(&NOT_SOUND) | note, value),
    };
    [0x4000_0000 | place | first, second]
}

/// Statuses that speak of notes or of pitch, but not to the desk.
const NOT_READ: [u32; 7] = [0x1, 0x2, 0x3, 0x4, 0x6, 0xA, 0xF];

/// Heads of packets that would change what is shown if they were sound.
const NOT_SOUND: [u32; 7] = [
    0x708000, 0x908000, 0x908003, 0x808000, 0x008003, 0xB0F800, 0xB0FB00,
];

/// Mostly one of these numbers.
fn some(dice: &mut Dice, numbers: &[u32]) -> u32 {
    let (one, any) = (dice.pick(numbers), dice.word());
    dice.pick(&[one, one, one, any])
}

/// A packet of a type: of MIDI 2.0 voices a part are for the desk's channel or for one beside it, and
/// MIDI 1.0 voices speak of notes there too.
pub fn packet_about_tuning(dice: &mut Dice, message_type: u32, place: u32) -> [u32; 4] {
    let beside = dice.pick(&[place ^ 0x0001_0000, place ^ 0x0100_0000]);
    let [first, second] = match (message_type, dice.below(5)) {
        (4, 0) => throw_voice(dice, place),
        (4, 1) => throw_voice(dice, beside),
        (2, 0) => throw_voice(dice, place).map(|word| word ^ 0x6000_0000),
        _ => return packet(dice, message_type),
    };
    [first, second, 0, 0]
}

/// The words of scenes on one channel. Each but the first begins with silence.
struct Scenes {
    place: u32,
    words: Vec<u32>,
}

/// All scenes, one after another, on the channel at this place in a word.
pub fn every_scene(place: u32) -> Vec<u32> {
    let words = vec![];
    let mut scenes = Scenes { place, words };
    scenes.requested();
    scenes.bases();
    scenes.bends();
    scenes.every_note();
    scenes.every_status();
    scenes.every_index();
    scenes.every_note_at_once();
    scenes.words
}

impl Scenes {
    fn voice(&mut self, first: u32, second: u32) {
        self.words
            .extend([0x4000_0000 | self.place | first, second]);
    }

    fn silence(&mut self) {
        self.voice(0xB0_7B00, 0);
    }

    fn on(&mut self, note: u32) {
        self.voice(0x90_0000 | note << 8, 0x8000_0000);
    }

    fn on_at(&mut self, note: u32, pitch: u32) {
        self.voice(0x90_0003 | note << 8, 0x8000_0000 | pitch);
    }

    fn off(&mut self, note: u32) {
        self.voice(0x80_0000 | note << 8, 0);
    }

    fn bend(&mut self, value: u32) {
        self.voice(0xE0_0000, value);
    }

    fn pitch(&mut self, note: u32, pitch: u32) {
        self.voice(note << 8 | 3, pitch);
    }

    /// The request's own example, and the same note again without its attribute.
    fn requested(&mut self) {
        self.on_at(69, 0x8A80);
        self.bend(0xC000_0000);
        self.off(69);
        self.on(69);
        self.bend(0x8000_0000);
    }

    /// Each base over each other one, from one Note On to the next and while the note sounds.
    fn bases(&mut self) {
        self.silence();
        for note in [0, 60, 127] {
            for at in PITCHES_7_9 {
                self.on_at(note, at);
                self.on(note);
            }
            for pitch in PITCHES_7_25 {
                self.pitch(note, pitch);
                self.on_at(note, pitch >> 16);
                self.pitch(note, pitch ^ 0x0200_0000);
                // A base of another sort with the same pitch is another picture.
                self.on(note);
                self.on_at(note, note << 9);
                self.pitch(note, note << 25);
                self.on(note);
                self.on(note);
            }
            self.off(note);
            self.off(note);
            self.pitch(note, 0x0123_4567);
            self.on(note);
            self.off(note);
        }
    }

    /// Each bend with each base, and with nothing sounding.
    fn bends(&mut self) {
        self.silence();
        self.bend(0);
        self.on_at(1, 0x1234);
        self.pitch(2, 0x4567_89AB);
        self.on(2);
        self.on(3);
        for value in BENDS {
            self.bend(value);
            self.bend(value);
        }
        // The bend stays where it is through silence.
        self.silence();
        self.on(3);
        self.voice(0xB0_7900, 0);
        self.bend(0x8000_0000);
    }

    /// Every note by itself, silent Note Ons among them.
    fn every_note(&mut self) {
        self.silence();
        for note in 0..128 {
            self.voice(0x90_0000 | note << 8, note % 2 << 31);
            self.off(note);
        }
    }

    /// Every status while a note sounds, with numbers that mean something elsewhere.
    fn every_status(&mut self) {
        for status in 0..16 {
            for low in [0, 1, 3] {
                self.silence();
                self.bend(0x8000_0000);
                self.on(60);
                self.voice(status << 20 | 60 << 8 | low, 0x7A00_7C00);
                self.voice(status << 20 | 188 << 8 | low, 0x7A00_7C00);
            }
        }
    }

    /// Every controller, every controller of a note and every attribute type.
    fn every_index(&mut self) {
        self.silence();
        for index in 0..256 {
            self.on(61);
            self.voice(0xB0_0000 | index << 8, 0);
            self.voice(61 << 8 | index, 0x7A80_0000 | index);
            self.voice(0x10_0000 | 61 << 8 | index, 0x7C00_0000);
            self.voice(0x90_0000 | 61 << 8 | index, 0x8000_7A00);
        }
    }

    /// The longest lines: all notes come, are bent to the longest fractions, and go.
    fn every_note_at_once(&mut self) {
        self.silence();
        self.bend(0x8000_0000);
        for note in (0..128).rev() {
            self.on(note);
        }
        self.bend(0x7FFF_FFFF);
        self.bend(0x8000_0000);
        self.voice(0xB0_7800, 0);
    }
}

/// What the lines have shown.
#[derive(Default)]
pub struct Pictures {
    lines: usize,
    silent: usize,
    bases: [usize; 3],
    below_0: usize,
    whole: usize,
    most_notes: usize,
    most_digits: usize,
}

impl Pictures {
    pub fn count(&mut self, lines: &str) {
        for line in lines.lines() {
            let mut fields = line.split(' ');
            let notes = fields
                .next()
                .and_then(|n| n.parse().ok())
                .expect("a number");
            self.lines += 1;
            self.silent += usize::from(notes == 0);
            self.most_notes = self.most_notes.max(notes);
            while let (Some(_), Some(base), Some(pitch)) =
                (fields.next(), fields.next(), fields.next())
            {
                self.count_note(base, pitch);
            }
        }
    }

    fn count_note(&mut self, base: &str, pitch: &str) {
        let number = ["note", "7.25", "7.9"]
            .iter()
            .position(|name| *name == base);
        self.bases[number.expect("a base")] += 1;
        self.below_0 += usize::from(pitch.starts_with('-'));
        match pitch.split_once('.') {
            Some((_, digits)) => self.most_digits = self.most_digits.max(digits.len()),
            None => self.whole += 1,
        }
    }

    /// Prints the counts; false if something that can be shown never was.
    pub fn summary(&self, who: &str) -> bool {
        println!("{who}: {} lines, silence in {}", self.lines, self.silent);
        let (bases, below_0, whole) = (self.bases, self.below_0, self.whole);
        println!("{who}: notes by base {bases:?}, below 0 {below_0}, whole numbers {whole}");
        let (notes, digits) = (self.most_notes, self.most_digits);
        println!("{who}: at most {notes} notes in a line and {digits} digits of a fraction");
        let seen = [self.silent, below_0, whole];
        let complete = seen.iter().chain(&bases).all(|count| *count > 0);
        complete && notes == 128 && digits == 31
    }
}
