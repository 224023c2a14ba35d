//! Packets for the panel. Each scene has channels of its own, whose lamps show what came of it.

use crate::packets::Dice;

const NOTE_OFF: u32 = 0x80;
const NOTE_ON: u32 = 0x90;
const CONTROL: u32 = 0xB0;
const ALL_SOUND_OFF: u32 = 120;
const ALL_NOTES_OFF: u32 = 123;

/// The words of the scenes, each of them behind the one before.
struct Scenes<'a> {
    dice: &'a mut Dice,
    words: Vec<u32>,
}

/// All scenes, one after another.
pub fn every_scene(dice: &mut Dice) -> Vec<u32> {
    let words = vec![];
    let mut scenes = Scenes { dice, words };
    scenes.every_controller();
    scenes.every_status();
    scenes.every_key();
    scenes.every_key_lifted_from_below();
    scenes.four_keys_left_alone();
    scenes.pressed_and_lifted();
    scenes.words
}

/// How lines of the panel begin after the scenes.
const LINES: [&str; 19] = [
    "7 9 ",
    "8 7 1 64 ",
    "8 9 2 60 ",
    "8 11 1 64 ",
    "9 0 8 0 ",
    "9 15 8 15 ",
    "10 0 128 0 ",
    "10 2 65 63 ",
    "10 6 1 127 ",
    "11 0 128 0 ",
    "11 3 64 64 ",
    "11 6 1 127 ",
    "12 0 4 0 ",
    "12 3 4 0 ",
    "12 5 4 0 ",
    "12 7 4 0 ",
    "13 1 1 61 ",
    "13 2 1 60 ",
    "13 3 1 64 ",
];

/// How no line begins, since all keys of these channels are up.
const NO_LINES: [&str; 7] = ["7 8 ", "7 11 ", "8 8 ", "10 7 ", "11 7 ", "13 0 ", "13 15 "];

/// Fails unless the panel shows what the scenes are for, and stuck notes of every group.
pub fn check_panel(output: &[u8]) {
    let text = std::str::from_utf8(output).expect("the panel is text");
    let shown = |head: &str| text.lines().any(|line| line.starts_with(head));
    for head in LINES {
        assert!(shown(head), "no line begins with {head}");
    }
    for head in NO_LINES {
        assert!(!shown(head), "a line begins with {head}");
    }
    assert!((0..16).all(|group| shown(&format!("{group} "))));
    println!("panel: {} channels with keys down", text.lines().count());
}

impl Scenes<'_> {
    fn voice(&mut self, place: u32, status: u32, first: u32, second: u32) {
        let word = 0x20000000 | place | status << 16 | first << 8 | second;
        self.words.push(word);
    }

    fn press(&mut self, place: u32, key: u32) {
        let velocity = 1 + self.dice.below(127) as u32;
        self.voice(place, NOTE_ON, key, velocity);
    }

    /// Lifts all keys of a channel, whatever was heard of it before.
    fn silence(&mut self, place: u32, controller: u32) {
        let value = self.dice.below(128) as u32;
        self.voice(place, CONTROL, controller, value);
    }

    /// Groups 0 to 7: keys are pressed on 128 channels, and each hears another controller then.
    fn every_controller(&mut self) {
        for index in 0..128 {
            let place = (index / 16) << 24 | (index % 16) << 16;
            let thrown = self.dice.below(128) as u32;
            for key in [index, 127 - index, thrown] {
                self.press(place, key);
            }
            let value = self.dice.below(128) as u32;
            self.voice(place, CONTROL, index, value);
        }
    }

    /// Group 8: of all statuses, each on its own channel, one presses key 60 and one lifts key 64.
    fn every_status(&mut self) {
        for status in 0..16 {
            let place = 0x08000000 | status << 16;
            self.silence(place, ALL_NOTES_OFF);
            self.press(place, 64);
            self.voice(place, status << 4, 60, 65);
            self.voice(place, status << 4, 64, 65);
        }
    }

    /// Group 9: every key is pressed on one channel.
    fn every_key(&mut self) {
        for channel in 0..16 {
            let place = 0x09000000 | channel << 16;
            self.silence(place, ALL_SOUND_OFF);
            for key in (channel..128).step_by(16) {
                self.press(place, key);
            }
        }
    }

    /// Groups 10 and 11: all keys are pressed and those below some key are lifted, by Note Off in
    /// the one group and by a silent Note On in the other.
    fn every_key_lifted_from_below(&mut self) {
        for (channel, lowest) in (0..).zip([0, 1, 63, 64, 65, 126, 127, 128]) {
            let place = 0x0A000000 | channel << 16;
            let silent_place = 0x0B000000 | channel << 16;
            for key in 0..128 {
                self.press(place, key);
                self.press(silent_place, key);
            }
            for key in 0..lowest {
                let velocity = self.dice.below(128) as u32;
                self.voice(place, NOTE_OFF, key, velocity);
                self.voice(silent_place, NOTE_ON, key, 0);
            }
        }
    }

    /// Group 12: keys 0, 63, 64 and 127 are pressed, and then comes what must not move any key.
    fn four_keys_left_alone(&mut self) {
        for (channel, words) in (0..).zip(NO_KEY_MOVES) {
            let place = 0x0C000000 | channel << 16;
            self.silence(place, ALL_NOTES_OFF);
            for key in [0, 63, 64, 127] {
                self.press(place, key);
            }
            self.words.extend(words);
        }
    }

    /// Group 13: a key has no memory of how often it was pressed or how hard.
    fn pressed_and_lifted(&mut self) {
        for channel in 0..4 {
            self.silence(0x0D000000 | channel << 16, ALL_NOTES_OFF);
        }
        self.words.extend([0x2D903C40, 0x2D903C40, 0x2D803C40]);
        self.words.extend([0x2D813C40, 0x2D813D40, 0x2D913D40]);
        self.words.extend([0x2D923C01, 0x2D923D40, 0x2D923E7F]);
        self.words.extend([0x2D823D00, 0x2D823E7F]);
        self.words.extend([0x2D934040, 0x2DB37800, 0x2D934040]);
        self.press(0x0D0F0000, 60);
        self.silence(0x0D0F0000, ALL_SOUND_OFF);
    }
}

/// For the channels of group 12, from 0 on, packets that speak of keys but move none: most of them
/// would press key 60, or lift one of the four, if they were taken for what they look like.
const NO_KEY_MOVES: [&[u32]; 8] = [
    // bad data in notes
    &[
        0x2C903C80, 0x2C903CFF, 0x2C90BC40, 0x2C803F80, 0x2C80BF40, 0x2C904080, 0x2C90C000,
    ],
    // bad data in controllers
    &[0x2CB17880, 0x2CB17BFF, 0x2CB1F800, 0x2CB1FB00],
    // bad statuses
    &[
        0x2C023C40, 0x2C123C40, 0x2C223C40, 0x2C327800, 0x2C423C40, 0x2C523C40, 0x2C627B00,
        0x2C723C40, 0x2CF23C40, 0x2CF24000, 0x2CF27B00,
    ],
    // MIDI 2.0 voices
    &[
        0x4C933C00, 0xFFFF0000, 0x4C833F00, 0x00000000, 0x4C934000, 0x00000000, 0x4CB37800,
        0x00000000, 0x4CB37B00, 0x00000000,
    ],
    // reserved types
    &[
        0x6C943C40, 0x7C844040, 0x8C943C40, 0x2C943C40, 0x9CB47800, 0x2CB47800, 0xAC840040,
        0x2C840040, 0xBC943C40, 0x2C943C40, 0x2CB47B00, 0xCC943C40, 0x2C847F00, 0x2C943C40,
        0xEC943C40, 0x2C943C40, 0x2C843F40, 0x2CB47B00,
    ],
    // words within longer packets
    &[
        0x3C003C40, 0x2C953C40, 0x5C953C40, 0x2C953C40, 0x2C853F40, 0x2CB57800, 0xDC953C40,
        0x2C854040, 0x2C953C40, 0x2CB57B00, 0xFC953C40, 0x2C950000, 0x2CB57800, 0x2C953C40,
    ],
    // utility and system messages
    &[
        0x0C263C40, 0x0C963C40, 0x1CF23C40, 0x1CF83F00, 0x1C963C40, 0x1C864000,
    ],
    // voices that are sent and move no key
    &[
        0x2CA73C40, 0x2CA74000, 0x2CB77900, 0x2CB7797F, 0x2CB77700, 0x2CB77A00, 0x2CB77C00,
        0x2CB77D00, 0x2CB77E00, 0x2CB77F00, 0x2CB70003, 0x2CB72004, 0x2CC73C00, 0x2CD73C00,
        0x2CE73C40,
    ],
];
