//! Runs the product's program `desk` on packets of every sort, and holds what it prints to the
//! reading.
//! Usage: desk_runs RUNS COMMAND.. with the number of random streams, which follow the hand-made
//! ones, and the words that start the program. A random stream has up to some thousand packets.

// Not every sort of packet is thrown here.
#[allow(dead_code)]
mod packets;
mod programs;
mod tunings;

use packets::{bad_packet, every_place, Dice};
use programs::{hold, Program};
use reading::{desk, size};
use tunings::{every_scene, packet_about_tuning, throw_voice, Pictures};

/// The words of one buffer of 64 KiB.
const BUFFER: usize = 16384;

struct Runs {
    program: Program,
    pictures: Pictures,
    runs: usize,
    words: usize,
    notices: usize,
}

fn bytes_of(words: &[u32]) -> Vec<u8> {
    words.iter().flat_map(|word| word.to_be_bytes()).collect()
}

/// Group and channel where they stand in a first word.
fn place(group: u32, channel: u32) -> u32 {
    group << 24 | channel << 16
}

impl Runs {
    /// Standard input comes in pieces of this many bytes.
    fn hold_in_pieces(&mut self, arguments: [u32; 3], bytes: &[u8], piece: usize) {
        let arguments = arguments.map(|number| number.to_string());
        let words = arguments.each_ref().map(String::as_str);
        let expected = desk(bytes, &words).expect("good arguments");
        // Whatever is wrong can be tried again with this.
        std::fs::write(self.program.folder().join("stdin"), bytes).expect("it is written");
        let said = self.program.run_in_pieces(&words, bytes, piece);
        let what = format!("standard output with {arguments:?}");
        hold(&what, &said.stdout, expected.stdout.as_bytes());
        hold(
            "standard error",
            said.stderr.as_bytes(),
            expected.stderr.as_bytes(),
        );
        assert!(said.well, "it says that it failed");
        self.pictures.count(&expected.stdout);
        self.runs += 1;
        self.words += bytes.len() / 4;
        self.notices += usize::from(!expected.stderr.is_empty());
    }

    fn hold(&mut self, arguments: [u32; 3], bytes: &[u8]) {
        self.hold_in_pieces(arguments, bytes, bytes.len());
    }
}

/// The scenes with the ranges at the ends, and on channels at the ends.
fn hold_scenes(runs: &mut Runs) {
    for units in [0, 1, 2, 3, 12, 64, 126, 127] {
        runs.hold([10, 3, units], &bytes_of(&every_scene(place(10, 3))));
    }
    for (group, channel) in [(0, 0), (0, 15), (15, 0), (15, 15)] {
        let scenes = bytes_of(&every_scene(place(group, channel)));
        runs.hold([group, channel, 2], &scenes);
        runs.hold([group, 15 - channel, 2], &scenes);
        runs.hold([15 - group, channel, 2], &scenes);
    }
}

/// A note on each of the 256 channels, of which each desk hears one.
fn hold_channels(runs: &mut Runs) {
    let mut words = vec![];
    for number in 0..256 {
        let place = place(number >> 4, number & 15);
        words.extend([0x4090_0000 | place | (number & 0x7F) << 8 | 3, number << 8]);
    }
    for number in 0..16 {
        runs.hold([number, (5 * number + 3) % 16, 7], &bytes_of(&words));
    }
}

/// The range in every value.
fn hold_ranges(runs: &mut Runs) {
    let mut dice = Dice::new(110);
    let place = place(4, 7);
    for units in 0..128 {
        let mut words = vec![0x4090_3C00 | place, 0, 0x4090_4503 | place, dice.word()];
        for _ in 0..20 {
            words.extend([0x40E0_0000 | place, dice.word()]);
        }
        runs.hold([4, 7, units], &bytes_of(&words));
    }
}

/// Nothing, and a short stream cut at every byte and in pieces of every small size.
fn hold_cuts(runs: &mut Runs) {
    let mut words = vec![0x6000_0000];
    words.extend([
        0x4390_4503,
        0x8000_8A80,
        0x5000_0000,
        0x4390_3C00,
        0,
        0,
        0x43E0_0000,
        0,
    ]);
    words.extend([
        0x4370_0000,
        0,
        0x4390_8000,
        0,
        0xB000_0000,
        0,
        0,
        0x4380_4500,
        0,
    ]);
    let bytes = bytes_of(&words);
    for length in 0..=bytes.len() {
        runs.hold([3, 0, 2], &bytes[..length]);
    }
    for piece in 1..=20 {
        runs.hold_in_pieces([3, 0, 2], &bytes, piece);
    }
}

/// Bad data at every place, with the place in the notice.
fn hold_bad_places(runs: &mut Runs) {
    let mut dice = Dice::new(111);
    for bad in every_place(&[1, 2, 3, 4]) {
        let words = bad_packet(&mut dice, bad);
        runs.hold([3, 0, 2], &bytes_of(&words[..size(words[0])]));
    }
}

/// Packets of every size across the edges of buffers, with a voice behind each.
fn hold_edges(runs: &mut Runs) {
    let mut dice = Dice::new(112);
    for head in [0x5000_0000, 0xC000_0000, 0x3000_0000, 0x0000_0000] {
        for first in 0..4 {
            let mut words = vec![0x10F8_0000; first];
            while words.len() < 2 * BUFFER + 100 {
                words.extend(&[head, 0, 0, 0][..size(head)]);
                if (words.len() + 60) % BUFFER < 120 {
                    words.extend(throw_voice(&mut dice, place(3, 0)));
                }
            }
            runs.hold([3, 0, 2], &bytes_of(&words));
        }
    }
}

/// Arguments of which at least one is wrong, missing or too many.
const WRONG: [&[&str]; 15] = [
    &[],
    &["0"],
    &["0", "0"],
    &["16", "0", "2"],
    &["0", "16", "2"],
    &["0", "0", "128"],
    &["0", "0", "256"],
    &["0", "0", "-1"],
    &["x", "", "2.5"],
    &["0x1", "+1", "1e1"],
    &["99", "0"],
    &["0", "0", "2", "0"],
    &["0", "0", "2", "a", "b"],
    &["1:2", "3", "4", "16"],
    &["15", "15", "4294967296"],
];

/// Each of these has a line, and nothing is read.
fn hold_wrong_arguments(runs: &mut Runs) {
    let input = bytes_of(&[0x4000_0000, 0, 0x4090_3C00, 0]);
    for arguments in WRONG {
        let said = runs.program.run(arguments, &input);
        hold("standard output", &said.stdout, b"");
        let mut told = said.stderr.lines();
        for (number, name) in ["GROUP", "CHANNEL", "UNITS"].iter().enumerate() {
            let argument = arguments.get(number);
            if argument.is_some_and(|word| is_good(number, word)) {
                continue;
            }
            let line = told.next().expect("a line for each wrong argument");
            let ending = argument.map_or("missing".to_string(), |word| format!(": {word}"));
            let about = line.starts_with("desk: ") && line.contains(name);
            assert!(about && line.ends_with(&ending), "{arguments:?}: {line}");
        }
        for more in arguments.iter().skip(3) {
            let line = told.next().expect("a line for each argument too many");
            assert!(line.starts_with("desk: ") && line.ends_with(more), "{line}");
        }
        assert_eq!(told.next(), None, "{arguments:?}");
    }
}

/// Whether the argument of this number can stand in its place.
fn is_good(number: usize, word: &str) -> bool {
    let mut arguments = ["0", "0", "0"];
    arguments[number] = word;
    desk(&[], &arguments).is_some()
}

/// An output without room is told.
fn hold_full_output(runs: &mut Runs) {
    let words = [0x4090_3C00, 0];
    let said = runs
        .program
        .run_with_full_output(&["0", "0", "2"], &bytes_of(&words));
    assert!(said.stderr.starts_with("desk: "), "{}", said.stderr);
}

fn hold_random(runs: &mut Runs, dice: &mut Dice) {
    let numbers = [16, 16, 128].map(|bound| dice.below(bound) as u32);
    let place = place(numbers[0], numbers[1]);
    let packets = dice.pick(&[0, 1, 2, 5, 20, 100, 1000, 1000, 5000]);
    let mut words = vec![];
    for _ in 0..packets {
        words.extend(throw_voice(dice, place));
        if dice.one_in(2) {
            let any_type = dice.below(16) as u32;
            let packet = packet_about_tuning(dice, any_type, place);
            words.extend(&packet[..size(packet[0])]);
        }
    }
    let mut bytes = bytes_of(&words);
    if dice.one_in(3) {
        bytes.truncate(bytes.len() - dice.below(16).min(bytes.len()));
    }
    let piece = dice.pick(&[bytes.len(), bytes.len(), bytes.len(), 3001]);
    runs.hold_in_pieces(numbers, &bytes, piece);
}

fn main() {
    let usage = "usage: desk_runs RUNS COMMAND..";
    let mut words = std::env::args().skip(1);
    let random: usize = words.next().and_then(|n| n.parse().ok()).expect(usage);
    let mut runs = Runs {
        program: Program::new("desk", words.collect()),
        pictures: Pictures::default(),
        runs: 0,
        words: 0,
        notices: 0,
    };
    hold_scenes(&mut runs);
    hold_channels(&mut runs);
    hold_ranges(&mut runs);
    hold_cuts(&mut runs);
    hold_bad_places(&mut runs);
    hold_edges(&mut runs);
    hold_wrong_arguments(&mut runs);
    hold_full_output(&mut runs);
    let mut dice = Dice::new(1100);
    for _ in 0..random {
        hold_random(&mut runs, &mut dice);
    }
    println!(
        "{} runs over {} words without a difference",
        runs.runs, runs.words
    );
    println!("{} of them had something to tell at the end", runs.notices);
    if !runs.pictures.summary("desk") {
        println!("something that can be shown never was");
        std::process::exit(1);
    }
}
