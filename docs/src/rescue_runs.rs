//! Runs the product's program `rescue` on files of every sort, and holds what it prints and what it
//! writes to the reading.
//! Usage: rescue_runs RUNS COMMAND.. with the number of random files, which follow the hand-made
//! ones, and the words that start the program. One random file in forty is long.

// Not every sort of packet is thrown here.
#[allow(dead_code)]
mod packets;
mod programs;
mod recordings;

use packets::Dice;
use programs::{hold, Program, Said};
use reading::{rescue, Rescued, HEADER};
use recordings::{recording, throw_words, Lines, FORMS};
use std::path::PathBuf;

/// The words of one buffer of 64 KiB.
const BUFFER: usize = 16384;

/// Packets of a long random recording.
const LONG: usize = 30_000;

/// A short recording with a packet of every type and every sort of damage.
const EVERY_SORT: [&[u32]; 5] = [
    // Kept: a stamp and a packet of each type up to 5, the last with words that look like packets.
    &[
        0x0020FFF0, 0x10F80000, 0x20903C40, 0x30020102, 0x00000000, 0x40903C00, 0x80000000,
        0x50010203, 0x00200001, 0x60000000, 0x20903C80,
    ],
    // Dropped but for a stamp: reserved types, also with words that look like packets.
    &[
        0x60000000, 0x70000000, 0x80000000, 0x00200002, 0x00200010, 0xB0000000, 0x00200003,
        0x20700000,
    ],
    // Dropped: a bad status, and bad data of each type.
    &[
        0x00500000, 0x20903C80, 0x10F20180, 0x30070000, 0x00000000, 0x40C00001, 0x00000080,
    ],
    // Kept: Flex Data and a stamp.
    &[0xD0100000, 0x20903C80, 0x00200004, 0x60000000, 0x0020000F],
    // Cut by a word.
    &[0xF0000000, 0x00200005, 0x60000000],
];

/// The lines that stand alone.
const ALONE: [&str; 2] = ["19", "20"];

struct Runs {
    program: Program,
    lines: Lines,
    runs: usize,
    words: usize,
    failures: usize,
    failures_by_status: usize,
}

impl Runs {
    fn path(&self, name: &str) -> PathBuf {
        self.program.folder().join(name)
    }

    fn write_old(&self, file: &[u8]) {
        std::fs::write(self.path("old"), file).expect("the old file is written");
    }

    /// The bytes of a file in the folder of the runs, or none if it is not there.
    fn bytes_of(&self, name: &str) -> Option<Vec<u8>> {
        std::fs::read(self.path(name)).ok()
    }

    /// Takes a new file away again, and holds it to what must stand in it.
    fn take_new(&self, expected: &Option<Vec<u8>>) {
        let new = self.bytes_of("new");
        assert_eq!(new.is_some(), expected.is_some(), "whether a file is made");
        if let (Some(new), Some(expected)) = (new, expected) {
            hold("the new file", &new, expected);
            std::fs::remove_file(self.path("new")).expect("the new file is removed");
        }
    }

    fn count(&mut self, file: &[u8], expected: &Rescued) {
        self.lines.count(&expected.lines);
        self.runs += 1;
        self.words += file.len().saturating_sub(HEADER.len()) / 4;
    }

    /// From a file to a new file, with the lines on standard output.
    fn hold_files(&mut self, file: &[u8]) {
        let expected = rescue(file);
        self.write_old(file);
        let said = self
            .program
            .run(&["old", "new"], b"UPK\0\x01 is not read here");
        hold("standard output", &said.stdout, expected.lines.as_bytes());
        hold("standard error", said.stderr.as_bytes(), b"");
        assert!(
            said.well || expected.clean.is_none(),
            "it says that it failed"
        );
        self.take_new(&expected.clean);
        let old = self.bytes_of("old").expect("the old file is there");
        hold("the old file", &old, file);
        self.count(file, &expected);
    }

    /// From standard input to standard output, with the lines on standard error.
    fn hold_filter(&mut self, file: &[u8], piece: usize) {
        let expected = rescue(file);
        // Whatever is wrong can be tried again with this.
        self.write_old(file);
        let none: [&str; 0] = [];
        let said = self.program.run_in_pieces(&none, file, piece);
        let clean = expected.clean.as_deref().unwrap_or_default();
        hold("standard output", &said.stdout, clean);
        hold(
            "standard error",
            said.stderr.as_bytes(),
            expected.lines.as_bytes(),
        );
        assert!(
            said.well || expected.clean.is_none(),
            "it says that it failed"
        );
        self.count(file, &expected);
    }

    fn hold_both(&mut self, file: &[u8]) {
        self.hold_files(file);
        self.hold_filter(file, file.len());
    }
}

/// Files with every header but a good one, and with a good one cut anywhere.
fn hold_headers(runs: &mut Runs) {
    for length in 0..=HEADER.len() {
        runs.hold_both(&HEADER[..length]);
    }
    for place in 0..HEADER.len() {
        for change in [0x01, 0x20, 0x80, 0xFF] {
            let mut file = recording(&EVERY_SORT.concat());
            file[place] ^= change;
            runs.hold_files(&file);
            file.truncate(HEADER.len());
            runs.hold_filter(&file, 1);
        }
    }
    for file in [
        &b"UPX\0\x02"[..],
        b"UPK\x01\0",
        b"\0UPK\0\x01",
        b"MThd\0\0\0\x06",
        b"UP\nK\0\x01",
    ] {
        runs.hold_both(file);
    }
}

/// One short recording cut at every byte, and in pieces of every small size.
fn hold_cuts(runs: &mut Runs) {
    let file = recording(&EVERY_SORT.concat());
    for length in HEADER.len()..=file.len() {
        runs.hold_files(&file[..length]);
    }
    for piece in 1..=20 {
        runs.hold_filter(&file, piece);
    }
}

/// Packets of every size across the edges of buffers, whatever a buffer begins with, and recordings
/// that end near an edge.
fn hold_edges(runs: &mut Runs) {
    for (packet, before) in [
        (vec![0x5001_0203, 0x2090_3C80, 0x0020_0001, 0x6000_0000], 3),
        (vec![0xE001_0203, 0x2090_3C40, 0x0020_0001, 0x6000_0000], 3),
        (vec![0xB001_0203, 0x2090_3C40, 0x0020_0001], 2),
        (vec![0x4090_3C00, 0x2090_3C80], 1),
        (vec![0x4090_8000, 0x2090_3C40], 1),
    ] {
        for first in 0..=before {
            let mut words = vec![0x0020_0007; first];
            words.extend(packet.iter().cycle().take(5 * BUFFER / 2));
            runs.hold_files(&recording(&words));
        }
    }
    for words in [BUFFER - 1, BUFFER, BUFFER + 1, 2 * BUFFER] {
        let mut file = recording(&vec![0x2070_0000; words]);
        runs.hold_both(&file);
        file.splice(5..5, recording(&[0x0020_0001])[5..].iter().copied());
        runs.hold_files(&file);
        for length in 4 * words - 8..4 * words + 5 {
            runs.hold_files(&file[..length]);
        }
    }
}

/// Every line says the most, or nothing is dropped, in long recordings.
fn hold_long(runs: &mut Runs) {
    runs.hold_both(&recording(&vec![0x2090_3C80; 300_000]));
    runs.hold_both(&recording(&vec![0x0020_0000; 100_000]));
    let stamps: Vec<u32> = (0..100_000)
        .map(|n| 0x0020_0000 | n * 241 % 65536)
        .collect();
    runs.hold_both(&recording(&stamps));
    runs.hold_both(&recording(&vec![0x2090_3C40; 1_000_000]));
}

/// What could not be done is said, with this word in it, and nothing else is printed.
fn hold_failure(runs: &mut Runs, said: &Said, word: &str) {
    assert!(
        said.stderr.contains(word),
        "not named: {word}: {}",
        said.stderr
    );
    assert!(said.stderr.ends_with('\n'), "a line on standard error");
    hold("standard output", &said.stdout, b"");
    runs.failures += 1;
    runs.failures_by_status += usize::from(!said.well);
}

/// A new file that stands there already is left alone, whatever it is.
fn hold_new_that_exists(runs: &mut Runs) {
    let file = recording(&EVERY_SORT.concat());
    runs.write_old(&file);
    std::fs::write(runs.path("there"), b"kept").expect("a file is written");
    std::fs::create_dir(runs.path("folder")).expect("a folder is made");
    std::os::unix::fs::symlink("nowhere", runs.path("link")).expect("a link is made");
    for new in ["there", "folder", "link", "old", "missing/new"] {
        let said = runs.program.run(&["old", new], b"");
        hold_failure(runs, &said, new);
        assert_eq!(runs.bytes_of("there"), Some(b"kept".to_vec()));
        assert_eq!(runs.bytes_of("old"), Some(file.clone()));
        assert_eq!(runs.bytes_of("nowhere"), None);
    }
    // A file that is no recording is said to be none, and the new one is not looked at.
    runs.write_old(b"UPX");
    let said = runs.program.run(&["old", "there"], b"");
    hold("standard output", &said.stdout, b"19\n");
    assert_eq!(runs.bytes_of("there"), Some(b"kept".to_vec()));
}

/// An old file that cannot be read, as a folder cannot, makes no new one, and neither does a wrong
/// number of arguments.
fn hold_old_that_is_missing(runs: &mut Runs) {
    for old in ["absent", "folder", "absent/old", ""] {
        let said = runs
            .program
            .run(&[old, "new"], &recording(&EVERY_SORT.concat()));
        hold_failure(runs, &said, old);
        runs.take_new(&None);
    }
    runs.write_old(&recording(&EVERY_SORT.concat()));
    for arguments in [&["old"][..], &["old", "new", "more"], &["a", "b", "c", "d"]] {
        let said = runs
            .program
            .run(arguments, &recording(&EVERY_SORT.concat()));
        hold_failure(runs, &said, "rescue");
        runs.take_new(&None);
    }
}

/// Without room for the new file, or for what is printed, a part of it stands there and it is said.
fn hold_full_disk(runs: &mut Runs) {
    let file = recording(&throw_words(&mut Dice::new(109), LONG));
    let Rescued { lines, clean } = rescue(&file);
    let clean = clean.expect("a recording");
    runs.write_old(&file);
    let mut said = runs.program.run_with_full_disk(&["old", "new"]);
    assert!(lines.as_bytes().starts_with(&said.stdout), "other lines");
    said.stdout.clear();
    hold_failure(runs, &said, "new");
    let new = runs.bytes_of("new").expect("what was made so far");
    assert!(new.len() <= 1024 && clean.starts_with(&new), "other bytes");
    runs.take_new(&Some(new));
    let said = runs.program.run_with_full_output(&["old", "new"], b"");
    hold_failure(runs, &said, "rescue");
    let new = runs.bytes_of("new").expect("what was made so far");
    assert!(clean.starts_with(&new), "other bytes");
    runs.take_new(&Some(new));
    let none: [&str; 0] = [];
    let said = runs.program.run_with_full_output(&none, &file);
    hold_failure(runs, &said, "rescue: ");
    hold(
        "the old file",
        &runs.bytes_of("old").expect("it is there"),
        &file,
    );
}

/// With a standard descriptor closed, a file would take its place. Then nothing is written but a line
/// that names the lowest closed one, where standard error or else standard output still takes one.
fn hold_closed(runs: &mut Runs) {
    let file = recording(&EVERY_SORT.concat());
    runs.write_old(&file);
    for (closed, stdout, stderr) in [
        ("<&-", "", "rescue: standard input is closed\n"),
        (">&-", "", "rescue: standard output is closed\n"),
        ("2>&-", "rescue: standard error is closed\n", ""),
        ("<&- >&-", "", "rescue: standard input is closed\n"),
        ("<&- 2>&-", "rescue: standard input is closed\n", ""),
        (">&- 2>&-", "", ""),
        ("<&- >&- 2>&-", "", ""),
    ] {
        let said = runs.program.run_with_closed(closed, &["old", "new"]);
        hold("standard output", &said.stdout, stdout.as_bytes());
        hold("standard error", said.stderr.as_bytes(), stderr.as_bytes());
        runs.take_new(&None);
        let old = runs.bytes_of("old").expect("the old file is there");
        hold("the old file", &old, &file);
        runs.failures += 1;
        runs.failures_by_status += usize::from(!said.well);
    }
}

/// What is done to a whole recording: mostly nothing or a cut, and now and then a wrong header.
fn damage(dice: &mut Dice, file: &mut Vec<u8>) {
    match dice.below(16) {
        0 => file.truncate(dice.below(6)),
        1 => {
            let place = dice.below(HEADER.len().min(file.len()));
            file[place] ^= 1 << dice.below(8);
        }
        2..=8 => {
            let most = file.len().min(20);
            file.truncate(file.len() - dice.below(most));
        }
        9 => file.extend((0..dice.below(4)).map(|byte| byte as u8)),
        _ => (),
    }
}

/// A random file, and what is made of it once more.
fn hold_random(runs: &mut Runs, dice: &mut Dice) {
    let packets = match dice.below(40) {
        0 => LONG,
        1..=4 => 500,
        _ => dice.pick(&[0, 1, 2, 3, 5, 8, 13, 40]),
    };
    let mut file = recording(&throw_words(dice, packets));
    damage(dice, &mut file);
    match dice.below(4) {
        0 => runs.hold_filter(&file, file.len()),
        1 if file.len() < 2000 => runs.hold_filter(&file, 1 + dice.below(9)),
        1 => runs.hold_filter(&file, 1 + dice.below(70_000)),
        _ => runs.hold_files(&file),
    }
    if let (Some(clean), true) = (rescue(&file).clean, dice.one_in(8)) {
        runs.hold_files(&clean);
    }
}

fn main() {
    let usage = "usage: rescue_runs RUNS COMMAND..";
    let mut words = std::env::args().skip(1);
    let random: usize = words.next().and_then(|n| n.parse().ok()).expect(usage);
    let mut runs = Runs {
        program: Program::new("rescue", words.collect()),
        lines: Lines::new(),
        runs: 0,
        words: 0,
        failures: 0,
        failures_by_status: 0,
    };
    hold_headers(&mut runs);
    hold_cuts(&mut runs);
    hold_edges(&mut runs);
    hold_long(&mut runs);
    hold_new_that_exists(&mut runs);
    hold_old_that_is_missing(&mut runs);
    hold_full_disk(&mut runs);
    hold_closed(&mut runs);
    let mut dice = Dice::new(1090);
    for _ in 0..random {
        hold_random(&mut runs, &mut dice);
    }
    println!(
        "{} runs over {} words without a difference",
        runs.runs, runs.words
    );
    println!(
        "{} runs that could not be done were said, {} of them by the status too",
        runs.failures, runs.failures_by_status
    );
    if !runs.lines.summary("rescue", &[&FORMS[..], &ALONE].concat()) {
        println!("a form of line was never seen");
        std::process::exit(1);
    }
}
