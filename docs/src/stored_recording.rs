//! The recording that the stored run of `rescue` reads. It is damaged everywhere but in its header,
//! since a file with a wrong header gives one number and nothing else.

use crate::packets::{bad_packet, every_place, Dice};
use crate::recordings::{recording, throw_words, Lines, EDGE_STAMPS, FORMS};
use crate::{edges, every_status, straddle, EXAMPLES_DOWN, EXAMPLES_UP};
use reading::{rescue, size};
use std::path::Path;

const SEED: u64 = 6;

/// Packets behind the last edge.
const AFTER_LAST_EDGE: usize = 500;

/// The type of the packet across each edge of a buffer, and its words before the edge. The first is
/// kept and the others are dropped.
const STRADDLES: [(u32, usize); 3] = [(0xD, 1), (0xC, 2), (0xE, 3)];

/// Two of the four words of a packet, of which one looks like a stamp, and three bytes of a stamp.
const CUT_END: [u8; 11] = [0x5A, 1, 2, 3, 0x00, 0x20, 0x00, 0x07, 0x00, 0x20, 0x00];

/// How the end of another recording may be told: this one has one end only.
const OTHER_ENDS: [&str; 4] = ["3 1", "3 3", "bytes 1", "bytes 2"];

/// Stamps next to each other, and stamps with packets of all sorts between them.
fn stamps(dice: &mut Dice, words: &mut Vec<u32>) {
    for earlier in EDGE_STAMPS {
        for later in EDGE_STAMPS {
            words.extend([0x0020_0000 | earlier, 0x0020_0000 | later]);
        }
    }
    for count in 0..40 {
        words.push(0x0F2F_0000 | dice.word() & 0xFFFF);
        words.extend(throw_words(dice, count % 5));
        // What looks like a stamp within a longer packet is none, be it kept or dropped.
        let head = dice.pick(&[0x5000_0000, 0xE000_0000]);
        words.extend([head, 0x0020_1111, 0x0020_2222, 0x0020_3333]);
    }
}

fn whole_packets() -> Vec<u32> {
    let mut dice = Dice::new(SEED);
    let mut words = [&EXAMPLES_UP[..], &EXAMPLES_DOWN].concat();
    every_status(&mut dice, &mut words);
    for bad in every_place(&[1, 2, 3, 4]).repeat(3) {
        let packet = bad_packet(&mut dice, bad);
        words.extend(&packet[..size(packet[0])]);
    }
    stamps(&mut dice, &mut words);
    for (edge, across) in edges().zip(STRADDLES) {
        straddle(&mut dice, edge, across, &mut words, |dice, words| {
            words.extend(throw_words(dice, 1))
        });
    }
    words.extend(throw_words(&mut dice, AFTER_LAST_EDGE));
    words
}

/// Writes the recording, the arguments and the lines below a folder.
pub fn write(folder: &Path) -> std::io::Result<()> {
    let mut old = recording(&whole_packets());
    old.extend(CUT_END);
    let rescued = rescue(&old);
    let mut lines = Lines::new();
    lines.count(&rescued.lines);
    let mut forms = FORMS.to_vec();
    forms.retain(|form| !OTHER_ENDS.contains(form));
    assert!(lines.summary("rescue", &forms), "a form of line is missing");
    let folder = folder.join("rescue");
    std::fs::create_dir_all(folder.join("data"))?;
    std::fs::write(folder.join("args"), "old\nnew\n")?;
    std::fs::write(folder.join("data/old"), old)?;
    std::fs::write(folder.join("stdout"), rescued.lines)
}
