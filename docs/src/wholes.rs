//! The stored files of the program that collects whole messages.

use crate::packets::{bad_packet, every_place, packet, Dice};
use crate::pieces::{exclusive, flex, throw_piece};
use crate::times;
use reading::{
    chains_closed, collect, size, whole, Chains, BAD_ADDRESS, BAD_DATA, BAD_STATUS, CUT,
    OUT_OF_TURN, RESERVED_TYPE, SENT, TAKEN_IN, TOO_LONG, TOO_MANY_PACKETS,
};
use std::path::Path;

/// The words of one buffer of 64 KiB.
const BUFFER: usize = 16384;

/// The part of a chain in the program.
const PART: usize = 2048;

/// Packets of the random mix behind the last edge.
const AFTER_LAST_EDGE: usize = 300;

const EXAMPLES: [u32; 17] = [
    // a whole exclusive, and one of no bytes
    0x3004_7E7F,
    0x0601_0000,
    0x3C00_0000,
    0,
    // text for group 3 with a note between its two packets
    0xD350_0101,
    0x4865_6C6C,
    0x6F2C_2077,
    0x6F72_6C64,
    0x2390_3C40,
    0xD3D0_0101,
    0x2100_0000,
    0,
    0,
    // an exclusive that begins twice
    0x3311_0100,
    0,
    0x3011_0100,
    0,
];

/// The stream so far, and what the program has open at its end.
struct Stream {
    dice: Dice,
    words: Vec<u32>,
    chains: Chains,
    buffer: Vec<u8>,
    seen: Seen,
}

/// What occurs in a stream.
struct Seen {
    types: [usize; 16],
    answers: [usize; 19],
    /// Out of turn with a chain open and without, and at a bad address likewise.
    out_of_turn: [usize; 2],
    bad_address: [usize; 2],
    /// Finished messages of each chain.
    finished: [usize; 32],
    longest: usize,
    /// The sizes of the packets across an edge.
    straddled: Vec<usize>,
}

impl Stream {
    fn new() -> Stream {
        Stream {
            dice: Dice::new(8),
            words: vec![],
            chains: chains_closed(),
            buffer: vec![0; 32 * PART],
            seen: Seen {
                types: [0; 16],
                answers: [0; 19],
                out_of_turn: [0; 2],
                bad_address: [0; 2],
                finished: [0; 32],
                longest: 0,
                straddled: vec![],
            },
        }
    }

    /// Adds a packet, in four words of which its size counts.
    fn push(&mut self, packet: [u32; 4]) {
        let packet = &packet[..size(packet[0])];
        let one = collect(self.chains, &mut self.buffer, packet);
        let seen = &mut self.seen;
        seen.types[(packet[0] >> 28) as usize] += 1;
        seen.answers[one.answer as usize] += 1;
        if let Some(before) = self.chains.all.get(one.chain) {
            let closed = usize::from(before.packets == 0);
            seen.out_of_turn[closed] += usize::from(one.answer == OUT_OF_TURN);
            seen.bad_address[closed] += usize::from(one.answer == BAD_ADDRESS);
            seen.finished[one.chain] += usize::from(one.answer == SENT);
            seen.longest = seen.longest.max(one.length);
        }
        let start = self.words.len();
        self.words.extend(packet);
        if start / BUFFER != (self.words.len() - 1) / BUFFER {
            seen.straddled.push(packet.len());
        }
        self.chains = one.chains;
    }

    fn push_exclusive(&mut self, group: u32, form: u32, count: usize) {
        let packet = exclusive(&mut self.dice, group, form, count);
        self.push(packet);
    }

    fn push_flex(&mut self, group: u32, form: u32, shared: u32) {
        let packet = flex(&mut self.dice, group, form, shared);
        self.push(packet);
    }
}

/// Messages of as many bytes and of as many packets as there may be, and of more, which another
/// packet or the last one brings.
fn limits(stream: &mut Stream) {
    for (form, count) in [(3, 2), (3, 3), (2, 6)] {
        stream.push_exclusive(7, 1, 6);
        (1..341).for_each(|_| stream.push_exclusive(7, 2, 6));
        stream.push_exclusive(7, form, count);
    }
    for (form, packets) in [(3, 32), (3, 33), (2, 33)] {
        stream.push_flex(7, 1, 0x05_0100);
        (2..packets).for_each(|_| stream.push_flex(7, 2, 0x05_0100));
        stream.push_flex(7, form, 0x05_0100);
    }
}

/// All chains open at once, each with packets of its own, and then finished one after another.
fn all_together(stream: &mut Stream) {
    for form in [1, 2, 2, 3] {
        for group in 0..16 {
            let count = stream.dice.below(7);
            stream.push_exclusive(group, form, count);
            stream.push_flex(15 - group, form, group << 16 | 0x0203);
        }
    }
}

/// Every form with a chain open and with none, and every bit in which shared fields can differ.
fn turns(stream: &mut Stream) {
    for form in 0..4 {
        stream.push_exclusive(2, form, 3);
        stream.push_flex(2, form, 0);
        stream.push_exclusive(2, 1, 3);
        stream.push_flex(2, 1, 0);
        stream.push_exclusive(2, form, 3);
        stream.push_flex(2, form, 0);
    }
    for bit in 0..22 {
        stream.push_flex(9, 1, 0x00_0000);
        stream.push_flex(9, 2, 1 << bit);
        stream.push_flex(9, 3, 0x00_0000);
    }
    for address in [0x20_0000, 0x30_0000] {
        for form in 0..4 {
            stream.push_flex(10, form, address);
            stream.push_flex(10, 1, 0x0102);
            stream.push_flex(10, form, address | 0x0102);
            stream.push_flex(10, 3, 0x0102);
        }
    }
}

/// A packet for a chain mostly, or one of any type; one in some is damaged, but not in its size.
fn push_mixed(stream: &mut Stream) {
    let dice = &mut stream.dice;
    let (any_type, any_group) = (dice.below(16) as u32, dice.below(16) as u32);
    let mut words = match dice.below(4) {
        0 => packet(dice, any_type),
        _ => throw_piece(dice, &stream.chains, &[0, 1, 14, any_group]),
    };
    if dice.one_in(24) {
        words[0] ^= 1 << dice.below(28);
    }
    stream.push(words);
}

/// Random packets, and Flex Data with so many of its words before the edge.
fn across(stream: &mut Stream, edge: usize, before: usize) {
    while stream.words.len() + 8 < edge {
        push_mixed(stream);
    }
    while stream.words.len() + before < edge {
        stream.push([0; 4]);
    }
    stream.push_flex(8, 0, 0x10_0001);
}

fn whole_packets() -> Stream {
    let mut stream = Stream::new();
    let mut rest = &EXAMPLES[..];
    while let [first, ..] = rest {
        let (packet, others) = rest.split_at(size(*first));
        let mut words = [0; 4];
        words[..packet.len()].copy_from_slice(packet);
        stream.push(words);
        rest = others;
    }
    limits(&mut stream);
    all_together(&mut stream);
    turns(&mut stream);
    for bad in every_place(&[1, 2, 3, 4]) {
        let words = bad_packet(&mut stream.dice, bad);
        stream.push(words);
    }
    across(&mut stream, BUFFER, 1);
    across(&mut stream, 2 * BUFFER, 3);
    (0..AFTER_LAST_EDGE).for_each(|_| push_mixed(&mut stream));
    // Both chains of this group are open at the end, whatever they were before.
    for form in [3, 1] {
        stream.push_exclusive(4, form, 6);
        stream.push_flex(4, form, 0);
    }
    stream
}

/// Fails unless every answer came, also where it has more than one sense.
fn check(seen: &Seen) {
    println!("whole: packets by type {:?}", seen.types);
    println!("whole: answers {}, and 3 at the end", times(&seen.answers));
    println!(
        "whole: out of turn with a chain open and without {:?}",
        seen.out_of_turn
    );
    println!(
        "whole: bad address with a chain open and without {:?}",
        seen.bad_address
    );
    println!(
        "whole: finished by chain {:?}, longest {}",
        seen.finished, seen.longest
    );
    let answers = [
        SENT,
        TAKEN_IN,
        RESERVED_TYPE,
        BAD_STATUS,
        BAD_DATA,
        OUT_OF_TURN,
        TOO_MANY_PACKETS,
        BAD_ADDRESS,
        TOO_LONG,
    ];
    assert!(answers
        .iter()
        .all(|answer| seen.answers[*answer as usize] > 0));
    assert_eq!(seen.answers[CUT as usize], 0);
    let all = seen
        .types
        .iter()
        .chain(&seen.out_of_turn)
        .chain(&seen.bad_address);
    assert!(all.chain(&seen.finished).all(|count| *count > 0));
    assert_eq!((seen.longest, &seen.straddled[..]), (PART, &[4, 4][..]));
}

/// Fails unless every form of a line is there.
fn check_lines(text: &[u8]) {
    let text = std::str::from_utf8(text).expect("ASCII");
    let forms = [
        "exclusive ",
        "flex ",
        "15 exclusive ",
        "15 flex ",
        "16 flex ",
        "18 exclusive ",
    ];
    let count = |form: &str| text.lines().filter(|line| line.starts_with(form)).count();
    let counts = forms.map(count);
    println!("whole: lines {forms:?} {counts:?}");
    assert!(counts.iter().all(|count| *count > 0));
    assert_eq!(counts.iter().sum::<usize>(), text.lines().count());
    assert!(text.lines().any(|line| line == "exclusive 12"));
}

pub fn write(folder: &Path) -> std::io::Result<()> {
    let stream = whole_packets();
    check(&stream.seen);
    let open = stream.chains.all.iter().filter(|chain| chain.packets > 0);
    println!("whole: chains open at the end {}", open.count());
    let mut input: Vec<u8> = stream
        .words
        .iter()
        .flat_map(|word| word.to_be_bytes())
        .collect();
    input.extend([0xD5, 0x40, 0, 0, 0x48, 0x69, 0, 0, 0x21, 0x22]);
    let output = whole(&input, &[]).expect("no arguments");
    check_lines(&output);
    let folder = folder.join("whole");
    std::fs::create_dir_all(&folder)?;
    std::fs::write(folder.join("stdout"), output)?;
    std::fs::write(folder.join("stdin"), input)
}
