//! Writes the stored arguments, the standard input and the expected standard output of the programs,
//! and the recording that one of them reads. Everything follows from the tables and seeds of this
//! file, from the data entries, from the scenes for the panel and for the desk, from the bytes of a
//! cable, from the pieces of messages and from the recordings.

mod bytes;
mod entries;
mod imports;
mod packets;
mod pieces;
mod recordings;
mod scenes;
mod stored_recording;
mod tunings;
mod wholes;

use bytes::regroup;
use entries::{entry, every_value, Entries, ENTRIES};
use packets::{
    bad_packet, every_place, packet, packet_about_data, packet_about_keys, place_of, record_number,
    Dice, Named, EDGE_VALUES,
};
use reading::{size, Done, Record, BAD_DATA, COARSE, SENT, TAKEN_IN};
use std::path::Path;

/// The words of one buffer of 64 KiB.
const BUFFER: usize = 16384;

/// Packets of the random mix behind the last edge.
const AFTER_LAST_EDGE: usize = 1500;

/// How the standard input of one program is put together.
struct Plan {
    name: &'static str,
    arguments: &'static [&'static str],
    /// The table for these arguments.
    starts_from: fn(&[&str]) -> Option<[Record; 256]>,
    seed: u64,
    examples: &'static [u32],
    every_case: fn(&mut Dice) -> Vec<u32>,
    /// The message types of the random mix, each as often as it stands here.
    types: &'static [u32],
    /// A packet of one of these types.
    mixed: fn(&mut Dice, u32) -> [u32; 4],
    /// What stands behind the mix.
    last: fn(&mut Dice) -> Vec<u32>,
    /// For each edge the type of the packet across it, and its words before the edge.
    straddles: [(u32, usize); 3],
    /// The last touch to the whole packets.
    settle: fn(&mut Dice, &mut [u32]),
    cut_end: &'static [u8],
    /// The output for an input, from the table that the arguments give.
    output: fn(&[u8], [Record; 256]) -> Vec<u8>,
    /// Fails unless the output shows what it must.
    check_output: fn(&[u8]),
    /// Treats the packet at the start of the words.
    call: fn(&[u32], &mut [Record]) -> Done,
    /// The answers that must occur.
    answers: &'static [u32],
    /// The types of which every place of bad data must be named.
    checked: &'static [u32],
}

const EXAMPLES_UP: [u32; 25] = [
    0x20903C40, 0x20B00001, 0x60000000, 0x20903C41, 0x20903C00, 0x20B00001, 0x20B02002, 0x20C00500,
    0x20C00500, 0x20B06500, 0x20B06400, 0x20B00602, 0x20B02600, 0x20B02601, 0x20903C80, 0x20700000,
    0xB0000000, 0x00000000, 0x00000000, 0x10F80000,
    // an address, a reset and the data slider
    0x20B06500, 0x20B06400, 0x20B07900, 0x20B00602, 0x20B02600,
];

const EXAMPLES_DOWN: [u32; 6] = [
    0x40903C00, 0x01FF0000, 0xB0000000, 0x00000000, 0x00000000, 0x10F80000,
];

const TYPES_UP: [u32; 32] = [
    2, 2, 2, 2, 2, 2, 2, 2, 2, 2, 2, 2, 0, 0, 1, 1, 3, 3, 3, 4, 5, 5, 6, 7, 8, 9, 0xA, 0xB, 0xC,
    0xD, 0xE, 0xF,
];

const TYPES_DOWN: [u32; 32] = [
    4, 4, 4, 4, 4, 4, 4, 4, 4, 4, 4, 4, 0, 0, 1, 1, 3, 3, 3, 2, 5, 5, 6, 7, 8, 9, 0xA, 0xB, 0xC,
    0xD, 0xE, 0xF,
];

const TYPES_LISTING: [u32; 48] = [
    2, 2, 2, 2, 2, 2, 2, 2, 2, 2, 2, 2, 2, 2, 2, 2, 2, 2, 2, 2, 0, 0, 0, 0, 1, 1, 1, 1, 1, 1, 3, 3,
    3, 3, 3, 3, 4, 5, 6, 7, 8, 9, 0xA, 0xB, 0xC, 0xD, 0xE, 0xF,
];

fn listing() -> Plan {
    Plan {
        name: "listing",
        arguments: &["0:3", "1:0", "2:0", "05:07", "9:12", "15:15"],
        starts_from: reading::marked_table,
        seed: 1,
        examples: &EXAMPLES_UP,
        every_case: every_case_up,
        types: &TYPES_LISTING,
        mixed: packet_about_data,
        last: |_| vec![],
        straddles: [(0xD, 1), (0xB, 2), (0x3, 1)],
        settle: |_, _| (),
        cut_end: &[0xB0, 0, 0, 0, 0, 0, 0, 0, 0x20],
        output: reading::listing,
        check_output: |_| (),
        call: |words, table| reading::up(words, table, &mut [0; 4]),
        answers: &[0, 1, 4, 5, 6, 7],
        checked: &[1, 2, 3],
    }
}

fn up() -> Plan {
    Plan {
        name: "up",
        // In no order, and one of them twice.
        arguments: &["15:15", "0:1", "12:09", "3:14", "7:8", "15:15", "10:0"],
        seed: 2,
        types: &TYPES_UP,
        straddles: [(0x3, 1), (0xC, 2), (0x5, 3)],
        cut_end: &[0x50, 0, 0, 0, 1, 2, 3, 4, 5, 6, 7, 8, 9, 10, 11],
        output: reading::up_filter,
        ..listing()
    }
}

fn down() -> Plan {
    Plan {
        name: "down",
        arguments: &[],
        seed: 3,
        examples: &EXAMPLES_DOWN,
        every_case: every_case_down,
        types: &TYPES_DOWN,
        mixed: packet,
        straddles: [(0x4, 1), (0xF, 3), (0xB, 2)],
        cut_end: &[0x40, 0x90, 0x3C, 0, 0x7F, 0xFF],
        output: |bytes, _| reading::down_filter(bytes),
        call: |words, _| reading::down(words, &mut [0; 4]),
        answers: &[0, 2, 4, 5, 6, 7],
        checked: &[1, 3, 4],
        ..listing()
    }
}

fn panel() -> Plan {
    Plan {
        name: "panel",
        arguments: &[],
        seed: 4,
        types: &TYPES_UP,
        mixed: packet_about_keys,
        last: scenes::every_scene,
        straddles: [(0x8, 1), (0xB, 1), (0xD, 2)],
        // What is there of the packet looks like a Note On, and so do the bytes left over.
        cut_end: &[
            0x5D, 0x9F, 0x3C, 0x40, 0x2D, 0x9F, 0x3C, 0x40, 0x2D, 0x9F, 0x3C,
        ],
        output: reading::panel,
        check_output: scenes::check_panel,
        ..listing()
    }
}

/// Group 1 and channel 0, so that group 0 and channel 1 are other channels.
const ONE_PUPIL: [&str; 2] = ["01", "0"];

fn only() -> Plan {
    Plan {
        name: "only",
        arguments: &ONE_PUPIL,
        starts_from: |_| reading::marked_table(&[]),
        seed: 5,
        types: &TYPES_UP,
        last: pupil_and_neighbours,
        straddles: [(0x9, 1), (0xC, 1), (0xF, 2)],
        // The words that are there of the packet look like notes of the channel.
        cut_end: &[
            0xE1, 0x90, 0x3C, 0x40, 0x21, 0x90, 0x3C, 0x40, 0x21, 0x90, 0x3C, 0x40, 0x21, 0x90,
            0x3C,
        ],
        output: |bytes, _| reading::only_filter(bytes, &ONE_PUPIL).expect("a group and a channel"),
        check_output: check_only,
        ..listing()
    }
}

/// Another group than channel, and the widest range, which gives the longest numbers.
const TUNED: [&str; 3] = ["10", "03", "127"];
const TUNED_PLACE: u32 = 0x0A03_0000;

fn desk() -> Plan {
    Plan {
        name: "desk",
        arguments: &TUNED,
        starts_from: |_| reading::marked_table(&[]),
        seed: 7,
        examples: &EXAMPLES_DOWN,
        every_case: |_| tunings::every_scene(TUNED_PLACE),
        types: &TYPES_DOWN,
        mixed: |dice, message_type| tunings::packet_about_tuning(dice, message_type, TUNED_PLACE),
        straddles: [(0x4, 1), (0xF, 3), (0xB, 2)],
        // A word of two, which looks like a Note On of the channel, and the start of the other one.
        cut_end: &[0x4A, 0x93, 0x3C, 0x03, 0x80, 0x00],
        output: |bytes, _| tuned(bytes).into_bytes(),
        check_output: check_desk,
        call: |words, _| reading::screened(&words[..size(words[0])]),
        answers: &[0, 4, 6, 7],
        checked: &[1, 2, 3, 4],
        ..listing()
    }
}

fn tuned(bytes: &[u8]) -> String {
    let display = reading::desk(bytes, &TUNED).expect("a group, a channel and units");
    display.stdout
}

/// Fails unless the lines show what the scenes are for. The first are of the request's example.
fn check_desk(output: &[u8]) {
    let text = std::str::from_utf8(output).expect("the lines are text");
    assert!(text.starts_with("1 69 7.9 69.25\n1 69 7.9 132.75\n0\n1 69 note 132.5\n"));
    let mut pictures = tunings::Pictures::default();
    pictures.count(text);
    assert!(pictures.summary("desk"));
}

/// Every status with any data, on the channel and on those that share its group, its number or none.
fn pupil_and_neighbours(dice: &mut Dice) -> Vec<u32> {
    let mut stream = vec![];
    for status in 0..16 {
        for place in [0x0100_0000, 0x0101_0000, 0x0000_0000, 0x0001_0000] {
            stream.push(0x2000_0000 | place | status << 20 | dice.word() & 0xFFFF);
        }
    }
    stream
}

/// Fails unless the output is of the channel alone, and has packets with every status and with bad
/// data among them.
fn check_only(output: &[u8]) {
    let mut statuses = [0; 16];
    let mut bad = 0;
    for packet in output.chunks(4) {
        assert_eq!([packet[0], packet[1] & 15], [0x21, 0]);
        statuses[usize::from(packet[1] >> 4)] += 1;
        bad += usize::from(packet[2] > 127 || packet[3] > 127);
    }
    println!("only: packets by status {statuses:?}, with bad data {bad}");
    assert!(statuses.iter().all(|count| *count > 0) && bad > 0);
}

const EXAMPLES_EXPORT: [u32; 14] = [
    0x2A90_3C40,
    0x2AC0_05FF,
    0x1AF8_0000,
    // one exclusive in four packets, one of them without bytes, and one of no bytes at all
    0x3A12_7E7F,
    0,
    0x3A20_0000,
    0,
    0x3A21_0600,
    0,
    0x3A31_0100,
    0,
    0x3A00_0000,
    0,
    // another group
    0x2B90_3C40,
];

const TYPES_EXPORT: [u32; 32] = [
    2, 2, 2, 2, 2, 2, 2, 2, 2, 2, 1, 1, 1, 1, 3, 3, 3, 3, 3, 3, 0, 4, 5, 6, 7, 8, 9, 0xA, 0xB, 0xC,
    0xD, 0xF,
];

/// The group of the stored cable that is written to.
const EXPORT_GROUP: [&str; 1] = ["10"];

fn export() -> Plan {
    Plan {
        name: "export",
        arguments: &EXPORT_GROUP,
        starts_from: |_| reading::marked_table(&[]),
        seed: 6,
        examples: &EXAMPLES_EXPORT,
        types: &TYPES_EXPORT,
        mixed: packet,
        straddles: [(0x3, 1), (0xC, 2), (0xE, 1)],
        settle: |dice, stream| regroup(dice, 10, stream),
        // What is there of the packet looks like one that has bytes.
        cut_end: &[0x3A, 0x16, 1, 2, 0x2A, 0x90, 0x3C],
        output: |bytes, _| reading::export_filter(bytes, &EXPORT_GROUP).expect("a group"),
        check_output: check_export,
        call: |words, _| reading::export(10, words, &mut [0; 8]),
        answers: &[0, 1, 4, 6, 7, 25],
        ..listing()
    }
}

/// Fails unless every status byte that a cable can be sent is there.
fn check_export(output: &[u8]) {
    let mut times = [0; 256];
    output
        .iter()
        .for_each(|byte| times[usize::from(*byte)] += 1);
    println!("export: bytes from F0 on {:?}", &times[0xF0..]);
    for (byte, count) in times.iter().enumerate() {
        let is_sent = !matches!(byte, 0xF4 | 0xF5 | 0xF9 | 0xFD);
        assert_eq!(*count > 0, is_sent, "{byte:02X}");
    }
}

fn push(dice: &mut Dice, message_type: u32, stream: &mut Vec<u32>) {
    let words = packet(dice, message_type);
    stream.extend(&words[..size(words[0])]);
}

/// Values of bits 23 to 16 under every message type, and all of them under types 0 to 4.
fn every_status(dice: &mut Dice, stream: &mut Vec<u32>) {
    for message_type in 0..16 {
        let step = if message_type < 5 { 1 } else { 17 };
        for status in (0..256).step_by(step) {
            let start = stream.len();
            push(dice, message_type, stream);
            stream[start] = stream[start] & 0xFF00_FFFF | status << 16;
        }
    }
}

/// Control changes that bring a record to each sort of address, with data high where it takes it.
const ADDRESSES: [&[u32]; 7] = [
    &[],
    &[0x6505, 0x6406, 0x0607],
    &[0x6305, 0x6206, 0x0607],
    &[0x657F, 0x647F, 0x0607],
    &[0x637F, 0x627F, 0x0607],
    &[0x6505, 0x0607],
    &[0x6206, 0x0607],
];

/// Every control change over every sort of record, which data low and program changes then show.
fn every_case_up(dice: &mut Dice) -> Vec<u32> {
    let mut stream = vec![];
    every_status(dice, &mut stream);
    for (group, address) in (0..).zip(ADDRESSES) {
        for index in 0..128 {
            let place = group << 24 | dice.word() & 0x000F_0000;
            let control = |data| 0x20B0_0000 | place | data;
            stream.extend(address.iter().map(|data| control(*data)));
            stream.extend([control(0x0003), control(0x2004)]);
            stream.push(control(index << 8 | dice.below(128) as u32));
            stream.extend([control(0x2641), 0x20C0_0900 | place, 0x20C0_0AFF | place]);
        }
    }
    for data in 0..256 {
        for status in 0x8..0xF {
            stream.push(0x2500_0000 | status << 20 | 0x3C00 | data);
            stream.push(0x2500_0000 | status << 20 | data << 8 | 0x41);
        }
    }
    stream
}

impl Plan {
    fn table(&self) -> [Record; 256] {
        (self.starts_from)(self.arguments).expect("the arguments name channels")
    }
}

/// Data entry on the marked channels, and on channels that share their group or their number.
fn data_entry(plan: &Plan, dice: &mut Dice) -> Vec<u32> {
    let table = plan.table();
    let numbers = (0..256).filter(|number| table[*number].coarse == COARSE);
    let marked: Vec<u32> = numbers.map(place_of).collect();
    let beside = |place: &u32| [place ^ 0x0001_0000, place ^ 0x0100_0000];
    let others: Vec<u32> = marked.iter().flat_map(beside).collect();
    let mut stream = vec![];
    for places in [&marked, &others] {
        for (number, place) in (0..ENTRIES).zip(places.iter().cycle()) {
            stream.extend(entry(dice, number, *place));
        }
    }
    stream.extend(marked.first().map_or(vec![], |place| every_value(*place)));
    stream
}

/// Every MIDI 2.0 status over the edges of its bytes and of its value, and every controller index.
fn every_case_down(dice: &mut Dice) -> Vec<u32> {
    let mut stream = vec![];
    every_status(dice, &mut stream);
    for status in 0..16 {
        for high in [0, 1, 127, 128, 255] {
            for low in [0, 1, 2, 127, 128, 255] {
                let head = 0x4000_0000 | status << 20 | high << 8 | low;
                for value in EDGE_VALUES {
                    stream.extend([head | dice.word() & 0x0F0F_0000, value]);
                }
            }
        }
    }
    for index in 0..256 {
        stream.extend([0x40B0_0000 | index << 8 | dice.word() & 0xFF, dice.word()]);
        stream.extend([0x4090_3C00, index << 24 | 0x01FF_0000]);
        stream.extend([0x40C0_0000 | index & 3, dice.word() & 0x7FFF_FFFF]);
    }
    stream
}

/// Damage that leaves the size: one bit, but none of the message type.
fn damage(dice: &mut Dice, packet: &mut [u32]) {
    let place = dice.below(packet.len());
    let bits = if place == 0 { 28 } else { 32 };
    packet[place] ^= 1 << dice.below(bits);
}

fn push_mixed(dice: &mut Dice, plan: &Plan, stream: &mut Vec<u32>) {
    let start = stream.len();
    let message_type = dice.pick(plan.types);
    let words = (plan.mixed)(dice, message_type);
    stream.extend(&words[..size(words[0])]);
    if dice.one_in(10) {
        damage(dice, &mut stream[start..]);
    }
}

/// Examples, every case, data entry, every place of bad data, the random mix with a packet across
/// each edge, and what stands behind it.
fn whole_packets(plan: &Plan) -> Vec<u32> {
    let mut dice = Dice::new(plan.seed);
    let mut stream = plan.examples.to_vec();
    stream.extend((plan.every_case)(&mut dice));
    stream.extend(data_entry(plan, &mut dice));
    for bad in every_place(plan.checked) {
        let words = bad_packet(&mut dice, bad);
        stream.extend(&words[..size(words[0])]);
    }
    for (edge, across) in edges().zip(plan.straddles) {
        straddle(&mut dice, edge, across, &mut stream, |dice, stream| {
            push_mixed(dice, plan, stream)
        });
    }
    for _ in 0..AFTER_LAST_EDGE {
        push_mixed(&mut dice, plan, &mut stream);
    }
    stream.extend((plan.last)(&mut dice));
    (plan.settle)(&mut dice, &mut stream);
    stream
}

/// Fills a stream up to an edge, across which a packet of a type stands with some words before it.
fn straddle(
    dice: &mut Dice,
    edge: usize,
    (message_type, before): (u32, usize),
    stream: &mut Vec<u32>,
    mut push_mixed: impl FnMut(&mut Dice, &mut Vec<u32>),
) {
    assert!(stream.len() + 8 < edge, "no room before an edge");
    while stream.len() + 8 < edge {
        push_mixed(dice, stream);
    }
    // Two words each up to the last packet: a rest carried over moves a reader's later edges.
    if (edge - before - stream.len()) % 2 == 1 {
        push(dice, 1, stream);
    }
    while stream.len() + before < edge {
        push(dice, 3, stream);
    }
    push(dice, message_type, stream);
}

fn edges() -> impl Iterator<Item = usize> {
    (1..).map(|count| count * BUFFER)
}

/// The answers of these programs are below this number.
const ANSWERS: usize = 26;

/// What occurs in a stream.
struct Seen {
    types: [usize; 16],
    answers: [usize; ANSWERS],
    places: Named,
    entries: Entries,
    /// The sizes of the packets across an edge.
    straddled: Vec<usize>,
}

fn see(plan: &Plan, stream: &[u32]) -> Seen {
    let mut seen = Seen {
        types: [0; 16],
        answers: [0; ANSWERS],
        places: Named::new(),
        entries: Entries::new(),
        straddled: vec![],
    };
    let mut table = plan.table();
    let mut place = 0;
    while place < stream.len() {
        let first = stream[place];
        let size = size(first);
        let own = table[record_number(first)];
        let done = (plan.call)(&stream[place..], &mut table);
        seen.types[(first >> 28) as usize] += 1;
        seen.answers[done.answer as usize] += 1;
        seen.entries.count(first, done.answer, &own);
        if done.answer == BAD_DATA {
            seen.places.count(first, done.place);
        }
        if place / BUFFER != (place + size - 1) / BUFFER {
            seen.straddled.push(size);
        }
        place += size;
    }
    assert_eq!(place, stream.len());
    seen
}

/// The answers that came, each with how often it did.
fn times(answers: &[usize]) -> String {
    let came = (0..).zip(answers).filter(|(_, count)| **count > 0);
    let shown: Vec<_> = came
        .map(|(answer, count): (u32, _)| format!("{answer} x{count}"))
        .collect();
    shown.join(", ")
}

/// Fails unless the stream has what the plan promises of it.
fn check(plan: &Plan, stream: &[u32]) {
    let mut seen = see(plan, stream);
    assert!(seen.types.iter().all(|count| *count > 0));
    let mut answers = plan.answers.iter();
    assert!(answers.all(|answer| seen.answers[*answer as usize] > 0));
    assert!(seen.places.all_of(plan.checked));
    assert_eq!(seen.straddled.len(), stream.len() / BUFFER);
    seen.straddled.sort_unstable();
    assert_eq!(seen.straddled, [2, 3, 4]);
    println!("{}: packets by type {:?}", plan.name, seen.types);
    println!(
        "{}: answers {}, and 3 at the end",
        plan.name,
        times(&seen.answers)
    );
    for message_type in plan.checked {
        let named = seen.places.of_type(*message_type);
        println!("{}: bad places of type {message_type} {named:?}", plan.name);
    }
    if plan.table().iter().any(|record| record.coarse == COARSE) {
        assert!(seen.entries.summary(plan.name, &[SENT, TAKEN_IN]));
    }
}

fn write(plan: &Plan, folder: &Path) -> std::io::Result<()> {
    let stream = whole_packets(plan);
    check(plan, &stream);
    let mut input: Vec<u8> = stream.iter().flat_map(|word| word.to_be_bytes()).collect();
    input.extend(plan.cut_end);
    let output = (plan.output)(&input, plan.table());
    (plan.check_output)(&output);
    let folder = folder.join(plan.name);
    std::fs::create_dir_all(&folder)?;
    if !plan.arguments.is_empty() {
        std::fs::write(folder.join("args"), plan.arguments.join("\n") + "\n")?;
    }
    std::fs::write(folder.join("stdout"), output)?;
    std::fs::write(folder.join("stdin"), input)
}

fn main() -> std::io::Result<()> {
    let folder = std::env::args().nth(1).expect("usage: recipe FOLDER");
    let folder = Path::new(&folder);
    [listing(), up(), down(), panel(), only(), export(), desk()]
        .iter()
        .try_for_each(|plan| write(plan, folder))?;
    imports::write(folder)?;
    wholes::write(folder)?;
    stored_recording::write(folder)
}
