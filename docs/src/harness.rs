//! Holds single calls, runs, lessons, replays, questions and marks of the product's static library
//! to the reading, those in the beginners' room and those of two hosts among them.
//! Usage: harness [CASES] with the number of random cases, which follow millions of swept ones and
//! come before half as many random lessons and half as many random replays

mod entries;
mod host_sweeps;
mod packets;
mod replays;
mod tally;

use entries::{entry, every_value, Entries, ENTRIES};
use host_sweeps::{throw_host, Hosts, LONGEST_OWNERS};
use packets::{
    bad_packet, every_place, packet_about_data, packet_about_keys, place_of, record_number, Dice,
    Named,
};
use reading::{
    empty, keys_down, mark_coarse, size, Done, Keys, Record, COARSE, FINE, MISSING, OUTPUT_SHORT,
    SENT, TAKEN_IN,
};
use replays::Replays;
use tally::{Asked, InTheRoom, KeyVoices, Lessons, Marks, LONGEST_COARSE};

#[link(name = "quernbrae", kind = "static")]
extern "C" {
    fn quernbrae_empty() -> Record;
    fn quernbrae_up(
        words: *const u32,
        words_len: usize,
        table: *mut Record,
        table_len: usize,
        out: *mut u32,
        out_len: usize,
    ) -> Done;
    fn quernbrae_run_up(
        words: *const u32,
        words_len: usize,
        table: *mut Record,
        table_len: usize,
        out: *mut u32,
        out_len: usize,
    ) -> Done;
    fn quernbrae_beginners_up(
        words: *const u32,
        words_len: usize,
        table: *mut Record,
        table_len: usize,
        out: *mut u32,
        out_len: usize,
    ) -> Done;
    fn quernbrae_beginners_run_up(
        words: *const u32,
        words_len: usize,
        table: *mut Record,
        table_len: usize,
        out: *mut u32,
        out_len: usize,
    ) -> Done;
    fn quernbrae_down(words: *const u32, words_len: usize, out: *mut u32, out_len: usize) -> Done;
    fn quernbrae_run_down(
        words: *const u32,
        words_len: usize,
        out: *mut u32,
        out_len: usize,
    ) -> Done;
    fn quernbrae_lesson(
        words: *const u32,
        words_len: usize,
        coarse: *const u16,
        coarse_len: usize,
        out: *mut u32,
        out_len: usize,
    ) -> Done;
    fn quernbrae_only(
        words: *const u32,
        words_len: usize,
        group: u8,
        channel: u8,
        out: *mut u32,
        out_len: usize,
    ) -> Done;
    fn quernbrae_keys_down(table: *const Record, records: usize, group: u8, channel: u8) -> Keys;
    fn quernbrae_mark_coarse(
        table: *mut Record,
        records: usize,
        group: u8,
        channel: u8,
        coarse: u8,
    ) -> u32;
    fn quernbrae_host_up(
        host: u8,
        owners: *const u8,
        owners_len: usize,
        words: *const u32,
        words_len: usize,
        table: *mut Record,
        table_len: usize,
        out: *mut u32,
        out_len: usize,
    ) -> Done;
    fn quernbrae_host_run_up(
        host: u8,
        owners: *const u8,
        owners_len: usize,
        words: *const u32,
        words_len: usize,
        table: *mut Record,
        table_len: usize,
        out: *mut u32,
        out_len: usize,
    ) -> Done;
    fn quernbrae_host_down(
        host: u8,
        owners: *const u8,
        owners_len: usize,
        words: *const u32,
        words_len: usize,
        out: *mut u32,
        out_len: usize,
    ) -> Done;
    fn quernbrae_host_run_down(
        host: u8,
        owners: *const u8,
        owners_len: usize,
        words: *const u32,
        words_len: usize,
        out: *mut u32,
        out_len: usize,
    ) -> Done;
    fn quernbrae_host_keys_down(
        host: u8,
        owners: *const u8,
        owners_len: usize,
        table: *const Record,
        records: usize,
        group: u8,
        channel: u8,
    ) -> Keys;
    fn quernbrae_host_mark_coarse(
        host: u8,
        owners: *const u8,
        owners_len: usize,
        table: *mut Record,
        records: usize,
        group: u8,
        channel: u8,
        coarse: u8,
    ) -> u32;
    fn quernbrae_give_group(
        owners: *mut u8,
        owners_len: usize,
        table: *mut Record,
        records: usize,
        group: u8,
        host: u8,
    ) -> u32;
}

const DEFAULT_CASES: usize = 1_000_000;

/// The longest table that is lent, and the records kept behind it.
const TABLE_SPACE: usize = 512 + 8;

/// Lengths of tables for the question and for marks, of which one is right.
const LENGTHS: [usize; 9] = [0, 1, 16, 255, 256, 257, 272, 511, 512];

/// Groups and channels at the edges of their range and of a byte.
const EDGE_PLACES: [u8; 10] = [0, 1, 7, 14, 15, 16, 17, 128, 254, 255];

/// Marks of a record, of which two are sound.
const EDGE_MARKS: [u8; 4] = [FINE, COARSE, 2, 255];

/// Words behind the stream and behind the output that a call must leave alone.
const GUARDS: usize = 16;

/// The list of marks that a lesson is lent, and numbers behind it that would mark as well.
const COARSE_SPACE: usize = LONGEST_COARSE + 4;

/// The list of owners that a host's call is lent, and numbers behind it that would be owners too.
const OWNERS_SPACE: usize = LONGEST_OWNERS + 4;

#[derive(Clone, Copy, Debug)]
enum Function {
    Up,
    RunUp,
    Down,
    RunDown,
    BeginnersUp,
    BeginnersRunUp,
    HostUp,
    HostRunUp,
    HostDown,
    HostRunDown,
    Lesson,
    Only,
}

use Function::{
    BeginnersRunUp, BeginnersUp, Down, HostDown, HostRunDown, HostRunUp, HostUp, Lesson, Only,
    RunDown, RunUp, Up,
};

/// The functions, each with the answers that can occur in it. Lessons and replays come last, since
/// their random cases come by themselves.
const FUNCTIONS: [(Function, &[usize]); 12] = [
    (Up, &[0, 1, 3, 4, 5, 6, 7, 8, 9, 10]),
    (RunUp, &[0, 3, 8, 9, 10]),
    (Down, &[0, 2, 3, 4, 5, 6, 7, 9]),
    (RunDown, &[0, 3, 9]),
    (BeginnersUp, &[0, 3, 4, 5, 6, 7, 8, 9, 10, 23]),
    (BeginnersRunUp, &[0, 3, 8, 9, 10]),
    (HostUp, &[0, 1, 3, 4, 5, 6, 7, 8, 9, 10, 13]),
    (HostRunUp, &[0, 3, 8, 9, 10]),
    (HostDown, &[0, 2, 3, 4, 5, 6, 7, 9, 13]),
    (HostRunDown, &[0, 3, 9]),
    (Lesson, &[0, 3, 9]),
    (Only, &replays::ANSWERS),
];

/// The answers of these functions are below this number. A replay has the highest, which is 24.
const ANSWERS: usize = 25;

impl Function {
    /// It looks at MIDI 1.0 voices.
    fn goes_up(self) -> bool {
        !matches!(self, Down | RunDown | HostDown | HostRunDown)
    }

    fn runs(self) -> bool {
        !matches!(self, Up | Down | BeginnersUp | HostUp | HostDown)
    }

    fn is_of_a_host(self) -> bool {
        matches!(self, HostUp | HostRunUp | HostDown | HostRunDown)
    }

    /// A lesson's table is gone when it ends.
    fn can_be_taken_up_again(self) -> bool {
        self.runs() && !matches!(self, Lesson)
    }

    /// The types with checked fields that are not of the wrong protocol.
    fn checked_types(self) -> &'static [u32] {
        if self.goes_up() {
            &[1, 2, 3]
        } else {
            &[1, 3, 4]
        }
    }

    /// The types of which every place of bad data can be named; a run names none.
    fn named_types(self) -> &'static [u32] {
        if self.runs() {
            &[]
        } else {
            self.checked_types()
        }
    }
}

/// What one call is lent. All of it goes on behind the lent parts, with what must not be touched.
struct Lent {
    words: Vec<u32>,
    words_len: usize,
    table: Vec<Record>,
    table_len: usize,
    coarse: [u16; COARSE_SPACE],
    coarse_len: usize,
    host: u8,
    owners: [u8; OWNERS_SPACE],
    owners_len: usize,
    /// The group and the channel of a replay.
    place: [u8; 2],
    out: Vec<u32>,
    room: usize,
}

impl Lent {
    fn new() -> Lent {
        let (words, out) = (vec![], vec![]);
        let table = vec![empty(); TABLE_SPACE];
        Lent {
            words,
            words_len: 0,
            table,
            table_len: 256,
            coarse: [0; COARSE_SPACE],
            coarse_len: 0,
            host: 1,
            owners: [1; OWNERS_SPACE],
            owners_len: 16,
            place: [0; 2],
            out,
            room: 0,
        }
    }

    fn copy_from(&mut self, other: &Lent) {
        self.words.clone_from(&other.words);
        self.words_len = other.words_len;
        self.table.copy_from_slice(&other.table);
        self.table_len = other.table_len;
        self.coarse = other.coarse;
        self.coarse_len = other.coarse_len;
        self.host = other.host;
        self.owners = other.owners;
        self.owners_len = other.owners_len;
        self.place = other.place;
        self.out.clone_from(&other.out);
        self.room = other.room;
    }

    /// The number of the record that belongs to the first packet, if that is a voice.
    fn own(&self) -> usize {
        record_number(self.words.first().copied().unwrap_or(0))
    }

    fn set_room(&mut self, room: usize, filler: u32) {
        self.room = room;
        self.out.clear();
        self.out.resize(room + GUARDS, filler);
    }

    fn reading(&mut self, function: Function) -> Done {
        let words = &self.words[..self.words_len];
        let table = &mut self.table[..self.table_len];
        let out = &mut self.out[..self.room];
        let (host, owners) = (self.host, &self.owners[..self.owners_len]);
        match function {
            Up => reading::up(words, table, out),
            RunUp => reading::run_up(words, table, out),
            Down => reading::down(words, out),
            RunDown => reading::run_down(words, out),
            BeginnersUp => reading::beginners_up(words, table, out),
            BeginnersRunUp => reading::beginners_run_up(words, table, out),
            HostUp => reading::host_up(host, owners, words, table, out),
            HostRunUp => reading::host_run_up(host, owners, words, table, out),
            HostDown => reading::host_down(host, owners, words, out),
            HostRunDown => reading::host_run_down(host, owners, words, out),
            Lesson => reading::lesson(words, &self.coarse[..self.coarse_len], out),
            Only => reading::only(words, self.place[0], self.place[1], out),
        }
    }

    fn product(&mut self, function: Function) -> Done {
        self.product_from(function, 0, 0, self.room)
    }

    /// The product's call on the words from `read` on, with `room` words from `written` on.
    fn product_from(
        &mut self,
        function: Function,
        read: usize,
        written: usize,
        room: usize,
    ) -> Done {
        assert!(read <= self.words_len && written + room <= self.out.len());
        let (table, table_len) = (self.table.as_mut_ptr(), self.table_len);
        let (coarse, coarse_len) = (self.coarse.as_ptr(), self.coarse_len);
        let (host, owners, owners_len) = (self.host, self.owners.as_ptr(), self.owners_len);
        let words_len = self.words_len - read;
        let [group, channel] = self.place;
        // The lent parts lie within what is kept, as asserted.
        unsafe {
            let words = self.words.as_ptr().add(read);
            let out = self.out.as_mut_ptr().add(written);
            match function {
                Up => quernbrae_up(words, words_len, table, table_len, out, room),
                RunUp => quernbrae_run_up(words, words_len, table, table_len, out, room),
                Down => quernbrae_down(words, words_len, out, room),
                RunDown => quernbrae_run_down(words, words_len, out, room),
                BeginnersUp => {
                    quernbrae_beginners_up(words, words_len, table, table_len, out, room)
                }
                BeginnersRunUp => {
                    quernbrae_beginners_run_up(words, words_len, table, table_len, out, room)
                }
                HostUp => quernbrae_host_up(
                    host, owners, owners_len, words, words_len, table, table_len, out, room,
                ),
                HostRunUp => quernbrae_host_run_up(
                    host, owners, owners_len, words, words_len, table, table_len, out, room,
                ),
                HostDown => {
                    quernbrae_host_down(host, owners, owners_len, words, words_len, out, room)
                }
                HostRunDown => {
                    quernbrae_host_run_down(host, owners, owners_len, words, words_len, out, room)
                }
                Lesson => quernbrae_lesson(words, words_len, coarse, coarse_len, out, room),
                Only => quernbrae_only(words, words_len, group, channel, out, room),
            }
        }
    }

    fn product_keys(&self, records: usize, group: u8, channel: u8) -> Keys {
        let table = self.table[..records].as_ptr();
        // So many records are there.
        unsafe { quernbrae_keys_down(table, records, group, channel) }
    }

    fn product_mark(&mut self, records: usize, [group, channel]: [u8; 2], coarse: u8) -> u32 {
        let table = self.table[..records].as_mut_ptr();
        // So many records are there.
        unsafe { quernbrae_mark_coarse(table, records, group, channel, coarse) }
    }
}

/// Group and channel of a record.
fn group_and_channel(number: usize) -> [u8; 2] {
    [(number / 16) as u8, (number % 16) as u8]
}

/// The record of a group and a channel, if both are in range.
fn named_record(table: &[Record], [group, channel]: [u8; 2]) -> Option<Record> {
    let number = 16 * usize::from(group) + usize::from(channel);
    (group < 16 && channel < 16).then(|| table[number])
}

/// The case in hand, a copy for either side, and what was seen so far.
struct Comparison {
    dice: Dice,
    case: Lent,
    product: Lent,
    reading: Lent,
    cases: usize,
    taken_up_again: usize,
    seen: [[usize; ANSWERS]; FUNCTIONS.len()],
    named: [Named; FUNCTIONS.len()],
    key_voices: KeyVoices,
    entries: Entries,
    in_the_room: InTheRoom,
    hosts: Hosts,
    asked: Asked,
    marks: Marks,
    lessons: Lessons,
    replays: Replays,
}

impl Comparison {
    fn new() -> Comparison {
        Comparison {
            dice: Dice::new(0),
            case: Lent::new(),
            product: Lent::new(),
            reading: Lent::new(),
            cases: 0,
            taken_up_again: 0,
            seen: [[0; ANSWERS]; FUNCTIONS.len()],
            named: [(); FUNCTIONS.len()].map(|_| Named::new()),
            key_voices: KeyVoices::new(),
            entries: Entries::new(),
            in_the_room: InTheRoom::new(),
            hosts: Hosts::new(),
            asked: Asked::new(),
            marks: Marks::new(),
            lessons: Lessons::new(),
            replays: Replays::new(),
        }
    }

    fn copy_case(&mut self) {
        self.product.copy_from(&self.case);
        self.reading.copy_from(&self.case);
    }

    /// Calls both sides on the case and compares all that they return and all that they were lent.
    fn compare(&mut self, function: Function) {
        self.copy_case();
        let done = self.product.product(function);
        let expected = self.reading.reading(function);
        self.hold(function, done, expected);
        self.cases += 1;
        self.seen[function as usize][expected.answer as usize] += 1;
        if expected.answer == reading::BAD_DATA {
            self.named[function as usize].count(self.case.words[0], expected.place);
        }
        if let (Up, Some(word)) = (function, self.case.words.first()) {
            let own = self.case.own();
            let rows = [self.case.table[own], self.reading.table[own]];
            self.key_voices.count(*word, expected.answer, rows);
            self.entries.count(*word, expected.answer, &rows[0]);
        }
        if let (BeginnersUp, Some(word)) = (function, self.case.words.first()) {
            let own = &self.case.table[self.case.own()];
            self.in_the_room.count(*word, expected.answer, own);
        }
        if let (HostUp | HostDown, Some(_)) = (function, self.case.words.first()) {
            self.hosts.count(function, expected.answer, &self.case);
        }
        if function.can_be_taken_up_again() && expected.answer == reading::OUTPUT_SHORT {
            self.take_up_again(function);
        }
    }

    /// A run that stopped at 9 is taken up again where it reports, with more room: the whole comes.
    fn take_up_again(&mut self, function: Function) {
        let mut room = self.case.room;
        let ample = 2 * self.case.words_len;
        self.case.set_room(ample, !self.case.out[0]);
        self.copy_case();
        let whole = self.reading.reading(function);
        let mut total = self.product.product_from(function, 0, 0, room);
        while total.answer == reading::OUTPUT_SHORT && room < ample {
            room += 1 + self.dice.below(8);
            let rest = room.min(ample - total.written);
            let part = self
                .product
                .product_from(function, total.read, total.written, rest);
            total.answer = part.answer;
            total.read += part.read;
            total.written += part.written;
        }
        self.hold(function, total, whole);
        self.taken_up_again += 1;
    }

    /// The table that a case left is that of the next.
    fn carry_on(&mut self) {
        self.case.table.copy_from_slice(&self.reading.table);
    }

    /// Asks both sides for the keys of a channel, over so many records of the tables as they are.
    fn ask(&mut self, records: usize, group: u8, channel: u8) {
        let keys = self.product.product_keys(records, group, channel);
        let expected = keys_down(&self.reading.table[..records], group, channel);
        let (product, reading) = (&self.product.table, &self.reading.table);
        self.asked.count(expected);
        if keys == expected && product == reading {
            return;
        }
        println!("DIFFERENCE in question {}", self.asked.questions());
        println!("records: {records}, group: {group}, channel: {channel}");
        if let (0..=15, 0..=15) = (group, channel) {
            let number = 16 * usize::from(group) + usize::from(channel);
            println!("its record: {:X?}", reading[number]);
        }
        println!("product: {:?}\nreading: {:?}", keys, expected);
        show_difference("record", &self.case.table, product, reading);
        std::process::exit(1);
    }

    /// Asks over the table that a case left: for the channel of its first packet, for any channel,
    /// and for edges, over any length.
    fn ask_after(&mut self) {
        for number in [self.case.own(), self.dice.below(256)] {
            self.ask(256, (number / 16) as u8, (number % 16) as u8);
        }
        let records = self.dice.pick(&LENGTHS);
        let (group, channel) = (self.dice.pick(&EDGE_PLACES), self.dice.pick(&EDGE_PLACES));
        self.ask(records, group, channel);
    }

    /// Marks a channel on both sides, over so many records of the case's table, and carries on.
    fn mark(&mut self, records: usize, place: [u8; 2], coarse: u8) {
        for side in [&mut self.product, &mut self.reading] {
            side.table.copy_from_slice(&self.case.table);
        }
        let answer = self.product.product_mark(records, place, coarse);
        let [group, channel] = place;
        let expected = mark_coarse(&mut self.reading.table[..records], group, channel, coarse);
        let before = named_record(&self.case.table, place);
        self.marks.count(expected, coarse, before);
        let (product, reading) = (&self.product.table, &self.reading.table);
        if answer == expected && product == reading {
            self.carry_on();
            return;
        }
        println!("DIFFERENCE in mark {}", self.marks.calls());
        println!("records: {records}, group: {group}, channel: {channel}, coarse: {coarse}");
        println!("its record: {before:X?}");
        println!("product: {answer}\nreading: {expected}");
        show_difference("record", &self.case.table, product, reading);
        std::process::exit(1);
    }

    /// Marks over the table that a case left: the channel of its first packet, any channel, and
    /// edges, over any length.
    fn mark_after(&mut self) {
        self.carry_on();
        for number in [self.case.own(), self.dice.below(256)] {
            let coarse = throw_mark(&mut self.dice);
            self.mark(256, group_and_channel(number), coarse);
        }
        let records = self.dice.pick(&LENGTHS);
        let place = [(); 2].map(|_| self.dice.pick(&EDGE_PLACES));
        let coarse = throw_mark(&mut self.dice);
        self.mark(records, place, coarse);
    }

    fn hold(&self, function: Function, done: Done, expected: Done) {
        let (product, reading) = (&self.product, &self.reading);
        let same_memory = product.out == reading.out
            && product.table == reading.table
            && product.coarse == reading.coarse
            && product.owners == reading.owners
            && product.words == reading.words;
        if done == expected && same_memory {
            return;
        }
        let case = &self.case;
        let first_words = &case.words[..case.words_len.min(16)];
        println!("DIFFERENCE in case {}, {:?}", self.cases, function);
        println!("words: {}, first {:08X?}", case.words_len, first_words);
        println!("records: {}, room: {}", case.table_len, case.room);
        println!("coarse: {:04X?}", &case.coarse[..case.coarse_len]);
        let owners = &case.owners[..case.owners_len];
        println!("host: {}, owners: {owners:?}", case.host);
        println!("group and channel: {:?}", case.place);
        println!("first packet's record: {:?}", case.table[case.own()]);
        println!("product: {:?}\nreading: {:?}", done, expected);
        show_difference("output", &case.out, &product.out, &reading.out);
        show_difference("record", &case.table, &product.table, &reading.table);
        show_difference("input", &case.words, &product.words, &reading.words);
        show_difference("coarse", &case.coarse, &product.coarse, &reading.coarse);
        show_difference("owner", &case.owners, &product.owners, &reading.owners);
        std::process::exit(1);
    }
}

fn show_difference<T: PartialEq + std::fmt::Debug>(what: &str, before: &[T], a: &[T], b: &[T]) {
    if let Some(place) = (0..a.len()).find(|place| a[*place] != b[*place]) {
        println!("{} {}: before {:X?}", what, place, before[place]);
        println!("  product {:X?}\n  reading {:X?}", a[place], b[place]);
    }
}

/// Sweeps over single calls.
impl Comparison {
    fn single(&mut self, function: Function, packet: [u32; 4]) {
        self.case.words.clear();
        self.case.words.extend(packet);
        self.case.words_len = packet.len();
        let (room, filler) = (self.dice.below(7), self.dice.word());
        self.case.set_room(room, filler);
        self.compare(function);
    }

    /// Every value of bits 31 to 16 of the first word, in both directions, as a lesson and as a replay.
    fn every_first_word(&mut self) {
        for head in 0..0x1_0000 {
            let keys = throw_keys(&mut self.dice);
            let coarse = self.dice.pick(&[FINE, COARSE]);
            self.case.table.fill(Record {
                keys,
                coarse,
                ..empty()
            });
            let mut packet = [0; 4].map(|_: u32| self.dice.word());
            packet[0] = head << 16 | packet[0] & self.dice.pick(&[0x7F7F, 0xFFFF]);
            self.single(Up, packet);
            self.single(Down, packet);
            self.single(Lesson, packet);
            self.case.place = self.place_near(packet[0]);
            self.single(Only, packet);
        }
    }

    /// Every pair of data bytes of every MIDI 1.0 voice, each time over another sound record.
    fn every_midi_1_voice(&mut self) {
        for status in 0x8..0xF {
            for data in 0..0x1_0000 {
                self.case.table[0x21] = sound_record(&mut self.dice);
                self.single(Up, [0x2201_0000 | status << 20 | data, 0, 0, 0]);
            }
        }
        self.case.table.fill(empty());
    }

    /// Every key pressed and lifted in each way, and all keys lifted, over records of all sorts.
    fn every_key_moved(&mut self) {
        for key in 0..128 {
            let note = |head: u32| head | key << 8;
            let notes = [0x20900001, 0x2090007F, 0x20900000, 0x20800000, 0x20800040].map(note);
            let controllers = [0x20B07800, 0x20B0797F, 0x20B07B01];
            for word in notes.into_iter().chain(controllers) {
                for _ in 0..50 {
                    let record = match self.dice.below(4) {
                        0 => spoiled_record(&mut self.dice),
                        _ => sound_record(&mut self.dice),
                    };
                    let place = self.dice.word() & 0x0F0F_0000;
                    self.case.table.fill(record);
                    self.single(Up, [word | place, 0, 0, 0]);
                    self.ask_after();
                }
            }
        }
        self.case.table.fill(empty());
    }

    /// Every status and index of the MIDI 2.0 voices, over edges of the other places.
    fn every_midi_2_voice(&mut self) {
        for head in 0..0x1000 {
            for low in [0, 1, 2, 127, 128, 255] {
                let place = self.dice.word() & 0x0F0F_0000;
                let first = 0x4000_0000 | (head & 0xF00) << 12 | (head & 0xFF) << 8 | low;
                for value in packets::EDGE_VALUES {
                    self.single(Down, [first | place, value, 0, 0]);
                }
            }
        }
    }

    /// Every place of bad data, with all sorts of fields behind it and over records of all sorts.
    fn every_bad_place(&mut self) {
        for bad in every_place(&[1, 2, 3, 4]) {
            for _ in 0..200 {
                self.case.table.fill(spoiled_record(&mut self.dice));
                let packet = bad_packet(&mut self.dice, bad);
                self.single(Up, packet);
                self.single(Down, packet);
                self.single(BeginnersUp, packet);
                throw_host(&mut self.dice, &mut self.case);
                self.single(HostUp, packet);
                self.single(HostDown, packet);
            }
        }
        self.case.table.fill(empty());
    }

    /// Every value of bits 31 to 16 of the first word and every pair of data bytes of every MIDI
    /// 1.0 voice in the beginners' room, each time over another record of any sort.
    fn every_packet_in_the_room(&mut self) {
        for head in 0..0x1_0000 {
            self.case.table.fill(any_record(&mut self.dice));
            let mut packet = [0; 4].map(|_: u32| self.dice.word());
            packet[0] = head << 16 | packet[0] & self.dice.pick(&[0x7F7F, 0xFFFF]);
            self.single(BeginnersUp, packet);
        }
        for status in 0x8..0xF {
            for data in 0..0x1_0000 {
                self.case.table[0x84] = any_record(&mut self.dice);
                self.single(BeginnersUp, [0x2804_0000 | status << 20 | data, 0, 0, 0]);
            }
        }
        self.case.table.fill(empty());
    }

    /// Records with every number at its edges, sound or not, under each sort of packet and marked
    /// in both ways.
    fn every_record(&mut self) {
        const EDGES: [u8; 5] = [0, 127, 128, 254, MISSING];
        for kind in [0, 1, 2, 3, 255, 256, 65535] {
            for numbers in 0..5_usize.pow(5) {
                let number = |place: u32| EDGES[numbers / 5_usize.pow(place) % 5];
                let record = Record {
                    keys: throw_keys(&mut self.dice),
                    kind,
                    bank_high: number(0),
                    bank_low: number(1),
                    address_bank: number(2),
                    address_index: number(3),
                    data_high: number(4),
                    coarse: FINE,
                };
                for coarse in EDGE_MARKS {
                    self.last_record(Record { coarse, ..record });
                }
            }
        }
    }

    fn last_record(&mut self, record: Record) {
        const WORDS: [u32; 13] = [
            0x2F9F3C40, 0x2F8F4040, 0x2FBF7800, 0x2FBF7900, 0x2FBF7B00, 0x2FBF0001, 0x2FBF0602,
            0x2FBF2603, 0x2FBF6204, 0x2FBF6305, 0x2FBF6406, 0x2FBF6507, 0x2FCF0800,
        ];
        self.case.table[255] = record;
        for word in WORDS {
            self.single(Up, [word, 0, 0, 0]);
        }
        let word = self.dice.pick(&WORDS);
        self.single(BeginnersUp, [word, 0, 0, 0]);
        for coarse in [0, 1, self.dice.word() as u8] {
            self.case.table[255] = record;
            self.mark(256, [15, 15], coarse);
        }
    }

    /// Data entry packet by packet and then in runs and lessons, over tables with marks on half of
    /// the channels on average.
    fn every_data_entry(&mut self) {
        for _ in 0..20 {
            let places = [(); 4].map(|_| place_of(self.dice.below(256)));
            let mut words = every_value(places[0]);
            for (number, place) in (0..ENTRIES).zip(places.iter().cycle()) {
                words.extend(entry(&mut self.dice, number, *place));
            }
            self.case.table.fill_with(|| marked_record(&mut self.dice));
            for word in &words {
                self.single(Up, [*word, 0, 0, 0]);
                self.carry_on();
            }
            self.ask_after();
            for room in [2 * words.len(), words.len() / 2] {
                self.case.table.fill_with(|| marked_record(&mut self.dice));
                self.case.words.clone_from(&words);
                self.case.words_len = words.len();
                self.case.set_room(room, 0xAAAA_AAAA);
                self.compare(RunUp);
                self.compare(BeginnersRunUp);
                throw_coarse(&mut self.dice, &mut self.case);
                self.lesson();
            }
        }
        self.case.table.fill(empty());
    }
}

/// Sweeps over the question.
impl Comparison {
    /// Every group with every channel over 256 records, and edges of both over other lengths.
    fn every_channel_asked(&mut self) {
        for record in &mut self.case.table {
            *record = spoiled_record(&mut self.dice);
        }
        self.copy_case();
        for group in 0..=255 {
            for channel in 0..=255 {
                self.ask(256, group, channel);
            }
        }
        for records in LENGTHS {
            for group in EDGE_PLACES {
                for channel in EDGE_PLACES {
                    self.ask(records, group, channel);
                }
            }
        }
    }

    /// Each key alone, with others, as the lowest and as the highest, on channels of all groups.
    fn every_key_asked(&mut self) {
        for key in 0..128 {
            let one = 1_u128 << key;
            let (above, below) = (u128::MAX << key, u128::MAX >> (127 - key));
            let [low, high] = throw_keys(&mut self.dice).map(u128::from);
            let thrown = high << 64 | low;
            let rows = [
                0,
                one,
                !one,
                above,
                below,
                one | above & thrown,
                one | below & thrown,
            ];
            for row in rows {
                let number = self.dice.below(256);
                self.case.table[number].keys = [row as u64, (row >> 64) as u64];
                self.copy_case();
                self.ask(256, (number / 16) as u8, (number % 16) as u8);
            }
        }
        self.case.table.fill(empty());
    }
}

/// Sweeps over marks.
impl Comparison {
    /// Every group with every channel over 256 records of all sorts, and edges of both over other
    /// lengths.
    fn every_channel_marked(&mut self) {
        for group in 0..=255 {
            for channel in 0..=255 {
                if channel == 0 {
                    self.case.table.fill_with(|| any_record(&mut self.dice));
                }
                let coarse = throw_mark(&mut self.dice);
                self.mark(256, [group, channel], coarse);
            }
        }
        for records in LENGTHS {
            for group in EDGE_PLACES {
                for channel in EDGE_PLACES {
                    self.case.table.fill_with(|| any_record(&mut self.dice));
                    for coarse in [0, 1, 255] {
                        self.mark(records, [group, channel], coarse);
                    }
                }
            }
        }
        self.case.table.fill(empty());
    }

    /// Every number that can be given for a mark, over records of all sorts on every channel.
    fn every_mark(&mut self) {
        for coarse in 0..=255 {
            self.case.table.fill_with(|| any_record(&mut self.dice));
            for number in 0..256 {
                self.mark(256, group_and_channel(number), coarse);
            }
        }
        self.case.table.fill(empty());
    }
}

/// Lessons.
impl Comparison {
    /// Compares a lesson, and counts whether its marks changed what was sent.
    fn lesson(&mut self) {
        self.compare(Lesson);
        let case = &self.case;
        let mut unmarked = case.out.clone();
        let words = &case.words[..case.words_len];
        reading::lesson(words, &[], &mut unmarked[..case.room]);
        let told_apart = unmarked != self.reading.out;
        self.lessons.count(case.coarse_len, told_apart);
    }

    /// Data entry on every channel, where one is marked or all but one are. Lists of marks end
    /// before its number, behind it, with the last group and later.
    fn every_mark_of_a_lesson(&mut self) {
        let entry = [0x20B0_6501, 0x20B0_6402, 0x20B0_0603, 0x20B0_2604];
        let on_channel = |number| entry.map(|word: u32| word | place_of(number));
        self.case.words = (0..256).flat_map(on_channel).collect();
        self.case.words_len = self.case.words.len();
        self.case.set_room(self.case.words_len, 0x5555_5555);
        for number in 0..256 {
            let (group, bit) = (number / 16, 1 << (number % 16));
            for length in [group, group + 1, 16, LONGEST_COARSE] {
                for others in [0, 0xFFFF] {
                    self.case.coarse.fill(others);
                    self.case.coarse[group] ^= bit;
                    self.case.coarse_len = length;
                    self.lesson();
                }
            }
        }
    }

    /// Any marks; half of the streams begin with data entry on a channel.
    fn random_lesson(&mut self) {
        throw_coarse(&mut self.dice, &mut self.case);
        if self.dice.one_in(2) {
            let number = self.dice.below(256);
            self.throw_data_entry(number);
        } else {
            throw_words(&mut self.dice, Lesson, &mut self.case);
            self.throw_room();
        }
        self.lesson();
    }
}

/// One channel's packets alone.
impl Comparison {
    /// Compares a replay, and counts the packets that it met.
    fn replay(&mut self) {
        self.compare(Only);
        let read = self.reading.reading(Only).read;
        self.replays
            .count(&self.case.words[..read], self.case.place);
    }

    /// The place of a packet, or one that shares its group or its channel.
    fn place_near(&mut self, first: u32) -> [u8; 2] {
        let [group, channel] = group_and_channel(record_number(first));
        let other = self.dice.below(16) as u8;
        match self.dice.below(4) {
            0 => [group, other],
            1 => [other, channel],
            _ => [group, channel],
        }
    }

    /// Every group with every channel, over packets of every type and status on every channel.
    fn every_channel_alone(&mut self) {
        self.case.words.clear();
        for number in 0..256 {
            let head = (self.dice.below(16) as u32) << 20 | place_of(number);
            let [data, second] = [(); 2].map(|_| self.dice.word());
            let voice = 0x2000_0000 | head;
            self.case
                .words
                .extend([voice | data & 0x7F7F, voice | data & 0xFFFF]);
            let other = (self.dice.below(16) as u32) << 28 | head | data & 0xFFFF;
            let packet = [other, voice, second, voice];
            self.case.words.extend(&packet[..size(other)]);
        }
        self.case.words_len = self.case.words.len();
        for group in 0..=255 {
            for channel in 0..=255 {
                self.case.place = [group, channel];
                let (room, filler) = (self.dice.below(5), self.dice.word());
                self.case.set_room(room, filler);
                self.replay();
            }
        }
    }

    /// Any stream and room, and mostly a channel that has packets in it.
    fn random_replay(&mut self, pool: &Pool) {
        throw_words(&mut self.dice, Only, &mut self.case);
        self.throw_room();
        let any = self.dice.below(self.case.words.len());
        self.case.place = match self.dice.below(8) {
            0 => [(); 2].map(|_| self.dice.pick(&EDGE_PLACES)),
            1 => [0, 1],
            2 => [15, 15],
            _ => self.place_near(self.case.words[any]),
        };
        self.replay();
        if self.dice.one_in(8) {
            self.replay_is_fair(pool);
        }
    }

    /// From a sound table, what the product hands back sends in a run what its calls send for the
    /// channel over the whole stream, and leaves the same record.
    fn replay_is_fair(&mut self, pool: &Pool) {
        let [group, channel] = self.case.place.map(|number| number % 16);
        let number = 16 * usize::from(group) + usize::from(channel);
        cut_table(&mut self.dice, &pool.sound, &mut self.case.table);
        let start: Vec<Record> = self.case.table[..256].to_vec();
        let words = &self.case.words[..self.case.words_len];
        let (heard, record) = product_heard(words, &mut start.clone(), number);
        let mut own = vec![0; words.len()];
        let handed = product_only(words, [group, channel], &mut own);
        let (mut out, mut table) = (vec![0; 2 * words.len()], start);
        let done = product_run_up(&own[..handed.written], &mut table, &mut out);
        assert_eq!(out[..done.written], heard, "a replay sends other words");
        assert_eq!(table[number], record, "a replay leaves another record");
        self.replays.count_fair();
    }
}

/// What the product's calls send for the voices of a channel, and its record behind them.
fn product_heard(words: &[u32], table: &mut [Record], number: usize) -> (Vec<u32>, Record) {
    let (mut heard, mut place) = (vec![], 0);
    while let Some(rest @ [first, ..]) = words.get(place..) {
        if rest.len() < size(*first) {
            break;
        }
        let mut out = [0; 4];
        let done = product_run_up(&rest[..size(*first)], table, &mut out);
        if first >> 28 == 2 && record_number(*first) == number {
            heard.extend(&out[..done.written]);
        }
        place += size(*first);
    }
    (heard, table[number])
}

/// A list of marks of any length, and what stands behind it.
fn throw_coarse(dice: &mut Dice, lent: &mut Lent) {
    for marks in &mut lent.coarse {
        let (any, one) = (dice.word() as u16, 1 << dice.below(16));
        *marks = dice.pick(&[0, 0xFFFF, one, !one, any, any]);
    }
    lent.coarse_len = dice.below(LONGEST_COARSE + 1);
}

/// A number for the marking call, half of the time 0.
fn throw_mark(dice: &mut Dice) -> u8 {
    let any = dice.word() as u8;
    dice.pick(&[0, 0, 0, 1, 255, any])
}

/// Keys of a channel: none, all, one, those of one half, or any.
fn throw_keys(dice: &mut Dice) -> [u64; 2] {
    let [low, high] = [(); 2].map(|_| u64::from(dice.word()) << 32 | u64::from(dice.word()));
    match dice.below(8) {
        0 => [0; 2],
        1 => [u64::MAX; 2],
        2 => [1 << (low % 64), 0],
        3 => [0, 1 << (high % 64)],
        4 => [low, 0],
        5 => [0, high],
        _ => [low, high],
    }
}

fn number(dice: &mut Dice) -> u8 {
    match dice.below(4) {
        0 => MISSING,
        1 => 127,
        _ => dice.below(128) as u8,
    }
}

/// A record that is empty but for a mark, if it has one.
fn marked_record(dice: &mut Dice) -> Record {
    Record {
        coarse: dice.pick(&[FINE, COARSE]),
        ..empty()
    }
}

fn sound_record(dice: &mut Dice) -> Record {
    let mut record = marked_record(dice);
    record.keys = throw_keys(dice);
    record.bank_high = number(dice);
    record.bank_low = number(dice);
    record.kind = dice.below(3) as u16;
    if record.kind == reading::NONE {
        return record;
    }
    record.address_bank = number(dice);
    record.address_index = number(dice);
    let address = (record.kind, record.address_bank, record.address_index);
    let complete = address.1 != MISSING && address.2 != MISSING;
    let takes_data = complete && address != (reading::REGISTERED, 127, 127);
    if takes_data && record.coarse == FINE {
        record.data_high = number(dice);
    }
    record
}

/// A record that breaks the rule of soundness in one of its ways, or is any record at all.
fn spoiled_record(dice: &mut Dice) -> Record {
    let mut record = sound_record(dice);
    let too_much = 128 + dice.below(127) as u8;
    match dice.below(13) {
        0 => record.bank_high = too_much,
        1 => record.bank_low = too_much,
        2 => record.address_bank = too_much,
        3 => record.address_index = too_much,
        4 => record.data_high = too_much,
        5 => record.kind = dice.pick(&[3, 4, 127, 255, 256, 257, 258, 0x8000, 0xFFFF]),
        6 => record.kind = dice.word() as u16,
        7 => record.data_high = dice.below(128) as u8,
        8 => record.address_bank = number(dice),
        9 => {
            record.kind = reading::REGISTERED;
            record.address_bank = 127;
            record.address_index = 127;
            record.data_high = number(dice);
        }
        10 => record.coarse = dice.pick(&[2, 3, 127, 128, 254, 255, too_much]),
        11 => {
            record.data_high = dice.below(128) as u8;
            record.coarse = COARSE;
        }
        _ => {
            let [a, b, c, d] = dice.word().to_le_bytes();
            record = Record {
                bank_low: a,
                address_bank: b,
                address_index: c,
                data_high: d,
                ..record
            };
        }
    }
    record
}

/// A sound record twice out of three times.
fn any_record(dice: &mut Dice) -> Record {
    match dice.below(3) {
        0 => spoiled_record(dice),
        _ => sound_record(dice),
    }
}

/// Records to cut tables from.
struct Pool {
    marked: Vec<Record>,
    sound: Vec<Record>,
    spoiled: Vec<Record>,
}

impl Pool {
    const SIZE: usize = 8192;

    fn new(dice: &mut Dice) -> Pool {
        Pool {
            marked: (0..Pool::SIZE).map(|_| marked_record(dice)).collect(),
            sound: (0..Pool::SIZE).map(|_| sound_record(dice)).collect(),
            spoiled: (0..Pool::SIZE).map(|_| spoiled_record(dice)).collect(),
        }
    }
}

fn cut_table(dice: &mut Dice, from: &[Record], table: &mut [Record]) {
    let start = dice.below(from.len() - table.len());
    table.copy_from_slice(&from[start..start + table.len()]);
}

fn throw_table(dice: &mut Dice, pool: &Pool, lent: &mut Lent) {
    let own = lent.own();
    let table = &mut lent.table;
    match dice.below(8) {
        0 => table.fill(empty()),
        1 => cut_table(dice, &pool.marked, table),
        2..=4 => cut_table(dice, &pool.sound, table),
        5 => {
            cut_table(dice, &pool.sound, table);
            let place = if dice.one_in(2) { own } else { dice.below(256) };
            table[place] = dice.pick(&pool.spoiled);
        }
        6 => {
            cut_table(dice, &pool.spoiled, table);
            table[own] = dice.pick(&pool.sound);
        }
        _ => cut_table(dice, &pool.spoiled, table),
    }
    lent.table_len = 256;
    if dice.one_in(12) {
        lent.table_len = dice.pick(&[0, 1, 16, 100, 255, 257, 300, 511, 512]);
    }
}

/// A stream for the function: empty, short or long; whole, cut, damaged or without any sense.
fn throw_words(dice: &mut Dice, function: Function, lent: &mut Lent) {
    let packets = match (function.runs(), dice.below(1000)) {
        (false, _) => dice.below(3),
        (true, 0) => 1000 + dice.below(4000),
        (true, 1..=39) => 50 + dice.below(250),
        (true, _) => dice.pick(&[0, 1, 2, 3, 5, 8, 13, 21]),
    };
    lent.words.clear();
    for _ in 0..packets {
        let words = throw_packet(dice, function);
        lent.words.extend(&words[..size(words[0])]);
    }
    damage(dice, &mut lent.words);
    lent.words_len = lent.words.len();
    if dice.one_in(3) {
        lent.words_len = dice.below(lent.words.len() + 1);
    }
    lent.words.extend([0; GUARDS].map(|_: u32| dice.word()));
}

/// A packet of a voice of the function or of any type; one in some has a bad field.
fn throw_packet(dice: &mut Dice, function: Function) -> [u32; 4] {
    if dice.one_in(16) {
        let bad = dice.pick(&every_place(function.checked_types()));
        return bad_packet(dice, bad);
    }
    let voice = if function.goes_up() { 2 } else { 4 };
    let any_type = dice.below(16) as u32;
    let message_type = dice.pick(&[voice, any_type]);
    if dice.one_in(2) {
        packet_about_keys(dice, message_type)
    } else {
        packet_about_data(dice, message_type)
    }
}

fn damage(dice: &mut Dice, words: &mut [u32]) {
    match dice.below(12) {
        0 => words.iter_mut().for_each(|word| *word = dice.word()),
        1..=3 if !words.is_empty() => {
            for _ in 0..1 + words.len() / 8 {
                words[dice.below(words.len())] ^= 1 << dice.below(32);
            }
        }
        _ => (),
    }
}

impl Comparison {
    fn random(&mut self, pool: &Pool) {
        let dice = &mut self.dice;
        // All but the last two, which are lessons and replays.
        let (function, _) = FUNCTIONS[self.cases % (FUNCTIONS.len() - 2)];
        throw_words(dice, function, &mut self.case);
        throw_table(dice, pool, &mut self.case);
        if function.is_of_a_host() {
            throw_host(dice, &mut self.case);
        }
        self.throw_room();
        self.compare(function);
        if function.goes_up() {
            self.ask_after();
            self.mark_after();
        }
    }

    /// Short or ample room for the words of the case, or any in between.
    fn throw_room(&mut self) {
        let (dice, words) = (&mut self.dice, self.case.words_len);
        let room = match dice.below(4) {
            0 => dice.below(5),
            1 => dice.below(2 * words + 2),
            2 => words,
            _ => 2 * words + dice.below(5),
        };
        let filler = dice.word();
        self.case.set_room(room, filler);
    }

    /// A channel is marked, unmarked and marked again between runs, with questions behind each.
    fn mark_between_runs(&mut self, pool: &Pool) {
        throw_words(&mut self.dice, RunUp, &mut self.case);
        throw_table(&mut self.dice, pool, &mut self.case);
        let number = self.case.own();
        for coarse in [1, 0, throw_mark(&mut self.dice), 0] {
            self.mark(256, group_and_channel(number), coarse);
            self.throw_data_entry(number);
            self.compare(RunUp);
            self.carry_on();
            self.ask_after();
        }
    }

    /// Data entry on a channel before any stream, and mostly room for all that is sent.
    fn throw_data_entry(&mut self, number: usize) {
        throw_words(&mut self.dice, RunUp, &mut self.case);
        let mut words = vec![];
        for _ in 0..1 + self.dice.below(4) {
            let which = self.dice.below(ENTRIES);
            words.extend(entry(&mut self.dice, which, place_of(number)));
        }
        self.case.words_len += words.len();
        self.case.words.splice(..0, words);
        let room = match self.dice.below(4) {
            0 => self.dice.below(self.case.words_len),
            _ => 2 * self.case.words_len,
        };
        let filler = self.dice.word();
        self.case.set_room(room, filler);
    }

    /// How often each answer and each place was seen; fails if one that can occur was not.
    fn summary(&self) {
        println!("{} cases without a difference", self.cases);
        println!(
            "{} runs taken up again after 9 gave the whole",
            self.taken_up_again
        );
        let mut complete = true;
        for (function, answers) in FUNCTIONS {
            let seen = self.seen[function as usize];
            let counts: Vec<_> = answers
                .iter()
                .map(|n| format!("{}: {}", n, seen[*n]))
                .collect();
            println!("{:?} answered {}", function, counts.join(", "));
            complete &= answers.iter().all(|answer| seen[*answer] > 0);
            let named = &self.named[function as usize];
            for message_type in function.named_types() {
                let times = named.of_type(*message_type);
                println!(
                    "{:?} named places of type {}: {:?}",
                    function, message_type, times
                );
            }
            complete &= named.all_of(function.named_types());
        }
        complete &= self.key_voices.summary();
        complete &= self.entries.summary("Up", &[SENT, TAKEN_IN, OUTPUT_SHORT]);
        complete &= self.in_the_room.summary() & self.hosts.summary();
        complete &= self.asked.summary() & self.marks.summary();
        complete &= self.lessons.summary() & self.replays.summary();
        if !complete {
            println!("something that can occur was never seen");
            std::process::exit(1);
        }
    }
}

fn product_run_up(words: &[u32], table: &mut [Record], out: &mut [u32]) -> Done {
    let (table, table_len) = (table.as_mut_ptr(), table.len());
    // Pointers and lengths come from slices.
    unsafe {
        quernbrae_run_up(
            words.as_ptr(),
            words.len(),
            table,
            table_len,
            out.as_mut_ptr(),
            out.len(),
        )
    }
}

fn product_only(words: &[u32], [group, channel]: [u8; 2], out: &mut [u32]) -> Done {
    let (words, words_len) = (words.as_ptr(), words.len());
    // Pointers and lengths come from slices.
    unsafe {
        quernbrae_only(
            words,
            words_len,
            group,
            channel,
            out.as_mut_ptr(),
            out.len(),
        )
    }
}

fn product_lesson(words: &[u32], coarse: &[u16], out: &mut [u32]) -> Done {
    let (coarse, coarse_len) = (coarse.as_ptr(), coarse.len());
    // Pointers and lengths come from slices.
    unsafe {
        quernbrae_lesson(
            words.as_ptr(),
            words.len(),
            coarse,
            coarse_len,
            out.as_mut_ptr(),
            out.len(),
        )
    }
}

fn compare_all(random_cases: usize) {
    // It takes nothing and gives back a plain record.
    let product_empty = unsafe { quernbrae_empty() };
    assert_eq!(product_empty, empty(), "quernbrae_empty differs");
    let mut comparison = Comparison::new();
    comparison.every_first_word();
    comparison.every_midi_1_voice();
    comparison.every_key_moved();
    comparison.every_midi_2_voice();
    comparison.every_bad_place();
    comparison.every_packet_in_the_room();
    comparison.every_packet_of_a_host();
    comparison.every_owner();
    comparison.every_channel_of_a_host();
    comparison.every_gift();
    comparison.every_record();
    comparison.every_data_entry();
    comparison.every_channel_asked();
    comparison.every_key_asked();
    comparison.every_channel_marked();
    comparison.every_mark();
    comparison.every_mark_of_a_lesson();
    comparison.every_channel_alone();
    let pool = Pool::new(&mut comparison.dice);
    for _ in 0..random_cases {
        comparison.random(&pool);
    }
    for _ in 0..random_cases / 20 {
        comparison.mark_between_runs(&pool);
    }
    for _ in 0..random_cases / 2 {
        comparison.random_lesson();
        comparison.random_replay(&pool);
    }
    for _ in 0..random_cases / 50 {
        comparison.history(&pool);
    }
    comparison.summary();
}

fn main() {
    match std::env::args().nth(1).as_deref() {
        Some(cases) => compare_all(cases.parse().expect("usage: harness [CASES]")),
        None => compare_all(DEFAULT_CASES),
    }
}
