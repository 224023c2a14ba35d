//! What a comparison has seen of keys, of the question about them, of the marking call, of the marks
//! of lessons and of the beginners' room.

use reading::{
    Keys, Record, ABOVE_15, ANSWERED, COARSE, FINE, MISSING, NOT_256_RECORDS, NOT_SOUND,
    OUTPUT_SHORT, SENT, SET,
};

/// The MIDI 1.0 voices that move keys, and the reset, which moves none.
const SORTS: [&str; 6] = [
    "Note On",
    "silent Note On",
    "Note Off",
    "controller 120",
    "controller 123",
    "controller 121",
];

fn sort(word: u32) -> Option<usize> {
    let (status, first, second) = (word >> 20 & 15, word >> 8 & 255, word & 255);
    match (word >> 28, status, first) {
        (2, 0x9, _) => Some(if second == 0 { 1 } else { 0 }),
        (2, 0x8, _) => Some(2),
        (2, 0xB, 120) => Some(3),
        (2, 0xB, 123) => Some(4),
        (2, 0xB, 121) => Some(5),
        _ => None,
    }
}

fn row(record: Record) -> u128 {
    u128::from(record.keys[1]) << 64 | u128::from(record.keys[0])
}

/// How single calls answered each sort of voice, and which keys these calls moved.
pub struct KeyVoices {
    answers: [[usize; 11]; SORTS.len()],
    pressed: [u128; SORTS.len()],
    lifted: [u128; SORTS.len()],
}

impl KeyVoices {
    pub fn new() -> KeyVoices {
        KeyVoices {
            answers: [[0; 11]; SORTS.len()],
            pressed: [0; SORTS.len()],
            lifted: [0; SORTS.len()],
        }
    }

    /// Counts a call whose first packet begins with this word, with its record before and after.
    pub fn count(&mut self, word: u32, answer: u32, records: [Record; 2]) {
        if let Some(sort) = sort(word) {
            let [before, after] = records.map(row);
            self.answers[sort][answer as usize] += 1;
            self.pressed[sort] |= after & !before;
            self.lifted[sort] |= before & !after;
        }
    }

    /// Prints the counts; false if a sort never had one of its answers or did not move every key.
    pub fn summary(&self) -> bool {
        let mut complete = true;
        for (index, name) in SORTS.iter().enumerate() {
            let answers = [SENT, NOT_SOUND, OUTPUT_SHORT].map(|n| self.answers[index][n as usize]);
            let moved = [self.pressed[index], self.lifted[index]].map(u128::count_ones);
            println!("{name}: sent, not sound, short {answers:?}; keys pressed, lifted {moved:?}");
            let every_key = match index {
                0 => [128, 0],
                5 => [0, 0],
                _ => [0, 128],
            };
            complete &= answers.iter().all(|count| *count > 0) && moved == every_key;
        }
        complete
    }
}

/// How often the question gave each answer, each number of keys and each lowest key.
pub struct Asked {
    answers: [usize; 25],
    down: [usize; 129],
    lowest: [usize; 256],
}

impl Asked {
    pub fn new() -> Asked {
        Asked {
            answers: [0; 25],
            down: [0; 129],
            lowest: [0; 256],
        }
    }

    pub fn count(&mut self, keys: Keys) {
        self.answers[keys.answer as usize] += 1;
        if keys.answer == ANSWERED {
            self.down[keys.down as usize] += 1;
            self.lowest[keys.lowest as usize] += 1;
        }
    }

    pub fn questions(&self) -> usize {
        self.answers.iter().sum()
    }

    /// Prints the counts; false if an answer, a number of keys or a lowest key never came.
    pub fn summary(&self) -> bool {
        let answers = [ANSWERED, NOT_256_RECORDS, ABOVE_15].map(|n| self.answers[n as usize]);
        println!("{} questions without a difference", self.questions());
        println!("the question answered 0, 10, 24: {answers:?}");
        answers.iter().chain(&self.down).all(|count| *count > 0)
            && self.lowest[..128].iter().all(|count| *count > 0)
            && self.lowest[255] > 0
    }
}

/// Which way a record was marked before, and which way it was to be marked.
const WAYS: [[u8; 2]; 4] = [
    [FINE, FINE],
    [FINE, COARSE],
    [COARSE, FINE],
    [COARSE, COARSE],
];

/// How often the marking call gave each answer, and what it did to sound records.
pub struct Marks {
    answers: [[usize; 25]; 2],
    ways: [usize; WAYS.len()],
    data_high_dropped: [usize; 2],
}

impl Marks {
    pub fn new() -> Marks {
        Marks {
            answers: [[0; 25]; 2],
            ways: [0; WAYS.len()],
            data_high_dropped: [0; 2],
        }
    }

    /// Counts a call for this mark, with the record that it names before it, if there is one.
    pub fn count(&mut self, answer: u32, coarse: u8, before: Option<Record>) {
        let mark = coarse.min(COARSE);
        self.answers[usize::from(mark)][answer as usize] += 1;
        if let (SET, Some(before)) = (answer, before) {
            let way = WAYS.iter().position(|way| *way == [before.coarse, mark]);
            self.ways[way.expect("a sound record has a mark or none")] += 1;
            let dropped = usize::from(before.data_high != MISSING);
            self.data_high_dropped[usize::from(mark)] += dropped;
        }
    }

    pub fn calls(&self) -> usize {
        self.answers.as_flattened().iter().sum()
    }

    /// Prints the counts; false if an answer or a way never came, or data high was never dropped.
    pub fn summary(&self) -> bool {
        let shown = [SET, NOT_SOUND, NOT_256_RECORDS, ABOVE_15];
        let [off, on] = self
            .answers
            .map(|answers| shown.map(|n| answers[n as usize]));
        println!("{} marks without a difference", self.calls());
        println!("the marking call answered 0, 8, 10, 24: taking off {off:?}, setting {on:?}");
        let [ways, dropped] = [&self.ways[..], &self.data_high_dropped];
        println!("it marked {WAYS:?}: {ways:?}, and dropped data high: {dropped:?}");
        let mut all = off.iter().chain(&on).chain(ways).chain(dropped);
        all.all(|count| *count > 0)
    }
}

/// The longest list of marks that a lesson is lent.
pub const LONGEST_COARSE: usize = 20;

/// How many lessons had a list of marks of each length, and in how many of them marks changed what
/// was sent.
pub struct Lessons {
    lengths: [usize; LONGEST_COARSE + 1],
    told_apart: [usize; LONGEST_COARSE + 1],
}

impl Lessons {
    pub fn new() -> Lessons {
        Lessons {
            lengths: [0; LONGEST_COARSE + 1],
            told_apart: [0; LONGEST_COARSE + 1],
        }
    }

    pub fn count(&mut self, length: usize, told_apart: bool) {
        self.lengths[length] += 1;
        self.told_apart[length] += usize::from(told_apart);
    }

    /// Prints the counts; false if a length never came or marks of that length changed nothing.
    pub fn summary(&self) -> bool {
        let [lengths, told_apart] = [self.lengths, self.told_apart];
        println!("lessons by length of the list of marks: {lengths:?}");
        println!("lessons in which marks changed what was sent: {told_apart:?}");
        lengths[0] > 0 && told_apart[1..].iter().all(|count| *count > 0)
    }
}

/// Packets as the beginners' room tells them apart: 0 to 15 are the message types, 16 to 31 the
/// statuses of MIDI 1.0 voices, and from 32 on come the controllers.
const ROOM_SORTS: usize = 32 + 256;

fn room_sort(word: u32) -> usize {
    match (word >> 28, word >> 20 & 15) {
        (2, 0xB) => 32 + (word >> 8 & 255) as usize,
        (2, status) => 16 + status as usize,
        (message_type, _) => message_type as usize,
    }
}

/// The controllers of the beginners' room.
const ROOM_CONTROLLERS: [usize; 6] = [1, 7, 64, 120, 121, 123];

/// How often single calls in the beginners' room gave each answer to each sort of packet, beside a
/// record that was not sound and beside a sound one.
pub struct InTheRoom([[[usize; 24]; 2]; ROOM_SORTS]);

impl InTheRoom {
    pub fn new() -> InTheRoom {
        InTheRoom([[[0; 24]; 2]; ROOM_SORTS])
    }

    /// Counts a call whose first packet begins with this word, with its record before it.
    pub fn count(&mut self, word: u32, answer: u32, before: &Record) {
        self.0[room_sort(word)][usize::from(before.sound())][answer as usize] += 1;
    }

    /// Prints how often each sort had each of its answers at least; false if one never came.
    pub fn summary(&self) -> bool {
        let (mut pass, mut stay) = (vec![0x18, 0x19, 0x1E], vec![0x1A, 0x1C, 0x1D]);
        for index in 0..128 {
            let listed = ROOM_CONTROLLERS.contains(&index);
            (if listed { &mut pass } else { &mut stay }).push(32 + index);
        }
        let rows: [(&str, &[usize], [&[usize]; 2]); 5] = [
            ("utility messages", &[0], [&[0, 9], &[0, 9]]),
            ("voices on the list", &pass, [&[7, 8], &[0, 7, 9]]),
            ("other voices", &stay, [&[7, 23], &[7, 23]]),
            ("other checked types", &[1, 3], [&[7, 23], &[7, 23]]),
            ("unread types", &[0x5, 0xD, 0xF], [&[23], &[23]]),
        ];
        let complete = rows.map(|(name, sorts, answers)| self.row(name, sorts, answers));
        complete == [true; 5]
    }

    /// Prints the row of these sorts, with the answers that each of them must have had beside a
    /// record that is not sound and beside a sound one.
    fn row(&self, name: &str, sorts: &[usize], answers: [&[usize]; 2]) -> bool {
        let mut complete = true;
        for (sound, beside) in ["an unsound", "a sound"].iter().enumerate() {
            let times = |sort: &usize, answer: usize| self.0[*sort][sound][answer];
            let least = |answer: &usize| sorts.iter().map(|sort| times(sort, *answer)).min();
            let counts: Vec<_> = answers[sound].iter().flat_map(least).collect();
            println!(
                "in the room {name} beside {beside} record answered {:?} at least {counts:?}",
                answers[sound]
            );
            complete &= counts.iter().all(|count| *count > 0);
        }
        complete
    }
}
