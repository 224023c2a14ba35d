//! Data entry on channels with a coarse mark and without one: packets that try each case of it, and
//! a count of the cases that were met.

use crate::packets::Dice;
use reading::{Record, COARSE, FINE, MISSING, NONE, OUTPUT_SHORT, REGISTERED, SENT, TAKEN_IN};

/// Control changes behind a reset, to an address of every sort.
const ADDRESSES: [&[u32]; 19] = [
    &[],
    // registered and assignable, whichever half comes first
    &[0x6505, 0x6406],
    &[0x6407, 0x6508],
    &[0x6305, 0x6206],
    &[0x6207, 0x6308],
    // the null address, its neighbours, and what would be null if it were registered
    &[0x657F, 0x647F],
    &[0x657F, 0x647E],
    &[0x657E, 0x647F],
    &[0x637F, 0x627F],
    // halves, some beside what is left of the other kind
    &[0x6505],
    &[0x6406],
    &[0x6305],
    &[0x6206],
    &[0x6505, 0x6406, 0x6206],
    &[0x6305, 0x6206, 0x6505],
    // closed by another reset, and half opened again
    &[0x6505, 0x6406, 0x7900],
    &[0x6305, 0x6206, 0x7900, 0x6206],
    // another half after data
    &[0x6505, 0x6406, 0x0611, 0x2612, 0x6409],
    &[0x6305, 0x6206, 0x0611, 0x637F],
];

/// What is entered then, with values to be thrown in.
const DATA: [&[u32]; 7] = [
    &[0x0600, 0x2600, 0x2600],
    &[0x2600, 0x0600, 0x0600],
    &[0x0600, 0x6000, 0x6100, 0x2600],
    &[0x0600, 0x0000, 0x2000, 0x2600],
    // plain controllers and a reset in between
    &[0x0600, 0x0700, 0x2600],
    &[0x0600, 0x7800, 0x7B00, 0x2600],
    &[0x0600, 0x7900, 0x2600, 0x0600],
];

/// How many entries there are: every data at every address.
pub const ENTRIES: usize = ADDRESSES.len() * DATA.len();

/// The entry of this number on a channel, given by its place in a word.
pub fn entry(dice: &mut Dice, number: usize, place: u32) -> Vec<u32> {
    let (address, data) = (ADDRESSES[number / DATA.len()], DATA[number % DATA.len()]);
    let head = 0x20B0_0000 | place;
    let mut words = vec![head | 0x7900];
    words.extend(address.iter().map(|control| head | control));
    words.extend(data.iter().map(|control| head | control | value(dice)));
    // The last data low shows whether data high is there, and a program change leaves it.
    words.extend([0x20C0_0000 | place | value(dice) << 8, head | 0x2641]);
    words
}

/// Every value of data high and then of data low, at a registered and at an assignable address.
pub fn every_value(place: u32) -> Vec<u32> {
    let head = 0x20B0_0000 | place;
    let mut words = vec![];
    for address in [[0x6500, 0x6401], [0x6302, 0x6203]] {
        words.extend(address.map(|control| head | control));
        words.extend((0..128).map(|value| head | 0x0600 | value));
        words.extend((0..128).map(|value| head | 0x2600 | value));
    }
    words
}

fn value(dice: &mut Dice) -> u32 {
    let any = dice.below(128) as u32;
    dice.pick(&[0, 1, 63, 64, 127, any, any, any])
}

/// Addresses are counted as none, half, null, registered and assignable.
const SORTS: usize = 5;

/// The controller that came, and what its channel was.
#[derive(Clone, Copy)]
enum Case {
    FineHigh,
    FineLowAlone,
    FineLow,
    CoarseHigh,
    CoarseLow,
}

use Case::{CoarseHigh, CoarseLow, FineHigh, FineLow, FineLowAlone};

const CASES: [(Case, &str); 5] = [
    (FineHigh, "6 on a fine channel"),
    (FineLowAlone, "38 on a fine channel without data high"),
    (FineLow, "38 on a fine channel with data high"),
    (CoarseHigh, "6 on a coarse channel"),
    (CoarseLow, "38 on a coarse channel"),
];

impl Case {
    fn of(word: u32, before: &Record) -> Option<Case> {
        let index = match (word >> 28, word >> 20 & 15) {
            (2, 0xB) => word >> 8 & 255,
            _ => return None,
        };
        match (index, before.coarse) {
            (6, FINE) => Some(FineHigh),
            (38, FINE) if before.data_high == MISSING => Some(FineLowAlone),
            (38, FINE) => Some(FineLow),
            (6, COARSE) => Some(CoarseHigh),
            (38, COARSE) => Some(CoarseLow),
            _ => None,
        }
    }

    /// The answers that must be seen of it at an address of a sort; none if the two cannot meet.
    fn answers(self, sort: usize) -> &'static [u32] {
        let takes_data = sort >= 3;
        match self {
            FineLow | CoarseHigh if takes_data => &[SENT, OUTPUT_SHORT],
            FineLow => &[],
            _ => &[TAKEN_IN],
        }
    }
}

/// The sort of address that a sound record has.
fn sort(record: &Record) -> usize {
    match (record.kind, record.address_bank, record.address_index) {
        (NONE, ..) => 0,
        (_, MISSING, _) | (_, _, MISSING) => 1,
        (REGISTERED, 127, 127) => 2,
        (REGISTERED, ..) => 3,
        _ => 4,
    }
}

/// How often single calls gave each answer, in each case and at each sort of address.
pub struct Entries([[[usize; 10]; SORTS]; CASES.len()]);

impl Entries {
    pub fn new() -> Entries {
        Entries([[[0; 10]; SORTS]; CASES.len()])
    }

    /// Counts a packet that begins with this word, with the record of its channel before it.
    pub fn count(&mut self, word: u32, answer: u32, before: &Record) {
        if let (SENT | TAKEN_IN | OUTPUT_SHORT, Some(case)) = (answer, Case::of(word, before)) {
            self.0[case as usize][sort(before)][answer as usize] += 1;
        }
    }

    /// Prints how often each of these answers came at each sort of address; false if one never came
    /// where it must.
    pub fn summary(&self, who: &str, answers: &[u32]) -> bool {
        let mut complete = true;
        for (case, name) in CASES {
            let times = |sort: usize, answer: u32| self.0[case as usize][sort][answer as usize];
            let of_sort = |sort| answers.iter().map(|n| times(sort, *n)).collect::<Vec<_>>();
            let counts: Vec<_> = (0..SORTS).map(of_sort).collect();
            println!("{who}: {name} answered {answers:?} by address {counts:?}");
            for sort in 0..SORTS {
                let mut must_come = case.answers(sort).iter().filter(|n| answers.contains(n));
                complete &= must_come.all(|answer| times(sort, *answer) > 0);
            }
        }
        complete
    }
}
