//! Rows of the table of times: what one side does over some input, the clock, and a number that
//! stands for all reports.

use crate::sides::Side;
use reading::collector::Collected;
use reading::{Cable, Chain, Done, Identity, Imported, Keys, Maker, Record};
use std::time::Duration;

/// What room holds that nothing was written to.
const UNTOUCHED: u32 = 0xAAAA_AAAA;

/// Lets one side do its part, the product or the reading first, and gives back both times.
type Turn<'a> = Box<dyn Fn([Side; 2], usize) -> [Duration; 2] + 'a>;

/// Something that both sides do over the same input, with the best time of each.
pub struct Row<'a> {
    name: String,
    units: usize,
    turn: Turn<'a>,
    best: [Duration; 2],
}

impl<'a> Row<'a> {
    /// A row of what is done to the input of a recipe, if there is one, with so many words, bytes or
    /// calls. What a side does gives back the time that it took and what is left: all that it wrote,
    /// its reports, and the state at the end.
    pub fn new<Left: PartialEq>(
        [what, recipe, unit]: [&str; 3],
        units: usize,
        go: impl Fn(Side) -> (Duration, Left) + 'a,
    ) -> Row<'a> {
        let name = format!("{what:<35}{recipe:<13}a {unit}");
        let told = name.clone();
        let turn = move |sides: [Side; 2], first: usize| {
            let (first_time, first_left) = go(sides[first]);
            let (second_time, second_left) = go(sides[1 - first]);
            assert!(first_left == second_left, "the sides differ: {told}");
            let mut times = [first_time, second_time];
            times.rotate_left(first);
            times
        };
        Row {
            name,
            units,
            turn: Box::new(turn),
            best: [Duration::MAX; 2],
        }
    }

    pub fn name(&self) -> &str {
        &self.name
    }

    pub fn take_a_turn(&mut self, sides: [Side; 2], first: usize) {
        let times = (self.turn)(sides, first);
        for (best, time) in self.best.iter_mut().zip(times) {
            *best = time.min(*best);
        }
    }

    /// The best times of the product and of the reading, for one of the units.
    pub fn nanoseconds(&self) -> [f64; 2] {
        self.best
            .map(|time| time.as_secs_f64() * 1e9 / self.units as f64)
    }
}

/// Room for so many words, all of it written to, so that no page of it is new to a side.
pub fn room(words: usize) -> Vec<u32> {
    vec![UNTOUCHED; words]
}

/// Room for so many bytes.
pub fn room_of_bytes(bytes: usize) -> Vec<u8> {
    vec![UNTOUCHED as u8; bytes]
}

/// A number that follows from all reports in their order.
#[derive(Clone, Copy, PartialEq, Eq, Default)]
pub struct Reports(u64);

impl Reports {
    #[inline(always)]
    pub fn note(&mut self, report: impl Report) {
        const SPREAD: u64 = 0x9E37_79B9_7F4A_7C15;
        self.0 = (self.0.rotate_left(5) ^ report.number()).wrapping_mul(SPREAD);
    }
}

/// What a call gives back, as one number that has all its fields.
pub trait Report {
    fn number(&self) -> u64;
}

impl Report for u32 {
    #[inline(always)]
    fn number(&self) -> u64 {
        u64::from(*self)
    }
}

impl Report for Done {
    #[inline(always)]
    fn number(&self) -> u64 {
        let (read, written) = (self.read as u64, self.written as u64);
        let answer = u64::from(self.answer) ^ u64::from(self.place) << 8;
        answer ^ read << 16 ^ written.rotate_left(40)
    }
}

impl Report for Cable {
    #[inline(always)]
    fn number(&self) -> u64 {
        let [a, b, c, d, e, f] = self.held;
        let start = [
            self.running,
            self.status,
            self.begun,
            self.count,
            a,
            b,
            c,
            d,
        ];
        u64::from_ne_bytes(start) ^ u64::from(u16::from_ne_bytes([e, f])).rotate_left(20)
    }
}

impl Report for Imported {
    #[inline(always)]
    fn number(&self) -> u64 {
        let (read, written) = (self.read as u64, self.written as u64);
        let counts = u64::from(self.answer) ^ read << 16 ^ written.rotate_left(40);
        counts.rotate_left(32) ^ self.after.number()
    }
}

impl Report for Chain {
    #[inline(always)]
    fn number(&self) -> u64 {
        self.length as u64 ^ u64::from(self.shared) << 20 ^ u64::from(self.packets) << 52
    }
}

impl Report for Collected {
    #[inline(always)]
    fn number(&self) -> u64 {
        let (read, chain) = (self.read as u64, self.chain as u64);
        let (start, length) = (self.start as u64, self.length as u64);
        let answer = u64::from(self.answer) ^ u64::from(self.place) << 5;
        answer ^ read << 8 ^ chain << 28 ^ start << 34 ^ length << 50
    }
}

impl Report for Keys {
    #[inline(always)]
    fn number(&self) -> u64 {
        u64::from(self.answer) ^ u64::from(self.down) << 8 ^ u64::from(self.lowest) << 16
    }
}

impl Report for Identity {
    #[inline(always)]
    fn number(&self) -> u64 {
        u64::from(self.answer) ^ u64::from(self.number) << 8
    }
}

impl Report for Maker {
    #[inline(always)]
    fn number(&self) -> u64 {
        let bytes = u64::from(u32::from_ne_bytes(self.bytes));
        u64::from(self.answer) ^ u64::from(self.count) << 8 ^ bytes << 16
    }
}

impl Report for Record {
    #[inline(always)]
    fn number(&self) -> u64 {
        let [low, high] = self.kind.to_ne_bytes();
        let first = u32::from_ne_bytes([low, high, self.bank_high, self.bank_low]);
        let last = [
            self.address_bank,
            self.address_index,
            self.data_high,
            self.coarse,
        ];
        let keys = self.keys[0] ^ self.keys[1].rotate_left(32);
        keys ^ u64::from(first) ^ u64::from(u32::from_ne_bytes(last)).rotate_left(29)
    }
}

/// The time of what is done, and what it gives back.
#[inline(always)]
pub fn timed<T>(what: impl FnOnce() -> T) -> (Duration, T) {
    let start = processor_time();
    let left = what();
    (processor_time() - start, left)
}

/// The processor time of this thread, in which other work on the machine does not count.
fn processor_time() -> Duration {
    #[repr(C)]
    struct Time {
        seconds: i64,
        nanoseconds: i64,
    }
    extern "C" {
        fn clock_gettime(clock: i32, time: *mut Time) -> i32;
    }
    const OF_THIS_THREAD: i32 = 3;
    let mut time = Time {
        seconds: 0,
        nanoseconds: 0,
    };
    // It writes the time and nothing else.
    let answer = unsafe { clock_gettime(OF_THIS_THREAD, &mut time) };
    assert_eq!(answer, 0);
    Duration::new(time.seconds as u64, time.nanoseconds as u32)
}
