//! Holds the collector that is written for speed to the plain one.

use super::*;
use crate::chains::{self, chains_closed};

const PART: usize = 40;

/// Numbers of a fixed sequence.
struct Dice(u64);

impl Dice {
    fn word(&mut self) -> u32 {
        self.0 = self
            .0
            .wrapping_mul(6_364_136_223_846_793_005)
            .wrapping_add(1);
        (self.0 >> 33) as u32 ^ (self.0 >> 13) as u32
    }

    fn pick<T: Copy>(&mut self, from: &[T]) -> T {
        from[self.word() as usize % from.len()]
    }
}

/// What the plain one does with these chains.
fn plain(chains: &mut [Chain], buffer: &mut [u8], words: &[u32]) -> Collected {
    let mut before = chains_closed();
    before.all.copy_from_slice(chains);
    let one = chains::collect(before, buffer, words);
    chains.copy_from_slice(&one.chains.all);
    Collected {
        answer: one.answer,
        place: one.place,
        read: one.read,
        chain: one.chain,
        start: one.start,
        length: one.length,
    }
}

/// Call after call of the plain one, as far as a run goes.
fn plain_run(chains: &mut [Chain], buffer: &mut [u8], words: &[u32]) -> Collected {
    let mut read = 0;
    while read < words.len() {
        let open = chains
            .iter()
            .map(|chain| chain.packets > 0)
            .collect::<Vec<_>>();
        let one = plain(chains, buffer, &words[read..]);
        read += one.read;
        let was_open = one.chain < NO_CHAIN && open[one.chain];
        match one.answer {
            SENT | CUT => return Collected { read, ..one },
            OUT_OF_TURN | TOO_MANY_PACKETS | TOO_LONG if was_open => {
                return Collected { read, ..one }
            }
            _ => (),
        }
    }
    beside(TAKEN_IN, read)
}

/// Chains, a buffer and a call of one side.
struct Side {
    chains: [Chain; NO_CHAIN],
    buffer: Vec<u8>,
    call: fn(&mut [Chain], &mut [u8], &[u32]) -> Collected,
}

impl Side {
    fn new(buffer: usize, call: fn(&mut [Chain], &mut [u8], &[u32]) -> Collected) -> Side {
        Side {
            chains: [CLOSED; NO_CHAIN],
            buffer: vec![0xAA; buffer],
            call,
        }
    }
}

/// Fails unless both sides do the same with the words, which it gives back how many were read.
fn hold(sides: &mut [Side; 2], words: &[u32]) -> Collected {
    let [one, other] = sides.each_mut().map(|side| {
        let report = (side.call)(&mut side.chains, &mut side.buffer, words);
        (report, side.chains, side.buffer.clone())
    });
    assert_eq!(one.0, other.0, "{words:08X?}");
    assert!(one.1 == other.1 && one.2 == other.2, "{words:08X?}");
    one.0
}

/// A packet of a few chains, or of any type, and now and then a bad one.
fn throw(dice: &mut Dice) -> Vec<u32> {
    let [first, second, third, fourth] = [0; 4].map(|_: u32| dice.word());
    let group = dice.pick(&[0x000_0000, 0x300_0000, 0xF00_0000]);
    let form = dice.pick(&[0, 1, 1, 2, 2, 2, 2, 3]);
    let shared = dice.pick(&[0, 0, 0, 0, 0, 0, 0x1F_FFFF, 0x20_0000, 1]);
    let count = dice.pick(&[6, 6, 6, 0, 1, 5]);
    match dice.word() % 8 {
        0 => vec![first, second, third, fourth][..size(first)].to_vec(),
        1 => vec![0x2090_0000 | first & 0xFFFF],
        2..=4 => {
            let head = 0x3000_0000 | group | form << 20 | count << 16;
            vec![head | first & 0x7F7F, second & 0x7F7F_7F7F]
        }
        _ => {
            let head = 0xD000_0000 | group | form << 22 | shared;
            vec![head, second, third, fourth]
        }
    }
}

#[test]
fn calls_do_what_plain_calls_do() {
    let mut dice = Dice(1);
    for buffer in [0, 31, 32 * 5, 32 * 6, 32 * 11, 32 * PART + 7, 32 * 500] {
        let mut sides = [Side::new(buffer, plain), Side::new(buffer, collect)];
        let mut seen = [0; 19];
        for _ in 0..20_000 {
            let mut packet = throw(&mut dice);
            if dice.word() % 50 == 0 {
                packet.pop();
            }
            seen[hold(&mut sides, &packet).answer as usize] += 1;
        }
        for answer in [1, 3, 4, 6, 7, 15, 17, 18] {
            assert!(buffer > 32 * PART || seen[answer] > 0);
        }
    }
}

#[test]
fn runs_do_what_plain_calls_do_one_after_another() {
    let mut dice = Dice(2);
    for buffer in [0, 32 * 6, 32 * PART + 7, 32 * 500] {
        let mut sides = [Side::new(buffer, plain_run), Side::new(buffer, run_collect)];
        for _ in 0..1_000 {
            let packets = (0..dice.word() % 20).map(|_| throw(&mut dice));
            let mut words = packets.collect::<Vec<_>>().concat();
            if dice.word() % 4 == 0 {
                words.pop();
            }
            let mut read = 0;
            while read < words.len() {
                let report = hold(&mut sides, &words[read..]);
                read += report.read;
                if report.answer == CUT {
                    break;
                }
            }
            hold(&mut sides, &words[read..]);
        }
    }
}

#[test]
fn chains_that_no_call_left_are_met_as_by_the_plain_one() {
    let lengths = [
        0,
        1,
        PART - 12,
        PART - 6,
        PART - 5,
        PART,
        PART + 1,
        usize::MAX,
    ];
    let mut sides = [Side::new(32 * PART, plain), Side::new(32 * PART, collect)];
    for length in lengths {
        for shared in [0, 1, 0x10_0000, 0x20_0000, u32::MAX] {
            for packets in [0, 1, 31, 32, 33, u32::MAX] {
                let chain = Chain {
                    length,
                    shared,
                    packets,
                };
                for form in 0..4 {
                    for first in [0x3006_0102, 0x3000_0000, 0xD000_0000, 0xD000_0001] {
                        let place = if first >> 28 == 3 { 20 } else { 22 };
                        sides
                            .iter_mut()
                            .for_each(|side| side.chains = [chain; NO_CHAIN]);
                        hold(&mut sides, &[first | form << place, 0x0304_0506, 7, 8]);
                    }
                }
            }
        }
    }
}

#[test]
fn another_list_than_of_32_chains_comes_first() {
    for chains in [0, 31, 33] {
        for call in [collect, run_collect] {
            let mut list = vec![CLOSED; chains];
            assert_eq!(call(&mut list, &mut [], &[]), beside(10, 0));
        }
    }
}

#[test]
fn a_run_over_no_words_is_at_their_end_and_a_call_is_cut() {
    let mut chains = [CLOSED; NO_CHAIN];
    assert_eq!(run_collect(&mut chains, &mut [], &[]), beside(1, 0));
    assert_eq!(collect(&mut chains, &mut [], &[]), beside(3, 0));
}
