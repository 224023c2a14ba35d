//! Holds the collector of whole messages and the maker identities to the reading.
//! Usage: chain_sweeps [CASES] with the number of random packets, which follow millions of swept
//! cases.

// Not everything that the other comparison throws is thrown here.
#[allow(dead_code)]
mod packets;
mod pieces;

use packets::{bad_packet, every_place, packet, Dice, Named};
use pieces::{exclusive, flex, throw_piece};
use reading::{
    chains_closed, collector, run_collect, size, Chain, Chains, Collected, Identity, Maker,
    BAD_DATA, CUT, NO_CHAIN, NO_COUNTERPART, SENT, TAKEN_IN,
};

#[link(name = "quernbrae", kind = "static")]
extern "C" {
    fn quernbrae_chain_closed() -> Chain;
    fn quernbrae_collect(
        chains: *mut Chain,
        chains_len: usize,
        buffer: *mut u8,
        buffer_len: usize,
        words: *const u32,
        words_len: usize,
    ) -> collector::Collected;
    fn quernbrae_run_collect(
        chains: *mut Chain,
        chains_len: usize,
        buffer: *mut u8,
        buffer_len: usize,
        words: *const u32,
        words_len: usize,
    ) -> collector::Collected;
    fn quernbrae_identity_new(old: *const u8, old_len: usize) -> Identity;
    fn quernbrae_identity_old(number: u16) -> Maker;
}

/// One of the two calls.
type Call = unsafe extern "C" fn(
    *mut Chain,
    usize,
    *mut u8,
    usize,
    *const u32,
    usize,
) -> collector::Collected;

const DEFAULT_CASES: usize = 2_000_000;

/// Bytes behind the buffer that a call must leave alone.
const GUARDS: usize = 64;

/// Answers of the collector are below this number.
const ANSWERS: usize = 19;

/// Lengths of a part, most of them beside a full packet of one sort.
const PARTS: [usize; 9] = [0, 1, 5, 6, 11, 12, 13, 24, 31];

/// Packets of a random stream.
const STREAM: usize = 50;

/// Checked types, of which bad data has a place.
const CHECKED: [u32; 4] = [1, 2, 3, 4];

/// What a packet met: an exclusive or Flex Data with its chain closed or open, or no chain.
const SORTS: [(&str, &[usize]); 5] = [
    ("an exclusive with none open", &[0, 1, 15, 18]),
    ("an open exclusive", &[0, 1, 15, 18]),
    ("Flex Data with none open", &[0, 1, 15, 17, 18]),
    ("open Flex Data", &[0, 1, 15, 16, 17, 18]),
    ("no chain", &[1, 3, 4, 6, 7]),
];

/// The buffers of both sides, which go on behind what is lent, and what was seen so far.
struct Comparison {
    dice: Dice,
    product: Vec<u8>,
    reading: Vec<u8>,
    length: usize,
    seen: [[usize; ANSWERS]; SORTS.len()],
    named: Named,
    /// How often a run gave each answer.
    ran: [usize; ANSWERS],
    /// Identities turned into a number and out of one, with a counterpart and without.
    turned: [[usize; 2]; 2],
}

impl Comparison {
    fn new() -> Comparison {
        Comparison {
            dice: Dice::new(106),
            product: vec![],
            reading: vec![],
            length: 0,
            seen: [[0; ANSWERS]; SORTS.len()],
            named: Named::new(),
            ran: [0; ANSWERS],
            turned: [[0; 2]; 2],
        }
    }

    /// Makes new buffers of a length, with whatever in them.
    fn lend(&mut self, length: usize) {
        self.length = length;
        self.product.clear();
        for _ in 0..length + GUARDS {
            self.product.push(self.dice.word() as u8);
        }
        self.reading.clone_from(&self.product);
    }

    /// A call of the product, with the chains after it.
    fn called(&mut self, call: Call, mut chains: Chains, words: &[u32]) -> Collected {
        let buffer = self.product.as_mut_ptr();
        let list = &mut chains.all;
        // Behind the lent buffer there are guards, and the chains and the words are slices.
        let done = unsafe {
            call(
                list.as_mut_ptr(),
                list.len(),
                buffer,
                self.length,
                words.as_ptr(),
                words.len(),
            )
        };
        Collected {
            answer: done.answer,
            place: done.place,
            read: done.read,
            chain: done.chain,
            start: done.start,
            length: done.length,
            chains,
        }
    }

    /// Collects on both sides, and compares what they return and what stands in their buffers.
    fn collect(&mut self, chains: Chains, words: &[u32]) -> Chains {
        let done = self.called(quernbrae_collect, chains, words);
        let expected = reading::collect(chains, &mut self.reading[..self.length], words);
        if done != expected || self.product != self.reading {
            self.show_difference("collect", chains, words, done, expected);
        }
        self.count(chains, words, expected);
        expected.chains
    }

    /// Runs on both sides, again and again until the words end or a packet is cut.
    fn runs(&mut self, mut chains: Chains, words: &[u32]) {
        let mut place = 0;
        loop {
            let rest = &words[place..];
            let done = self.called(quernbrae_run_collect, chains, rest);
            let expected = run_collect(chains, &mut self.reading[..self.length], rest);
            if done != expected || self.product != self.reading {
                self.show_difference("run_collect", chains, rest, done, expected);
            }
            self.ran[expected.answer as usize] += 1;
            if matches!(expected.answer, TAKEN_IN | CUT) {
                return;
            }
            place += expected.read;
            chains = expected.chains;
        }
    }

    /// A list of another length is answered 10 first of all, and nothing changes.
    fn every_list(&mut self) {
        self.lend(32 * 12);
        for length in (0..64).filter(|length| *length != 32) {
            for call in [quernbrae_collect as Call, quernbrae_run_collect] {
                let words = exclusive(&mut self.dice, 0, 0, 6);
                let mut list = vec![chains_closed().all[0]; length];
                let before = (list.clone(), self.product.clone());
                for count in 0..3 {
                    let (chains, buffer) = (list.as_mut_ptr(), self.product.as_mut_ptr());
                    // The list, the buffer and the words are so long as is said.
                    let done =
                        unsafe { call(chains, length, buffer, self.length, words.as_ptr(), count) };
                    let told = (done.answer, done.place, done.read, done.chain);
                    assert_eq!(told, (10, 0, 0, NO_CHAIN), "{length} chains");
                    assert_eq!((done.start, done.length), (0, 0), "{length} chains");
                }
                assert_eq!(before, (list, self.product.clone()), "{length} chains");
            }
        }
    }

    fn show_difference(
        &self,
        call: &str,
        chains: Chains,
        words: &[u32],
        done: Collected,
        expected: Collected,
    ) {
        println!(
            "DIFFERENCE in {call}: buffer {}, words {words:08X?}",
            self.length
        );
        for chain in 0..32 {
            let [before, product, reading] =
                [chains, done.chains, expected.chains].map(|side| side.all[chain]);
            if product != reading || chain == expected.chain {
                println!("chain {chain}: before {before:?}");
                println!("  product {product:?}\n  reading {reading:?}");
            }
        }
        for (side, report) in [("product", done), ("reading", expected)] {
            let (answer, place, read) = (report.answer, report.place, report.read);
            println!(
                "{side}: answer {answer}, place {place}, read {read}, chain {}",
                report.chain
            );
            println!("  start {}, length {}", report.start, report.length);
        }
        let mut places = (0..self.product.len()).filter(|n| self.product[*n] != self.reading[*n]);
        if let Some(place) = places.next() {
            let [product, reading] = [self.product[place], self.reading[place]];
            println!("buffer {place}: product {product:02X}, reading {reading:02X}");
        }
        std::process::exit(1);
    }

    fn count(&mut self, before: Chains, words: &[u32], done: Collected) {
        let sort = match done.chain {
            NO_CHAIN => 4,
            chain => 2 * (chain / 16) + usize::from(before.all[chain].packets > 0),
        };
        self.seen[sort][done.answer as usize] += 1;
        if done.answer == BAD_DATA {
            self.named.count(words[0], done.place);
        }
    }

    fn collect_packet(&mut self, chains: Chains, packet: [u32; 4]) -> Chains {
        self.collect(chains, &packet[..size(packet[0])])
    }
}

/// Numbers that a chain can be lent with, sensible ones and others.
fn lent_chains(part: usize, shared: u32) -> Vec<Chain> {
    let mut chains = vec![];
    for packets in [0, 1, 2, 31, 32, 33, u32::MAX] {
        for short in [0, 1, 6, 7, 12, 13] {
            let length = part.saturating_sub(short);
            chains.push(Chain {
                length,
                shared,
                packets,
            });
        }
        for length in [part + 1, part + 40, 32 * part, usize::MAX - 5, usize::MAX] {
            chains.push(Chain {
                length,
                shared,
                packets,
            });
        }
    }
    chains
}

/// Any numbers in all chains.
fn odd_chains(dice: &mut Dice, part: usize) -> Chains {
    let mut chains = chains_closed();
    for chain in &mut chains.all {
        let shared = dice.word() & 0x1F_FFFF;
        *chain = dice.pick(&lent_chains(part, shared));
    }
    chains
}

/// Sweeps over single packets.
impl Comparison {
    /// Packets of every form to every chain, whatever is in it.
    fn every_chain(&mut self) {
        for part in PARTS {
            let rest = self.dice.below(32);
            self.lend(32 * part + rest);
            let mut chains = odd_chains(&mut self.dice, part);
            for number in 0..32 {
                let shared = self.dice.word() & 0x1F_FFFF;
                for lent in lent_chains(part, if number < 16 { 0 } else { shared }) {
                    chains.all[number] = lent;
                    self.every_form(chains, number, shared);
                }
            }
        }
    }

    fn every_form(&mut self, chains: Chains, number: usize, shared: u32) {
        let group = number as u32 % 16;
        for form in 0..4 {
            if number < 16 {
                for count in 0..7 {
                    let packet = exclusive(&mut self.dice, group, form, count);
                    self.collect_packet(chains, packet);
                }
                continue;
            }
            let other = shared ^ 1 << self.dice.below(21);
            for fields in [shared, other, shared | 0x20_0000] {
                let packet = flex(&mut self.dice, group, form, fields);
                self.collect_packet(chains, packet);
            }
        }
    }

    /// Every bit in which the fields of a packet and of its chain can differ, bits among them that
    /// no packet has.
    fn every_shared_bit(&mut self) {
        self.lend(32 * 24);
        let mut chains = chains_closed();
        for number in 0..16 * 33 * 23 {
            let (group, lent, own) = (number % 16, number / 16 % 33, number / 16 / 33);
            let shared = self.dice.word() & 0x1F_FFFF;
            let bit = |place: usize| 1_u32.checked_shl(place as u32).unwrap_or(0);
            chains.all[16 + group] = Chain {
                length: 12,
                shared: shared ^ bit(lent),
                packets: 1,
            };
            let fields = if own < 22 { shared ^ bit(own) } else { shared };
            for form in 0..4 {
                let packet = flex(&mut self.dice, group as u32, form, fields);
                self.collect_packet(chains, packet);
            }
        }
    }

    /// Every value of a first word's upper half, with good data mostly, whole and cut.
    fn every_head(&mut self) {
        for head in 0..=u16::MAX {
            if head % 1024 == 0 {
                let part = self.dice.pick(&PARTS);
                self.lend(32 * part);
            }
            let part = self.length / 32;
            let mut words = [0; 4].map(|_: u32| self.dice.word());
            if !self.dice.one_in(4) {
                words = words.map(|word| word & 0x7F7F_7F7F);
            }
            words[0] = u32::from(head) << 16 | words[0] & 0xFFFF;
            let chains = odd_chains(&mut self.dice, part);
            self.collect(chains, &words);
            let length = self.dice.below(4);
            self.collect(chains, &words[..length]);
        }
    }

    /// Every place of bad data, with whatever behind it.
    fn every_bad_place(&mut self) {
        self.lend(32 * 12);
        for bad in every_place(&CHECKED) {
            for _ in 0..200 {
                let words = bad_packet(&mut self.dice, bad);
                let chains = odd_chains(&mut self.dice, 12);
                self.collect(chains, &words);
            }
        }
    }

    /// Buffers of every small length, with a stream into each.
    fn every_buffer(&mut self) {
        for length in 0..=32 * 40 {
            self.lend(length);
            self.stream(chains_closed());
        }
    }
}

/// Random cases.
impl Comparison {
    /// Packets for a few chains mostly, each from the chains that the one before it left; and the words
    /// of all of them.
    fn stream(&mut self, mut chains: Chains) -> Vec<u32> {
        let mut all = vec![];
        let group = self.dice.below(16) as u32;
        for _ in 0..STREAM {
            let other = self.dice.below(16) as u32;
            let mut words = if self.dice.one_in(12) {
                let any_type = self.dice.below(16) as u32;
                packet(&mut self.dice, any_type)
            } else {
                throw_piece(&mut self.dice, &chains, &[group, group, group, other])
            };
            if self.dice.one_in(24) {
                words[self.dice.below(2)] ^= 1 << self.dice.below(32);
            }
            let length = match self.dice.below(16) {
                0 => self.dice.below(5),
                1..=4 => 4,
                _ => size(words[0]),
            };
            chains = self.collect(chains, &words[..length]);
            all.extend(&words[..length]);
        }
        all
    }

    fn random_stream(&mut self) {
        let any = self.dice.below(400);
        let part = self.dice.pick(&[any, 12, 24, 36, 60, 100, 383, 384, 385]);
        let rest = self.dice.below(32);
        self.lend(32 * part + rest);
        let chains = match self.dice.below(4) {
            0 => odd_chains(&mut self.dice, part),
            _ => chains_closed(),
        };
        let words = self.stream(chains);
        self.runs(chains, &words);
    }

    /// Flex Data and an exclusive of more packets than Flex Data may have.
    fn long_stream(&mut self) {
        let part = self.dice.pick(&[200, 300, 384, 400, 500]);
        self.lend(32 * part);
        let group = self.dice.below(16) as u32;
        let shared = self.dice.word() & 0x1F_FFFF;
        let last = 30 + self.dice.below(5);
        let mut chains = chains_closed();
        for number in 0..40 {
            let form = match number {
                0 => 1,
                _ if number == last => 3,
                _ => 2,
            };
            let packet = flex(&mut self.dice, group, form, shared);
            chains = self.collect_packet(chains, packet);
            let count = self.dice.below(7);
            let packet = exclusive(&mut self.dice, group, form, count);
            chains = self.collect_packet(chains, packet);
        }
    }
}

/// Identities.
impl Comparison {
    fn turn_new(&mut self, old: &[u8]) {
        // The bytes are a slice.
        let identity = unsafe { quernbrae_identity_new(old.as_ptr(), old.len()) };
        let expected = reading::identity_new(old);
        assert_eq!(identity, expected, "identity_new of {old:02X?} differs");
        self.turned[0][usize::from(expected.answer == NO_COUNTERPART)] += 1;
    }

    fn turn_old(&mut self, number: u16) -> Maker {
        // It takes a number and gives back plain bytes.
        let maker = unsafe { quernbrae_identity_old(number) };
        let expected = reading::identity_old(number);
        assert_eq!(maker, expected, "identity_old of {number:04X} differs");
        self.turned[1][usize::from(expected.answer == NO_COUNTERPART)] += 1;
        maker
    }

    /// Every number there and back; every one and two bytes; three with every last two; others.
    fn every_identity(&mut self) {
        for number in 0..=u16::MAX {
            let maker = self.turn_old(number);
            if maker.answer == SENT {
                self.turn_new(&maker.bytes[..maker.count as usize]);
            }
            let [high, low] = number.to_be_bytes();
            self.turn_new(&[low]);
            self.turn_new(&[high, low]);
            let any = self.dice.word() as u8;
            for first in [0, 1, 127, 128, any] {
                self.turn_new(&[first, high, low]);
            }
            let bytes = [0, high, low, 0, 0, 0, 0, 0];
            let length = self.dice.below(9);
            self.turn_new(&bytes[..length]);
        }
    }
}

impl Comparison {
    /// How often each answer came in each sort of case; fails if one that can occur never did.
    fn summary(&self) {
        let collected: usize = self.seen.as_flattened().iter().sum();
        let turned: usize = self.turned.as_flattened().iter().sum();
        println!("{} cases without a difference", collected + turned);
        let mut complete = self.named.all_of(&CHECKED);
        for ((name, answers), seen) in SORTS.iter().zip(&self.seen) {
            let counts: Vec<_> = answers
                .iter()
                .map(|n| format!("{n}: {}", seen[*n]))
                .collect();
            println!("{name} answered {}", counts.join(", "));
            complete &= answers.iter().all(|answer| seen[*answer] > 0);
        }
        for message_type in CHECKED {
            let named = self.named.of_type(message_type);
            println!("places of type {message_type} named: {named:?}");
        }
        let [new, old] = self.turned;
        println!(
            "identities with a counterpart and without: into numbers {new:?}, out of them {old:?}"
        );
        println!("answers of runs: {:?}", self.ran);
        complete &= [0, 1, 3, 15, 16, 18]
            .iter()
            .all(|answer| self.ran[*answer] > 0);
        complete &= self.turned.as_flattened().iter().all(|count| *count > 0);
        if !complete {
            println!("something that can occur was never seen");
            std::process::exit(1);
        }
    }
}

fn main() {
    let cases = match std::env::args().nth(1) {
        Some(cases) => cases.parse().expect("usage: chain_sweeps [CASES]"),
        None => DEFAULT_CASES,
    };
    // It takes nothing and gives back a plain chain.
    let product_closed = unsafe { quernbrae_chain_closed() };
    assert_eq!(
        product_closed,
        chains_closed().all[0],
        "quernbrae_chain_closed differs"
    );
    let mut comparison = Comparison::new();
    comparison.every_chain();
    comparison.every_shared_bit();
    comparison.every_head();
    comparison.every_bad_place();
    comparison.every_buffer();
    comparison.every_list();
    comparison.every_identity();
    for _ in 0..cases / STREAM {
        comparison.random_stream();
    }
    for _ in 0..cases / 1000 {
        comparison.long_stream();
    }
    comparison.summary();
}
