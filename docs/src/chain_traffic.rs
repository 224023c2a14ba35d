//! The recipe of what is timed in the collector, which follows from the seed here.
//!
//! A librarian sends exclusives and text in six groups at once: the packets of twelve messages, one of
//! each sort in each group, are dealt out among each other. Exclusives have up to 200 bytes, and Flex
//! Data up to nine packets. One packet in four is a voice between them. One packet in two hundred is
//! lost, so that the next one of its message is out of turn, and one has a flipped bit.

use crate::cable_traffic::{exclusive, form};
use crate::packets::{packet, Dice};
use crate::traffic::end_at;
use reading::collector::{collect, CLOSED};
use reading::{size, BAD_DATA, BAD_STATUS, NO_CHAIN, OUT_OF_TURN, SENT, TAKEN_IN};

const GROUPS: [u32; 6] = [0, 1, 4, 7, 10, 15];

/// Fields that packets of Flex Data share: a lyric and the name of a song, to a group and to channels.
const SHARED: [u32; 4] = [0x10_0201, 0x10_0102, 0x03_0201, 0x0F_0105];

/// The packets of Flex Data: a complete one, or a start, some that go on and an end.
fn flex(dice: &mut Dice) -> Vec<[u32; 4]> {
    let (count, shared) = (1 + dice.below(9), dice.pick(&SHARED));
    let mut packets = vec![];
    for number in 0..count {
        let form = form(number, count);
        let [_, a, b, c] = [0; 4].map(|_: u32| dice.word());
        packets.push([0xD000_0000 | form << 22 | shared, a, b, c]);
    }
    packets
}

/// So many words of messages that are sent together.
pub fn librarian(length: usize) -> Vec<u32> {
    let mut dice = Dice::new(700);
    let mut open = [(); 12].map(|_| vec![]);
    let mut words = vec![];
    while words.len() < length {
        let number = dice.below(12);
        if open[number].is_empty() {
            let flex_turn = number % 2 == 1;
            open[number] = if flex_turn {
                flex(&mut dice)
            } else {
                exclusive(&mut dice)
            };
            open[number].reverse();
        }
        let mut next = open[number].pop().expect("a packet");
        next[0] |= GROUPS[number / 2] << 24;
        match dice.below(200) {
            0 => continue,
            1 => next[0] ^= 1 << dice.below(24),
            _ => (),
        }
        words.extend(&next[..size(next[0])]);
        if dice.one_in(3) {
            words.push(packet(&mut dice, 2)[0]);
        }
    }
    end_at(length, words, 0)
}

/// Fails unless messages of both sorts are whole, chains are dropped, and packets refused.
pub fn check_librarian(words: &[u32]) {
    let (mut chains, mut buffer) = ([CLOSED; NO_CHAIN], [0; 1 << 16]);
    let (mut place, mut answers, mut whole) = (0, [0; 19], [0; 2]);
    while place < words.len() {
        let one = collect(&mut chains, &mut buffer, &words[place..]);
        place += one.read;
        answers[one.answer as usize] += 1;
        if one.answer == SENT {
            whole[one.chain / 16] += 1;
        }
    }
    let all = [SENT, TAKEN_IN, BAD_STATUS, BAD_DATA, OUT_OF_TURN];
    assert!(all.iter().all(|answer| answers[*answer as usize] > 0));
    assert!(whole[0] > 0 && whole[1] > 0);
}
