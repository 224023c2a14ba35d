//! Packets of exclusives and of Flex Data, mostly in turn, from a fixed recipe.

use crate::packets::Dice;
use reading::{Chains, COMPLETE, CONTINUE, END, START};

/// Fields that packets of Flex Data share, to any channel and to the whole group, for several banks.
const SHARED: [u32; 6] = [
    0x00_0000, 0x0F_0001, 0x05_0102, 0x10_0000, 0x10_0204, 0x1F_FFFF,
];

/// A packet of an exclusive with so many bytes, in four words of which its size counts.
/// The bytes behind these are whatever was thrown.
pub fn exclusive(dice: &mut Dice, group: u32, form: u32, count: usize) -> [u32; 4] {
    let thrown = u64::from(dice.word()) << 32 | u64::from(dice.word());
    let payload = !(u64::MAX >> (8 * count)) >> 16;
    let words = thrown & !(payload & 0x8080_8080_8080);
    let head = 0x3000_0000 | group << 24 | form << 20 | (count as u32) << 16;
    [head | (words >> 32) as u32 & 0xFFFF, words as u32, 0, 0]
}

/// A packet of Flex Data.
pub fn flex(dice: &mut Dice, group: u32, form: u32, shared: u32) -> [u32; 4] {
    let head = 0xD000_0000 | group << 24 | form << 22 | shared;
    [head, dice.word(), dice.word(), dice.word()]
}

/// A form that is in turn, but for one in some.
fn throw_form(dice: &mut Dice, is_open: bool) -> u32 {
    if is_open == dice.one_in(16) {
        dice.pick(&[COMPLETE, START, START])
    } else {
        dice.pick(&[CONTINUE, CONTINUE, CONTINUE, END])
    }
}

/// A packet for a chain of one of these groups, with an eye on what is open.
pub fn throw_piece(dice: &mut Dice, chains: &Chains, groups: &[u32]) -> [u32; 4] {
    let group = dice.pick(groups);
    if dice.one_in(2) {
        let is_open = chains.all[group as usize].packets > 0;
        let (form, any) = (throw_form(dice, is_open), dice.below(7));
        let count = dice.pick(&[6, 6, any]);
        return exclusive(dice, group, form, count);
    }
    let chain = chains.all[16 + group as usize];
    let is_open = chain.packets > 0;
    let form = throw_form(dice, is_open);
    let shared = match dice.below(24) {
        0 => chain.shared ^ 1 << dice.below(21),
        1 => dice.word(),
        _ if is_open => chain.shared,
        _ => dice.pick(&SHARED),
    };
    flex(dice, group, form, shared & 0x3F_FFFF)
}
