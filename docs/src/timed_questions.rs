//! The rows of the calls that take no stream: questions and marks, gifts of groups, maker
//! identities, and the states that all begins with.

use crate::packets::Dice;
use crate::rows::{timed, Report, Reports, Row};
use crate::sides::{
    ask_keys, begin, give, host_ask_keys, host_mark, identity_new, identity_old, mark, Guest, Side,
};
use crate::traffic::RECIPES;
use reading::{empty, run_up, Record, SENT};
use std::time::Duration;

/// So many calls of each sort.
const CALLS: usize = 100_000;

/// Whose groups are: the first host's, the other's, and nobody's.
const OWNERS: [u8; 16] = [1, 1, 2, 1, 2, 1, 0, 1, 2, 1, 2, 2, 0, 1, 1, 2];

/// A channel of a group, and a number from 0 to 2: a mark, or the host that gets the group.
#[derive(Clone, Copy)]
struct Place {
    group: u8,
    channel: u8,
    number: u8,
}

/// A maker identity of bytes, of which the first `count` count.
#[derive(Clone, Copy)]
struct Old {
    bytes: [u8; 3],
    count: usize,
}

/// What is asked: places of which one in 32 does not exist, maker identities of which one in 16 has
/// no number, numbers of which some have no bytes, and a table with keys and addresses in it.
pub struct Questions {
    places: Vec<Place>,
    old: Vec<Old>,
    new: Vec<u16>,
    table: [Record; 256],
}

impl Questions {
    pub fn new() -> Questions {
        let mut dice = Dice::new(600);
        let (_, random_mix) = RECIPES[0];
        let (words, mut table) = (random_mix(CALLS), [empty(); 256]);
        run_up(&words, &mut table, &mut vec![0; 2 * words.len()]);
        let old: Vec<_> = (0..CALLS).map(|_| throw_old(&mut dice)).collect();
        Questions {
            places: (0..CALLS).map(|_| throw_place(&mut dice)).collect(),
            new: old.iter().map(|old| throw_new(&mut dice, *old)).collect(),
            old,
            table,
        }
    }
}

fn throw_place(dice: &mut Dice) -> Place {
    let beyond = if dice.one_in(32) { 16 } else { 0 };
    Place {
        group: dice.below(16) as u8 + beyond,
        channel: dice.below(16) as u8,
        number: dice.below(3) as u8,
    }
}

fn throw_old(dice: &mut Dice) -> Old {
    let [a, b, c] = [0; 3].map(|_: u8| dice.below(128) as u8);
    let bytes = if dice.one_in(2) { [a, 0, 0] } else { [0, b, c] };
    Old {
        bytes,
        count: match dice.below(16) {
            0 => 2,
            _ if bytes[0] == 0 => 3,
            _ => 1,
        },
    }
}

/// The number of an identity, or any where it has none.
fn throw_new(dice: &mut Dice, old: Old) -> u16 {
    let identity = reading::identity_new(&old.bytes[..old.count]);
    match identity.answer {
        SENT => identity.number as u16,
        _ => dice.word() as u16,
    }
}

/// A call for each of what is asked about, and all reports.
fn ask<T: Copy, R: Report>(about: &[T], mut call: impl FnMut(T) -> R) -> (Duration, Reports) {
    timed(|| {
        let mut reports = Reports::default();
        about.iter().for_each(|one| reports.note(call(*one)));
        reports
    })
}

/// A call for each of the places over this table, and what is left of table and owners.
fn change<R: Report>(
    questions: &Questions,
    mut call: impl FnMut(&mut [Record; 256], &mut [u8; 16], Place) -> R,
) -> (Duration, (Reports, [Record; 256], [u8; 16])) {
    let (mut table, mut owners) = (questions.table, OWNERS);
    let (time, reports) = ask(&questions.places, |place| {
        call(&mut table, &mut owners, place)
    });
    (time, (reports, table, owners))
}

fn row<'a, Left: PartialEq>(what: &str, go: impl Fn(Side) -> (Duration, Left) + 'a) -> Row<'a> {
    Row::new([what, "", "call"], CALLS, go)
}

fn questions_and_marks(all: &Questions) -> Vec<Row<'_>> {
    vec![
        row("keys down", |side| {
            change(all, |table, _, place| {
                ask_keys(side.keys_down, table, place.group, place.channel)
            })
        }),
        row("mark coarse", |side| {
            change(all, |table, _, place| {
                let coarse = place.number;
                mark(side.mark_coarse, table, place.group, place.channel, coarse)
            })
        }),
    ]
}

fn of_hosts(all: &Questions) -> Vec<Row<'_>> {
    vec![
        row("host's keys down", |side| {
            change(all, |table, owners, place| {
                let guest = Guest { host: 1, owners };
                host_ask_keys(
                    side.host_keys_down,
                    guest,
                    table,
                    place.group,
                    place.channel,
                )
            })
        }),
        row("host's mark coarse", |side| {
            change(all, |table, owners, place| {
                let (guest, coarse) = (Guest { host: 1, owners }, place.number);
                let (group, channel) = (place.group, place.channel);
                host_mark(side.host_mark_coarse, guest, table, group, channel, coarse)
            })
        }),
        row("give group", |side| {
            change(all, |table, owners, place| {
                give(side.give_group, owners, table, place.group, place.number)
            })
        }),
    ]
}

fn identities_and_beginnings(all: &Questions) -> Vec<Row<'_>> {
    vec![
        row("maker identity, to a number", |side| {
            ask(&all.old, |old| {
                identity_new(side.identity_new, &old.bytes[..old.count])
            })
        }),
        row("maker identity, to bytes", |side| {
            ask(&all.new, |number| identity_old(side.identity_old, number))
        }),
        row("empty record", |side| ask(&all.new, |_| begin(side.empty))),
        row("idle cable", |side| {
            ask(&all.new, |_| begin(side.cable_idle))
        }),
    ]
}

pub fn rows(questions: &Questions) -> Vec<Row<'_>> {
    let mut rows = questions_and_marks(questions);
    rows.extend(of_hosts(questions));
    rows.extend(identities_and_beginnings(questions));
    rows
}
