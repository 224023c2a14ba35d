//! The rows of the collector, by calls and by its run.

use crate::chain_traffic::{check_librarian, librarian};
use crate::rows::{room_of_bytes, timed, Reports, Row};
use crate::sides::{begin, gather, ChainClosed, Collect};
use reading::collector::CLOSED;
use reading::{Chain, NO_CHAIN};
use std::time::Duration;

/// So many words go into the chains.
const LENGTH: usize = 1_000_000;

/// So many bytes each chain has room for.
const PART: usize = 2048;

/// So many chains are closed.
const CLOSINGS: usize = 100_000;

pub struct Messages(Vec<u32>);

impl Messages {
    pub fn new() -> Messages {
        let words = librarian(LENGTH);
        check_librarian(&words);
        Messages(words)
    }
}

/// What a side leaves: all parts, its reports, and the chains.
type Left = (Vec<u8>, Reports, [Chain; NO_CHAIN]);

/// Takes words until all are read, from closed chains on.
fn take_all(call: Collect, words: &[u32]) -> (Duration, Left) {
    let (mut buffer, mut chains) = (room_of_bytes(NO_CHAIN * PART), [CLOSED; NO_CHAIN]);
    let (time, reports) = timed(|| {
        let (mut read, mut reports) = (0, Reports::default());
        while read < words.len() {
            let one = gather(call, &mut chains, &mut buffer, &words[read..]);
            assert!(one.read > 0, "a call does not go on: {one:?}");
            reports.note(one);
            read += one.read;
        }
        reports
    });
    (time, (buffer, reports, chains))
}

/// Closes chains, and gives back all of them as reports.
fn close(call: ChainClosed) -> (Duration, Reports) {
    timed(|| {
        let mut reports = Reports::default();
        (0..CLOSINGS).for_each(|_| reports.note(begin(call)));
        reports
    })
}

pub fn rows(messages: &Messages) -> Vec<Row<'_>> {
    let Messages(words) = messages;
    vec![
        Row::new(
            ["collecting, by runs", "librarian", "word"],
            LENGTH,
            |side| take_all(side.run_collect, words),
        ),
        Row::new(
            ["collecting, a call a packet", "librarian", "word"],
            LENGTH,
            |side| take_all(side.collect, words),
        ),
        Row::new(["closed chain", "", "call"], CLOSINGS, |side| {
            close(side.chain_closed)
        }),
    ]
}
