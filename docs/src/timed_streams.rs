//! The rows of the runs and calls that go over words: up and down, in the beginners' room, of a
//! host, and one channel's packets alone.

use crate::rows::{room, timed, Reports, Row};
use crate::sides::{
    go_down, go_up, host_go_down, host_go_up, lesson, only, GoDown, GoUp, Guest, HostGoDown,
    HostGoUp, Side,
};
use crate::traffic::{check_mix, check_mix_down, Recipe, RECIPES, RECIPES_DOWN};
use reading::{empty, Done, Record};
use std::time::Duration;

/// A million words are what the request asks for.
const ASKED: usize = 1_000_000;

/// How many words are lent to one call of a run. The others show how the time grows.
const LENGTHS: [usize; 4] = [ASKED, 100, 10_000, 10_000_000];

/// All of the words: a run goes to their end, and a single call takes the first packet.
const ALL: usize = usize::MAX;

/// Some groups are the host's, some the other's, some nobody's, and two stand behind the list.
const GUEST: Guest = Guest {
    host: 1,
    owners: &[1, 1, 2, 1, 2, 1, 0, 1, 2, 1, 2, 2, 0, 1],
};

/// Words of a recipe.
struct Stream {
    recipe: &'static str,
    words: Vec<u32>,
}

/// The words of every recipe: those that go up, so many as are asked for and those of the longest
/// call, and those that go down.
pub struct Streams {
    up: [Stream; 2],
    longest: [Stream; 2],
    down: [Stream; 2],
}

impl Streams {
    pub fn new() -> Streams {
        let [.., longest] = LENGTHS;
        let streams = |recipes: [Recipe; 2], length| {
            recipes.map(|(recipe, make)| Stream {
                recipe,
                words: make(length),
            })
        };
        let (up, down) = (streams(RECIPES, ASKED), streams(RECIPES_DOWN, ASKED));
        check_mix(&up[0].words);
        check_mix_down(&down[0].words);
        Streams {
            up,
            longest: streams(RECIPES, longest),
            down,
        }
    }
}

/// What a side leaves: all of its room, its reports, and the table.
type Left = (Vec<u32>, Reports, [Record; 256]);

/// Calls until all words are read, with so many at most lent to each call, and room for twice as
/// many as there are.
fn walk(
    words: &[u32],
    a_call: usize,
    mut call: impl FnMut(&[u32], &mut [Record], &mut [u32]) -> Done,
) -> (Duration, Left) {
    let (mut out, mut table) = (room(2 * words.len()), [empty(); 256]);
    let (time, reports) = timed(|| {
        let (mut read, mut written, mut reports) = (0, 0, Reports::default());
        while read < words.len() {
            let end = words.len().min(read.saturating_add(a_call));
            let done = call(&words[read..end], &mut table, &mut out[written..]);
            assert!(done.read > 0, "a call does not go on: {done:?}");
            reports.note(done);
            read += done.read;
            written += done.written;
        }
        reports
    });
    (time, (out, reports, table))
}

/// A row over the words of a recipe.
fn row<'a>(
    what: &str,
    stream: &'a Stream,
    go: impl Fn(Side, &[u32]) -> (Duration, Left) + 'a,
) -> Row<'a> {
    let units = stream.words.len();
    Row::new([what, stream.recipe, "word"], units, move |side| {
        go(side, &stream.words)
    })
}

fn up_row<'a>(what: &str, stream: &'a Stream, call: fn(Side) -> GoUp) -> Row<'a> {
    row(what, stream, move |side, words| {
        let call = call(side);
        walk(words, ALL, |words, table, out| {
            go_up(call, words, table, out)
        })
    })
}

fn down_row<'a>(what: &str, stream: &'a Stream, call: fn(Side) -> GoDown) -> Row<'a> {
    row(what, stream, move |side, words| {
        let call = call(side);
        walk(words, ALL, |words, _, out| go_down(call, words, out))
    })
}

fn host_up_row<'a>(what: &str, stream: &'a Stream, call: fn(Side) -> HostGoUp) -> Row<'a> {
    row(what, stream, move |side, words| {
        let call = call(side);
        walk(words, ALL, |words, table, out| {
            host_go_up(call, GUEST, words, table, out)
        })
    })
}

fn host_down_row<'a>(what: &str, stream: &'a Stream, call: fn(Side) -> HostGoDown) -> Row<'a> {
    row(what, stream, move |side, words| {
        let call = call(side);
        walk(words, ALL, |words, _, out| {
            host_go_down(call, GUEST, words, out)
        })
    })
}

/// The run up and the lesson in calls of so many words.
fn length_rows(streams: &Streams, a_call: usize) -> Vec<Row<'_>> {
    let streams = if a_call > ASKED {
        &streams.longest
    } else {
        &streams.up
    };
    let run_up = move |side: Side, words: &[u32]| {
        walk(words, a_call, |words, table, out| {
            go_up(side.run_up, words, table, out)
        })
    };
    let lesson = move |side: Side, words: &[u32]| {
        walk(words, a_call, |words, _, out| {
            lesson(side.lesson, words, &[], out)
        })
    };
    let mut rows = vec![];
    for stream in streams {
        rows.push(row(
            &format!("run up, {a_call} words a call"),
            stream,
            run_up,
        ));
    }
    for stream in streams {
        rows.push(row(
            &format!("lesson, {a_call} words a call"),
            stream,
            lesson,
        ));
    }
    rows
}

fn rows_up(stream: &Stream) -> Vec<Row<'_>> {
    vec![
        up_row("up, a call a packet", stream, |side| side.up),
        up_row("beginners' run up", stream, |side| side.beginners_run_up),
        up_row("beginners' up, a call a packet", stream, |side| {
            side.beginners_up
        }),
        host_up_row("host's run up", stream, |side| side.host_run_up),
        host_up_row("host's up, a call a packet", stream, |side| side.host_up),
        row("only one channel", stream, |side, words| {
            walk(words, ALL, |words, _, out| {
                only(side.only, words, 0, 1, out)
            })
        }),
    ]
}

fn rows_down(stream: &Stream) -> Vec<Row<'_>> {
    vec![
        down_row("run down", stream, |side| side.run_down),
        down_row("down, a call a packet", stream, |side| side.down),
        host_down_row("host's run down", stream, |side| side.host_run_down),
        host_down_row("host's down, a call a packet", stream, |side| {
            side.host_down
        }),
    ]
}

pub fn rows(streams: &Streams) -> Vec<Row<'_>> {
    let mut rows = vec![];
    for a_call in LENGTHS {
        rows.extend(length_rows(streams, a_call));
    }
    rows.extend(streams.up.iter().flat_map(rows_up));
    rows.extend(streams.down.iter().flat_map(rows_down));
    rows
}
