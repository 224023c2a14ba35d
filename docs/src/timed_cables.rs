//! The rows of the five-pin sockets: bytes that come in, and packets that go out.

use crate::cable_traffic::{bytes, check_bytes, check_packets, packets, GROUP};
use crate::rows::{room, room_of_bytes, timed, Reports, Row};
use crate::sides::{come_in, go_out, ComeIn, GoOut};
use reading::{cable_idle, Cable};
use std::time::Duration;

/// So many bytes come in, and so many words go out.
const LENGTH: usize = 1_000_000;

pub struct Cables {
    bytes: Vec<u8>,
    words: Vec<u32>,
}

impl Cables {
    pub fn new() -> Cables {
        let (bytes, words) = (bytes(LENGTH), packets(LENGTH));
        check_bytes(&bytes);
        check_packets(&words);
        Cables { bytes, words }
    }
}

/// Takes bytes until all are read, from a cable on which nothing was heard yet.
fn take_in(call: ComeIn, bytes: &[u8]) -> (Duration, (Vec<u32>, Reports, Cable)) {
    let mut out = room(2 * bytes.len());
    let (time, (reports, cable)) = timed(|| {
        let (mut read, mut written) = (0, 0);
        let (mut cable, mut reports) = (cable_idle(), Reports::default());
        while read < bytes.len() {
            let one = come_in(call, cable, GROUP, &bytes[read..], &mut out[written..]);
            reports.note(one);
            read += one.read;
            written += one.written;
            cable = one.after;
        }
        (reports, cable)
    });
    (time, (out, reports, cable))
}

/// Sends words out until all are read.
fn send_out(call: GoOut, words: &[u32]) -> (Duration, (Vec<u8>, Reports)) {
    let mut out = room_of_bytes(4 * words.len());
    let (time, reports) = timed(|| {
        let (mut read, mut written, mut reports) = (0, 0, Reports::default());
        while read < words.len() {
            let done = go_out(call, GROUP, &words[read..], &mut out[written..]);
            assert!(done.read > 0, "a call does not go on: {done:?}");
            reports.note(done);
            read += done.read;
            written += done.written;
        }
        reports
    });
    (time, (out, reports))
}

pub fn rows(cables: &Cables) -> Vec<Row<'_>> {
    let Cables { bytes, words } = cables;
    vec![
        Row::new(["run in", "cable", "byte"], LENGTH, |side| {
            take_in(side.run_import, bytes)
        }),
        Row::new(["in, a call a byte", "cable", "byte"], LENGTH, |side| {
            take_in(side.import, bytes)
        }),
        Row::new(["run out", "cable", "word"], LENGTH, |side| {
            send_out(side.run_export, words)
        }),
        Row::new(["out, a call a packet", "cable", "word"], LENGTH, |side| {
            send_out(side.export, words)
        }),
    ]
}
