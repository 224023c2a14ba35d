//! Tests of the five-pin sockets.

use super::*;
use crate::{refused, size, stopped, Done};

const UNTOUCHED: u32 = 0xAAAA_AAAA;

/// Single calls over all the bytes: the answers, the words sent and the cable after them.
fn heard_from(mut cable: Cable, group: u8, bytes: &[u8]) -> (Vec<u32>, Vec<u32>, Cable) {
    let (mut answers, mut words, mut place) = (vec![], vec![], 0);
    while place < bytes.len() {
        let mut out = [UNTOUCHED; 3];
        let one = import(cable, group, &bytes[place..], &mut out);
        assert!(one.after.sound());
        assert!(out[one.written..].iter().all(|word| *word == UNTOUCHED));
        answers.push(one.answer);
        words.extend(&out[..one.written]);
        place += one.read;
        cable = one.after;
    }
    (answers, words, cable)
}

fn heard(bytes: &[u8]) -> (Vec<u32>, Vec<u32>, Cable) {
    heard_from(cable_idle(), 0, bytes)
}

/// The answers and the words alone.
fn heard_words(bytes: &[u8]) -> (Vec<u32>, Vec<u32>) {
    let (answers, words, _) = heard(bytes);
    (answers, words)
}

fn cable(running: u8, status: u8, begun: u8, held: &[u8]) -> Cable {
    let mut cable = Cable {
        running,
        status,
        begun,
        count: held.len() as u8,
        held: [0; 6],
    };
    cable.held[..held.len()].copy_from_slice(held);
    cable
}

/// One export in a group, with room for nine bytes: the answer, the place and the bytes written.
fn exported(group: u8, words: &[u32]) -> (u32, u32, Vec<u8>) {
    let mut out = [0xAA; 9];
    let done = export(group, words, &mut out);
    assert!(out[done.written..].iter().all(|byte| *byte == 0xAA));
    assert!(matches!(done.answer, CUT | ABOVE_15) || done.read == size(words[0]));
    (done.answer, done.place, out[..done.written].to_vec())
}

fn exported_bytes(words: &[u32]) -> Vec<u8> {
    let mut out = vec![0; 4 * words.len()];
    let done = run_export(0, words, &mut out);
    assert_eq!((done.answer, done.read), (SENT, words.len()));
    out.truncate(done.written);
    out
}

#[test]
fn voices_are_sent_at_their_last_data_byte() {
    for status in 0x80..=0xEF {
        let words = vec![0x2000_0000 | u32::from(status) << 16 | 0x3C41];
        if let 0xC0..=0xDF = status {
            let words = vec![words[0] & !0xFF];
            let after = cable(status, 0, 0, &[]);
            assert_eq!(heard(&[status, 0x3C]), (vec![1, 0], words, after));
        } else {
            let after = cable(status, 0, 0, &[]);
            let call = heard(&[status, 0x3C, 0x41]);
            assert_eq!(call, (vec![1, 1, 0], words, after));
        }
    }
}

#[test]
fn data_bytes_alone_repeat_the_last_voice() {
    let bytes = [0x93, 60, 1, 61, 2, 62, 3];
    let words = vec![0x2093_3C01, 0x2093_3D02, 0x2093_3E03];
    assert_eq!(heard_words(&bytes), (vec![1, 1, 0, 1, 0, 1, 0], words));
    let words = vec![0x20D5_0100, 0x20D5_0200];
    assert_eq!(heard_words(&[0xD5, 1, 2]), (vec![1, 0, 0], words));
    // The first half of a repeated message is held under its status.
    let (_, _, after) = heard(&[0x93, 60, 1, 61]);
    assert_eq!(after, cable(0x93, 0x93, 0, &[61]));
    let (_, _, after) = heard(&[0x93, 60]);
    assert_eq!(after, cable(0, 0x93, 0, &[60]));
}

#[test]
fn system_messages_end_running_status() {
    let note = [0x90, 60, 1];
    for (system, answers, word) in [
        (&[0xF1, 5][..], vec![1, 0], Some(0x10F1_0500)),
        (&[0xF2, 5, 6], vec![1, 1, 0], Some(0x10F2_0506)),
        (&[0xF3, 5], vec![1, 0], Some(0x10F3_0500)),
        (&[0xF4], vec![11], None),
        (&[0xF5], vec![11], None),
        (&[0xF6], vec![0], Some(0x10F6_0000)),
        (&[0xF7], vec![11], None),
    ] {
        let bytes = [&note, system, &[61, 2]].concat();
        let all = [vec![1, 1, 0], answers, vec![11, 11]].concat();
        let words: Vec<u32> = [0x2090_3C01].into_iter().chain(word).collect();
        assert_eq!(heard(&bytes), (all, words, cable_idle()), "{bytes:02X?}");
    }
    let bytes = [&note[..], &[0xF0, 0xF7, 61, 2]].concat();
    let words = vec![0x2090_3C01, 0x3000_0000, 0];
    let answers = vec![1, 1, 0, 1, 0, 11, 11];
    assert_eq!(heard(&bytes), (answers, words, cable_idle()));
}

#[test]
fn real_time_is_sent_at_once_and_changes_nothing() {
    let exclusive = cable(0, 0xF0, 1, &[1, 2, 3, 4, 5, 6]);
    for state in [
        cable_idle(),
        cable(0x90, 0, 0, &[]),
        cable(0x90, 0x90, 0, &[60]),
        cable(0, 0xF2, 0, &[1]),
        exclusive,
    ] {
        for byte in 0xF8..=0xFF {
            let word = 0x1B00_0000 | u32::from(byte) << 16;
            let expected = match byte {
                0xF9 | 0xFD => (vec![11], vec![], state),
                _ => (vec![0], vec![word], state),
            };
            assert_eq!(heard_from(state, 11, &[byte]), expected);
        }
    }
    let (answers, words) = heard_words(&[0x90, 0xF8, 60, 0xFE, 64]);
    assert_eq!(answers, [1, 0, 1, 0, 0]);
    assert_eq!(words, [0x10F8_0000, 0x10FE_0000, 0x2090_3C40]);
}

#[test]
fn an_exclusive_goes_out_in_sixes_when_the_next_byte_or_the_end_comes() {
    let expected: [&[u32]; 8] = [
        &[0x3000_0000, 0],
        &[0x3001_0100, 0],
        &[0x3002_0102, 0],
        &[0x3003_0102, 0x0300_0000],
        &[0x3004_0102, 0x0304_0000],
        &[0x3005_0102, 0x0304_0500],
        &[0x3006_0102, 0x0304_0506],
        &[0x3016_0102, 0x0304_0506, 0x3031_0700, 0],
    ];
    for (count, words) in expected.iter().enumerate() {
        let mut bytes = vec![0xF0];
        bytes.extend(1..=count as u8);
        let before = heard(&bytes);
        bytes.push(0xF7);
        let (answers, sent, after) = heard(&bytes);
        assert_eq!((sent, after), (words.to_vec(), cable_idle()));
        assert_eq!(before.1, words[..words.len() - 2]);
        let seventh = |place| if place == 7 { 0 } else { 1 };
        let all: Vec<_> = (0..=count).map(seventh).chain([0]).collect();
        assert_eq!(answers, all);
    }
    let bytes: Vec<u8> = [0xF0].into_iter().chain(1..=18).chain([0xF7]).collect();
    let words = vec![
        0x3016_0102,
        0x0304_0506,
        0x3026_0708,
        0x090A_0B0C,
        0x3036_0D0E,
        0x0F10_1112,
    ];
    assert_eq!(heard(&bytes).1, words);
}

#[test]
fn a_status_byte_drops_an_open_message_and_is_taken_by_the_next_call() {
    let one = import(cable(0, 0x90, 0, &[]), 0, &[0x80], &mut []);
    assert_eq!((one.answer, one.read, one.after), (11, 0, cable_idle()));
    // All of these are open and end so, whatever byte it is; the running status is left to it.
    let states = [
        (cable(0, 0x95, 0, &[60]), 0),
        (cable(0x95, 0x95, 0, &[60]), 0x95),
        (cable(0x95, 0x95, 0, &[]), 0x95),
        (cable(0, 0xC0, 0, &[]), 0),
        (cable(0, 0xF1, 0, &[]), 0),
        (cable(0, 0xF2, 0, &[1]), 0),
        (cable(0, 0xF3, 0, &[]), 0),
    ];
    for (state, running) in states {
        for byte in 0x80..=0xF7 {
            let one = import(state, 0, &[byte], &mut []);
            let expected = Imported {
                answer: 11,
                read: 0,
                written: 0,
                after: cable(running, 0, 0, &[]),
            };
            assert_eq!(one, expected);
        }
    }
    let answers = vec![1, 1, 11, 1, 1, 0];
    let words = vec![0x2080_3D02];
    assert_eq!(
        heard_words(&[0x90, 60, 0x80, 61, 2]),
        (answers, words.clone())
    );
    // The dropped half is not sent later.
    let answers = vec![1, 1, 11, 11, 11, 11];
    assert_eq!(heard_words(&[0x90, 60, 0xF4, 61, 2]), (answers, vec![]));
}

#[test]
fn a_status_byte_closes_an_exclusive_with_the_bytes_it_has() {
    for byte in (0x80..=0xF7).filter(|byte| *byte != 0xF7) {
        for (state, words) in [
            (cable(0, 0xF0, 0, &[]), [0x3F00_0000, 0]),
            (cable(0, 0xF0, 0, &[1, 2, 3]), [0x3F03_0102, 0x0300_0000]),
            (cable(0, 0xF0, 1, &[1]), [0x3F31_0100, 0]),
            (
                cable(0, 0xF0, 1, &[1, 2, 3, 4, 5, 6]),
                [0x3F36_0102, 0x0304_0506],
            ),
        ] {
            let mut out = [UNTOUCHED; 2];
            let one = import(state, 15, &[byte], &mut out);
            assert_eq!((one.answer, one.read, one.written), (12, 0, 2));
            assert_eq!((out, one.after), (words, cable_idle()));
            for room in 0..2 {
                let one = import(state, 15, &[byte], &mut out[..room]);
                assert_eq!(one, not_imported(OUTPUT_SHORT, state));
            }
        }
    }
    let words = vec![0x3001_0500, 0, 0x2090_3C40];
    let answers = vec![1, 1, 12, 1, 1, 0];
    assert_eq!(
        heard_words(&[0xF0, 5, 0x90, 60, 64]),
        (answers, words.clone())
    );
    let answers = vec![1, 12, 1, 0];
    let words = vec![0x3000_0000, 0, 0x3000_0000, 0];
    assert_eq!(heard_words(&[0xF0, 0xF0, 0xF7]), (answers, words));
}

#[test]
fn what_belongs_to_nothing_is_dropped() {
    for byte in (0..=0x7F).chain([0xF4, 0xF5, 0xF7, 0xF9, 0xFD]) {
        assert_eq!(heard(&[byte]), (vec![11], vec![], cable_idle()));
    }
    let running = cable(0x90, 0, 0, &[]);
    for byte in [0xF9, 0xFD] {
        assert_eq!(heard_from(running, 0, &[byte]), (vec![11], vec![], running));
    }
}

#[test]
fn numbers_that_fit_together_are_sound() {
    let sound = [
        cable_idle(),
        cable(0x80, 0, 0, &[]),
        cable(0xEF, 0, 0, &[]),
        cable(0, 0x80, 0, &[]),
        cable(0x80, 0x80, 0, &[]),
        cable(0, 0xEF, 0, &[127]),
        cable(0xDF, 0xDF, 0, &[]),
        cable(0, 0xF1, 0, &[]),
        cable(0, 0xF2, 0, &[127]),
        cable(0, 0xF3, 0, &[]),
        cable(0, 0xF0, 0, &[]),
        cable(0, 0xF0, 0, &[127; 6]),
        cable(0, 0xF0, 1, &[0]),
        cable(0, 0xF0, 1, &[127; 6]),
    ];
    assert!(sound.iter().all(Cable::sound));
}

#[test]
fn numbers_that_do_not_fit_together_are_met_by_8_after_24() {
    let mut not_sound = vec![
        cable(1, 0, 0, &[]),
        cable(0x7F, 0, 0, &[]),
        cable(0xF0, 0, 0, &[]),
        cable(0xFF, 0, 0, &[]),
        cable(0, 0, 1, &[]),
        cable(0, 0, 0, &[0]),
        cable(0x90, 0xF0, 0, &[]),
        cable(0, 0xF0, 1, &[]),
        cable(0, 0xF0, 2, &[1, 1]),
        cable(0, 0xF0, 0, &[128]),
        cable(0, 0x90, 0, &[128]),
        cable(0, 0x90, 0, &[1, 1]),
        cable(0x91, 0x90, 0, &[1]),
        cable(0, 0x90, 1, &[1]),
        cable(0, 0xC0, 0, &[1]),
        cable(0, 0xF1, 0, &[1]),
        cable(0x90, 0xF2, 0, &[1]),
        cable(0xF2, 0xF2, 0, &[1]),
        cable(0, 0x7F, 0, &[]),
        cable(0, 0xF4, 0, &[]),
        cable(0, 0xF6, 0, &[]),
        cable(0, 0xF8, 0, &[]),
    ];
    let mut too_many = cable(0, 0xF0, 0, &[1; 6]);
    too_many.count = 7;
    not_sound.push(too_many);
    let mut left_over = cable(0, 0xF0, 0, &[1; 4]);
    left_over.held[5] = 1;
    not_sound.push(left_over);
    for state in not_sound {
        assert!(!state.sound(), "{state:02X?}");
        for call in [import, run_import] {
            assert_eq!(call(state, 0, &[], &mut []), not_imported(8, state));
            assert_eq!(call(state, 16, &[0xF8], &mut []), not_imported(24, state));
            assert_eq!(call(state, 15, &[0xF8], &mut []), not_imported(8, state));
        }
    }
}

#[test]
fn nine_comes_last_and_changes_nothing() {
    let held = cable(0, 0x90, 0, &[60]);
    assert_eq!(import(held, 0, &[64], &mut []), not_imported(9, held));
    assert_eq!(
        import(cable_idle(), 0, &[0xF8], &mut []),
        not_imported(9, cable_idle())
    );
    assert_eq!(import(cable_idle(), 0, &[], &mut []).answer, 3);
    let six = cable(0, 0xF0, 0, &[1; 6]);
    for byte in [7, 0xF7, 0x90] {
        let mut out = [UNTOUCHED];
        assert_eq!(import(six, 0, &[byte], &mut out), not_imported(9, six));
        assert_eq!(out, [UNTOUCHED]);
    }
    for byte in [0x90, 0xF0, 5, 0xF4, 0xF9] {
        assert!(import(cable_idle(), 0, &[byte], &mut []).answer != 9);
    }
}

/// Bytes of every sort, more of them those that status bytes and data make messages of.
fn thrown_bytes(seed: &mut u32, count: usize) -> Vec<u8> {
    let mut next = || {
        *seed = seed.wrapping_mul(1_664_525).wrapping_add(1_013_904_223);
        (*seed >> 16) as u8
    };
    (0..count)
        .map(|_| match next() % 8 {
            0 => 0xF0 | next() & 15,
            1 => 0x80 | next() & 0x7F,
            _ => next() & 0x7F,
        })
        .collect()
}

#[test]
fn a_run_is_its_calls_one_after_another() {
    let mut seed = 1;
    for count in 0..2_000 {
        let bytes = thrown_bytes(&mut seed, count % 97);
        let (_, words, after) = heard_from(cable_idle(), 3, &bytes);
        let mut out = vec![UNTOUCHED; words.len() + 1];
        let done = run_import(cable_idle(), 3, &bytes, &mut out);
        assert_eq!(
            (done.answer, done.read, done.after),
            (0, bytes.len(), after)
        );
        assert_eq!(out[..done.written], words);
        assert_eq!(out[done.written..], [UNTOUCHED]);
        // Stopped for want of room, it goes on where it stopped.
        let room = words.len() / 2;
        let first = run_import(cable_idle(), 3, &bytes, &mut out[..room]);
        assert_eq!(first.answer, if room < words.len() { 9 } else { 0 });
        let rest = &bytes[first.read..];
        let second = run_import(first.after, 3, rest, &mut out[first.written..]);
        assert_eq!(out[..first.written + second.written], words);
        assert_eq!((second.answer, second.after), (0, after));
    }
}

/// Single calls one after another, until one has no room or no byte is left.
fn calls(mut cable: Cable, bytes: &[u8], out: &mut [u32]) -> Imported {
    let (mut read, mut written) = (0, 0);
    loop {
        let one = import(cable, 3, &bytes[read..], &mut out[written..]);
        read += one.read;
        written += one.written;
        cable = one.after;
        if let CUT | OUTPUT_SHORT = one.answer {
            return Imported {
                answer: if one.answer == CUT {
                    SENT
                } else {
                    OUTPUT_SHORT
                },
                read,
                written,
                after: cable,
            };
        }
    }
}

/// Fails unless a run does what its calls do, with room for none to all of its words.
fn hold_run(cable: Cable, bytes: &[u8]) {
    let most = calls(cable, bytes, &mut vec![0; 2 * bytes.len() + 2]).written;
    for room in 0..=most {
        let mut outs = [(); 2].map(|_| vec![UNTOUCHED; room]);
        let expected = calls(cable, bytes, &mut outs[0]);
        let done = run_import(cable, 3, bytes, &mut outs[1]);
        assert_eq!(done, expected, "{bytes:02X?} on {cable:02X?}");
        assert_eq!(outs[0], outs[1], "{bytes:02X?} on {cable:02X?}");
    }
}

#[test]
fn a_run_over_thrown_bytes_stops_where_its_calls_do() {
    let mut seed = 3;
    for count in 0..1_000 {
        hold_run(cable_idle(), &thrown_bytes(&mut seed, count % 40));
    }
}

#[test]
fn a_run_over_any_three_bytes_is_its_calls_on_any_cable() {
    const BYTES: [u8; 19] = [
        0, 127, 0x80, 0x9F, 0xB3, 0xC0, 0xDF, 0xE1, 0xEF, 0xF0, 0xF1, 0xF2, 0xF3, 0xF4, 0xF6, 0xF7,
        0xF8, 0xF9, 0xFF,
    ];
    let mut cables = vec![cable_idle()];
    for running in [0x92, 0xC2] {
        cables.push(cable(running, 0, 0, &[]));
        cables.push(cable(running, running, 0, &[]));
    }
    cables.push(cable(0x92, 0x92, 0, &[1]));
    for status in [0x8F, 0xD0, 0xF1, 0xF2, 0xF3] {
        cables.push(cable(0, status, 0, &[]));
    }
    cables.push(cable(0, 0xF2, 0, &[127]));
    cables.extend((0..=6).map(|count| cable(0, 0xF0, 0, &[1, 2, 3, 4, 5, 127][..count])));
    cables.extend((1..=6).map(|count| cable(0, 0xF0, 1, &[1, 2, 3, 4, 5, 127][..count])));
    for cable in cables {
        for (a, b) in BYTES.iter().flat_map(|a| BYTES.map(|b| (*a, b))) {
            BYTES.map(|c| hold_run(cable, &[a, b, c]));
        }
    }
}

#[test]
fn real_time_bytes_leave_all_other_packets_as_they_were() {
    let mut seed = 2;
    for _ in 0..2_000 {
        let bytes = thrown_bytes(&mut seed, 60);
        let is_real_time =
            |byte: &u8| matches!(*byte, 0xF8..=0xFF) && !matches!(*byte, 0xF9 | 0xFD);
        let others: Vec<u8> = bytes
            .iter()
            .copied()
            .filter(|byte| !is_real_time(byte))
            .collect();
        let (_, words, after) = heard(&bytes);
        let (_, other_words, other_after) = heard(&others);
        let mut kept = vec![];
        let mut place = 0;
        while place < words.len() {
            let packet = &words[place..place + size(words[place])];
            if packet[0] < 0x10F8_0000 || packet[0] > 0x10FF_FFFF {
                kept.extend(packet);
            }
            place += packet.len();
        }
        assert_eq!((kept, after), (other_words, other_after));
    }
}

#[test]
fn running_status_means_what_full_status_bytes_mean() {
    let mut seed = 3;
    for _ in 0..2_000 {
        let bytes = thrown_bytes(&mut seed, 60);
        let (mut cable, mut written_out) = (cable_idle(), vec![]);
        for place in 0..bytes.len() {
            if bytes[place] < 0x80 && cable.status == 0 && cable.running != 0 {
                written_out.push(cable.running);
            }
            written_out.push(bytes[place]);
            cable = heard_from(cable, 0, &bytes[place..=place]).2;
        }
        assert_eq!(heard(&written_out).1, heard(&bytes).1);
    }
}

#[test]
fn packets_become_bytes_with_full_status() {
    assert_eq!(exported(0, &[0x2090_3C40]), (0, 0, vec![0x90, 60, 64]));
    assert_eq!(exported(7, &[0x27C5_0AFF]), (0, 0, vec![0xC5, 10]));
    assert_eq!(exported(7, &[0x27D5_0AFF]), (0, 0, vec![0xD5, 10]));
    assert_eq!(exported(15, &[0x1FF1_05FF]), (0, 0, vec![0xF1, 5]));
    assert_eq!(exported(15, &[0x1FF2_0506]), (0, 0, vec![0xF2, 5, 6]));
    assert_eq!(exported(15, &[0x1FF3_05FF]), (0, 0, vec![0xF3, 5]));
    for status in [0xF6, 0xF8, 0xFA, 0xFB, 0xFC, 0xFE, 0xFF] {
        let word = 0x1000_FFFF | u32::from(status) << 16;
        assert_eq!(exported(0, &[word]), (0, 0, vec![status]));
    }
    let bytes = exported_bytes(&[0x2090_3C40, 0x2090_3D40]);
    assert_eq!(bytes, [0x90, 60, 64, 0x90, 61, 64]);
}

#[test]
fn exclusive_packets_become_their_part_of_the_message() {
    for count in 0..=6 {
        let payload = &[1, 2, 3, 4, 5, 6][..count];
        let packet = |status: u32| {
            let words = [
                0x3200_0102 | status << 20 | (count as u32) << 16,
                0x0304_0506,
            ];
            let (answer, place, bytes) = exported(2, &words);
            assert_eq!((answer, place), (u32::from(bytes.is_empty()), 0));
            bytes
        };
        assert_eq!(packet(0), [&[0xF0], payload, &[0xF7]].concat());
        assert_eq!(packet(1), [&[0xF0], payload].concat());
        assert_eq!(packet(2), payload);
        assert_eq!(packet(3), [payload, &[0xF7]].concat());
    }
}

fn nothing(answer: u32, place: u32) -> (u32, u32, Vec<u8>) {
    (answer, place, vec![])
}

#[test]
fn export_refuses_a_group_first_and_then_what_is_cut_reserved_or_not_for_the_cable() {
    for words in [&[][..], &[0x6000_0000], &[0x3000_0000], &[0x2090_3C40]] {
        for group in [16, 17, 255] {
            assert_eq!(exported(group, words), nothing(24, 0));
            assert_eq!(run_export(group, words, &mut []), stopped(24));
        }
    }
    for words in [
        &[][..],
        &[0x3000_0000],
        &[0xB000_0000, 0],
        &[0x5000_0000, 0, 0],
    ] {
        assert_eq!(exported(0, words), nothing(3, 0));
    }
    for message_type in [0x6, 0x7, 0x8, 0x9, 0xA, 0xB, 0xC, 0xE] {
        for group in [0, 1] {
            let words = [message_type << 28, 0, 0, 0];
            assert_eq!(exported(group, &words), nothing(4, 0));
        }
    }
    for message_type in [0x0, 0x4, 0x5, 0xD, 0xF] {
        assert_eq!(exported(0, &[message_type << 28, 0, 0, 0]), nothing(25, 0));
    }
}

#[test]
fn export_checks_the_packets_of_its_group_alone() {
    // Bad status and bad data in another group are of no interest.
    for words in [
        [0x1000_0000, 0],
        [0x2070_8080, 0],
        [0x2090_8000, 0],
        [0x3047_0000, 0],
    ] {
        assert_eq!(exported(1, &words), nothing(25, 0));
    }
    for words in [
        [0x10F0_0000, 0],
        [0x10F4_8080, 0],
        [0x20F0_8080, 0],
        [0x3047_0000, 0],
    ] {
        assert_eq!(exported(0, &words), nothing(6, 0));
    }
    for (words, place) in [
        ([0x10F1_8000, 0], 1),
        ([0x10F2_0080, 0], 2),
        ([0x2090_8080, 0], 1),
        ([0x2090_3C80, 0], 2),
        ([0x20C0_8000, 0], 1),
        ([0x3007_0000, 0], 1),
        ([0x3001_8000, 0], 2),
        ([0x3026_0000, 0x80], 7),
    ] {
        assert_eq!(exported(0, &words), nothing(7, place));
    }
}

#[test]
fn export_asks_last_for_the_room_that_a_packet_needs() {
    for (word, needed) in [
        (0x2090_3C40, 3),
        (0x20C0_3C40, 2),
        (0x10F6_0000, 1),
        (0x3006_0000, 8),
    ] {
        for room in 0..needed {
            let done = export(0, &[word, 0], &mut [0; 8][..room]);
            assert_eq!(done, stopped(9));
        }
    }
    assert_eq!(export(0, &[0x3020_FFFF, 0], &mut []), refused(1, 2));
}

#[test]
fn a_run_of_exports_goes_on_after_what_is_not_for_the_cable() {
    let words = [
        0x6000_0000,
        0x2090_3C40,
        0x2190_3C40,
        0x0000_0000,
        0x20F0_0000,
        0x2090_3C80,
        0x3020_0000,
        0,
        0x10F8_0000,
        0x4090_3C00,
        0,
    ];
    let mut out = [0; 4];
    assert_eq!(
        run_export(0, &words, &mut out),
        Done {
            written: 4,
            ..refused(0, 11)
        }
    );
    assert_eq!(out, [0x90, 60, 64, 0xF8]);
    let done = run_export(0, &words, &mut out[..3]);
    assert_eq!((done.answer, done.read, done.written), (9, 8, 3));
    let done = run_export(0, &words[..10], &mut out);
    assert_eq!((done.answer, done.read, done.written), (3, 9, 4));
    assert_eq!(run_export(15, &[], &mut []), stopped(0));
}

#[test]
fn voices_come_back_from_the_cable() {
    for status in 0x80..0xF0 {
        for data in [0x0000, 0x007F, 0x7F00, 0x7F7F, 0x3C40] {
            let word = 0x2000_0000 | status << 16 | data;
            let unused = if let 0xC0..=0xDF = status { 0xFF } else { 0 };
            let bytes = exported_bytes(&[word | unused, 0x2081_0102]);
            assert_eq!(heard(&bytes).1, [word & !unused, 0x2081_0102]);
        }
    }
}

#[test]
fn an_exclusive_comes_back_whatever_the_sizes_of_its_packets() {
    let payload: Vec<u8> = (1..=12).collect();
    for cut in 0..49 {
        let (first, second) = (cut % 7, cut / 7);
        let third = (12 - first - second).min(6);
        let mut words = vec![];
        let mut place = 0;
        for (status, count) in [
            (1, first),
            (2, second),
            (2, third),
            (3, 12 - first - second - third),
        ] {
            let mut held = [0xFF; 6];
            held[..count].copy_from_slice(&payload[place..place + count]);
            let [a, b, c, d, e, f] = held;
            let head = [0x30, status << 4 | count as u8, a, b];
            words.extend([head, [c, d, e, f]].map(u32::from_be_bytes));
            place += count;
        }
        let bytes = exported_bytes(&words);
        assert_eq!(bytes, [&[0xF0], &payload[..], &[0xF7]].concat());
        assert_eq!(exported_bytes(&heard(&bytes).1), bytes);
    }
}

#[test]
fn the_programs_take_one_group_or_none() {
    let bytes = [0x90, 60, 64, 0xF0, 1];
    assert_eq!(import_filter(&bytes, &[]), Some(vec![0x20, 0x90, 60, 64]));
    assert_eq!(import_filter(&bytes, &["015"]), None);
    assert_eq!(
        import_filter(&bytes, &["05"]),
        Some(vec![0x25, 0x90, 60, 64])
    );
    let words = [0x2F, 0x90, 60, 64, 0x20, 0xC0, 1, 0, 0x2F];
    assert_eq!(export_filter(&words, &["15"]), Some(vec![0x90, 60, 64]));
    assert_eq!(export_filter(&words, &[]), Some(vec![0xC0, 1]));
    for arguments in [&["16"][..], &[""], &["a"], &["-1"], &["0", "0"], &["0:0"]] {
        assert_eq!(import_filter(&bytes, arguments), None);
        assert_eq!(export_filter(&words, arguments), None);
    }
}

#[test]
fn a_cable_through_the_translator_comes_out_with_full_status() {
    let bytes = [
        0xB0, 101, 0, 100, 0, 6, 2, 38, 0, 0x90, 60, 64, 0xF8, 62, 0, 0xF0, 1, 2, 0xF7, 0xC0, 5,
    ];
    let (_, words, _) = heard(&bytes);
    let (mut up, mut down) = (vec![0; 2 * words.len()], vec![0; 4 * words.len()]);
    let done = crate::run_up(&words, &mut [crate::empty(); 256], &mut up);
    let done = crate::run_down(&up[..done.written], &mut down);
    // The silent Note On has become a Note Off.
    let normal = [
        0xB0, 101, 0, 0xB0, 100, 0, 0xB0, 6, 2, 0xB0, 38, 0, 0x90, 60, 64, 0xF8, 0x80, 62, 0, 0xF0,
        1, 2, 0xF7, 0xC0, 5,
    ];
    assert_eq!(exported_bytes(&down[..done.written]), normal);
}
