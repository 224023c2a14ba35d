//! Tests of the beginners' room.

use super::*;

const ROOM_CONTROLLERS: [u32; 6] = [1, 7, 64, 120, 121, 123];

fn beginners_with(table: &mut [Record], words: &[u32]) -> (u32, usize, Vec<u32>) {
    called(|out| beginners_up(words, table, out))
}

/// One call in the beginners' room with a fresh table, which no refusal may change.
fn beginners_fresh(words: &[u32]) -> (u32, usize, Vec<u32>) {
    let mut table = fresh();
    let result = beginners_with(&mut table, words);
    assert!(result.0 <= TAKEN_IN || table == fresh());
    result
}

/// What passes in the room, by 02's list.
fn passes(word: u32) -> bool {
    let (message_type, status) = (word >> 28, word >> 20 & 15);
    message_type == 0
        || message_type == 2 && [0x8, 0x9, 0xE].contains(&status)
        || message_type == 2 && status == 0xB && ROOM_CONTROLLERS.contains(&(word >> 8 & 0xFF))
}

#[test]
fn utility_notes_bend_and_six_controllers_pass_and_no_other_voice() {
    for status in 0x8..0xF {
        for first in 0..128 {
            for second in [0, 1, 64, 127] {
                let word = voice(status, first, second);
                let expected = match status {
                    0x8 | 0x9 | 0xE => up_fresh(&[word]),
                    0xB if ROOM_CONTROLLERS.contains(&first) => up_fresh(&[word]),
                    _ => nothing(23, 1),
                };
                assert_eq!(beginners_fresh(&[word]), expected, "{word:08X}");
            }
        }
    }
    for status in 0..5 {
        let word = status << 20 | 0x0F0F_FFFF;
        assert_eq!(beginners_fresh(&[word]), sent(1, &[word]));
    }
}

#[test]
fn good_packets_of_the_other_types_are_refused_with_their_size() {
    for status in [0xF1, 0xF2, 0xF3, 0xF6, 0xF8, 0xFA, 0xFB, 0xFC, 0xFE, 0xFF] {
        assert_eq!(
            beginners_fresh(&[0x1A00_0000 | status << 16]),
            nothing(23, 1)
        );
    }
    for status in 0..4 {
        for count in 0..7 {
            let packet = [0x3A00_7F7F | status << 20 | count << 16, 0x7F7F_7F7F];
            assert_eq!(beginners_fresh(&packet), nothing(23, 2));
        }
    }
    for message_type in [0x5, 0xD, 0xF] {
        let packet = [message_type << 28 | 0x0FFF_FFFF, u32::MAX, 7, 0x8080_8080];
        assert_eq!(beginners_fresh(&packet), nothing(23, 4));
    }
}

#[test]
fn in_the_room_23_comes_after_7_and_before_8_and_9() {
    let unsound = [record(3, [200; 5]); 256];
    let one = |words: &[u32]| {
        let mut table = unsound;
        let done = beginners_up(words, &mut table, &mut []);
        assert!(table == unsound);
        done
    };
    for length in [0, 1, 255, 257, 512] {
        let mut table = vec![empty(); length];
        for words in [&[][..], &[0x20A0_0000], &[0x2090_3C40], &[0x5000_0000]] {
            for call in [beginners_up, beginners_run_up] {
                assert_eq!(call(words, &mut table, &mut []), stopped(NOT_256_RECORDS));
            }
        }
        assert_eq!(table, vec![empty(); length]);
    }
    assert_eq!(one(&[]), stopped(CUT));
    assert_eq!(one(&[0x5000_0000, 0, 0]), stopped(CUT));
    assert_eq!(one(&[0x3000_0000]), stopped(CUT));
    assert_eq!(one(&[0x6000_0000]), refused(RESERVED_TYPE, 1));
    assert_eq!(one(&[0xB000_0000, 0, 0]), refused(RESERVED_TYPE, 3));
    assert_eq!(one(&[0x4070_8000, 0]), refused(WRONG_PROTOCOL, 2));
    assert_eq!(one(&[0x4090_3C00, 0]), refused(WRONG_PROTOCOL, 2));
    for word in [
        0x0050_0000,
        0x1000_0000,
        0x10F4_0000,
        0x2070_8080,
        0x20F0_0000,
    ] {
        assert_eq!(one(&[word]), refused(BAD_STATUS, 1));
    }
    assert_eq!(one(&[0x3040_0000, 0]), refused(BAD_STATUS, 2));
    // Bad data of what may pass and of what may not.
    for (word, place) in [
        (0x2090_3C80, 2),
        (0x2090_8000, 1),
        (0x20B0_0780, 2),
        (0x20B0_8700, 1),
        (0x20B0_0080, 2),
        (0x20A0_0080, 2),
        (0x20C0_8000, 1),
        (0x20D0_8000, 1),
        (0x10F1_8000, 1),
        (0x10F2_0080, 2),
    ] {
        assert_eq!(one(&[word]), bad(place, 1), "{word:08X}");
    }
    assert_eq!(one(&[0x3007_0000, 0]), bad(1, 2));
    assert_eq!(one(&[0x3006_0000, 0x0000_0080]), bad(7, 2));
    // Good, but not for this room; the record is not asked for, and no room is needed.
    for word in [
        0x20A0_0000,
        0x20B0_0600,
        0x20B0_4100,
        0x20C0_0000,
        0x20D0_0000,
        0x10F8_0000,
    ] {
        assert_eq!(one(&[word]), refused(NOT_FOR_THIS_ROOM, 1));
    }
    assert_eq!(one(&[0xF000_0000, 0, 0, 0]), refused(NOT_FOR_THIS_ROOM, 4));
    // What may pass needs a sound record, and then room.
    for word in [
        0x2080_3C00,
        0x2090_3C40,
        0x20E0_0000,
        0x20B0_0100,
        0x20B0_7900,
    ] {
        assert_eq!(one(&[word]), stopped(NOT_SOUND));
        for room in 0..2 {
            let done = beginners_up(&[word], &mut fresh(), &mut [0; 2][..room]);
            assert_eq!(done, stopped(OUTPUT_SHORT));
        }
    }
    assert_eq!(one(&[0]), stopped(OUTPUT_SHORT));
}

/// A packet that is not for the room is refused exactly where the plain call over an empty record
/// and with room would send it or take it in; every other packet goes as it goes elsewhere.
#[test]
fn in_the_room_a_packet_goes_as_before_or_is_refused_because_it_is_good() {
    let mut thrown = Thrown(4);
    let mut answers = [0; 24];
    for _ in 0..200_000 {
        let mut words = [0; 4].map(|_: u32| thrown.number(0x10000) << 16 | thrown.number(0x10000));
        if thrown.number(2) == 0 {
            words[0] = words[0] & 0x0F0F_7F7F | 0x2000_0000 | thrown.of(&[8, 9, 0xB, 0xE]) << 20;
        }
        let (kind, numbers) = match thrown.number(2) {
            0 => NOT_SOUND_RECORDS[thrown.number(16) as usize],
            _ => SOUND_RECORDS[thrown.number(9) as usize],
        };
        let mut table = [record(kind, numbers); 256];
        let (before, mut elsewhere) = (table, table);
        let words = &words[..thrown.number(5) as usize];
        let (mut out, mut other_out) = ([UNTOUCHED; 6], [UNTOUCHED; 6]);
        let room = thrown.number(7) as usize;
        let done = beginners_up(words, &mut table, &mut out[..room]);
        let other = up(words, &mut elsewhere, &mut other_out[..room]);
        let good = up(words, &mut fresh(), &mut [0; 4]).answer <= TAKEN_IN;
        if good && !passes(words[0]) {
            assert_eq!(done, refused(NOT_FOR_THIS_ROOM, size(words[0])));
            assert!(table == before && out == [UNTOUCHED; 6]);
        } else {
            assert_eq!(done, other);
            assert!(table == elsewhere && out == other_out);
        }
        answers[done.answer as usize] += 1;
    }
    for answer in [0, 3, 4, 5, 6, 7, 8, 9, 23] {
        assert!(answers[answer] > 1_000, "{answer}: {}", answers[answer]);
    }
    // Nothing that only changes a record may pass.
    assert_eq!(answers[TAKEN_IN as usize], 0);
}

#[test]
fn a_run_in_the_room_goes_on_after_23() {
    let stream = [
        0x20B00001, 0x20903C40, 0x10F80000, 0x20C00500, 0x31020102, 5, 0xD0000000, 1, 2, 3,
        0x20A03C40, 0x20E00040,
    ];
    let mut table = fresh();
    let result = called(|out| beginners_run_up(&stream, &mut table, out));
    let words = [0x40903C00, 0x80000000, 0x40E00000, 0x80000000];
    assert_eq!(result, sent(12, &words));
    let mut expected = fresh();
    expected[0] = keyed(&[60]);
    assert!(table == expected);
    // Over an unsound record it stops at the note and not at what is refused before.
    table[0].kind = 9;
    let result = called(|out| beginners_run_up(&stream, &mut table, out));
    assert_eq!(result, nothing(NOT_SOUND, 1));
    let result = called(|out| beginners_run_up(&stream[2..8], &mut table, out));
    assert_eq!(result, nothing(CUT, 4));
    let done = beginners_run_up(&stream, &mut fresh(), &mut [0; 3]);
    assert_eq!(
        (done.answer, done.read, done.written),
        (OUTPUT_SHORT, 11, 2)
    );
    let done = beginners_run_up(&[], &mut fresh(), &mut []);
    assert_eq!(done, refused(SENT, 0));
}

/// The words that go up in the room from this table; it has its last state then.
fn went_up_in_the_room(words: &[u32], table: &mut [Record; 256]) -> Vec<u32> {
    let mut out = vec![0; 2 * words.len()];
    let done = beginners_run_up(words, table, &mut out);
    assert!(done.answer == SENT || done.answer == CUT);
    out.truncate(done.written);
    out
}

#[test]
fn a_run_in_the_room_is_its_calls_one_after_another() {
    let mut thrown = Thrown(5);
    for _ in 0..1_000 {
        let (start, stream) = (thrown.marked_table(), thrown.stream());
        let (mut table, mut place, mut words) = (start, 0, vec![]);
        loop {
            let (answer, read, sent) = beginners_with(&mut table, &stream[place..]);
            words.extend(sent);
            place += read;
            if answer == CUT {
                break;
            }
        }
        let mut other = start;
        assert_eq!(went_up_in_the_room(&stream, &mut other), words);
        assert!(table == other);
    }
}

#[test]
fn from_a_table_with_nothing_but_marks_bank_and_address_stay_empty_in_the_room() {
    let mut thrown = Thrown(6);
    let mut keys = 0;
    for _ in 0..1_000 {
        let start = thrown.marked_table();
        let mut table = start;
        went_up_in_the_room(&thrown.stream(), &mut table);
        for (after, before) in table.iter().zip(&start) {
            keys += usize::from(after.keys != [0; 2]);
            assert_eq!(
                Record {
                    keys: [0; 2],
                    ..*after
                },
                *before
            );
        }
    }
    assert!(keys > 100);
}

#[test]
fn what_went_up_in_the_room_and_down_goes_up_again_in_the_room_as_it_did() {
    let mut thrown = Thrown(7);
    let mut refused = 0;
    for _ in 0..3_000 {
        let (start, stream) = (thrown.marked_table(), thrown.stream());
        let sent_up = went_up_in_the_room(&stream, &mut start.clone());
        let normal = went_down(&sent_up);
        let again = went_up_in_the_room(&normal, &mut start.clone());
        assert_eq!(again, sent_up);
        assert_eq!(went_down(&again), normal);
        refused += usize::from(went_up(&stream, &mut start.clone()) != sent_up);
    }
    assert!(refused > 1_000);
}
