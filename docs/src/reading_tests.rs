use super::*;

#[path = "beginners_tests.rs"]
mod beginners;
#[path = "hosts_tests.rs"]
mod hosts;

const UNTOUCHED: u32 = 0xAAAA_AAAA;

fn fresh() -> [Record; 256] {
    [empty(); 256]
}

/// One call with room for six words: the answer, the words read and the words sent.
fn called(call: impl FnOnce(&mut [u32]) -> Done) -> (u32, usize, Vec<u32>) {
    let mut out = [UNTOUCHED; 6];
    let done = call(&mut out);
    assert!(out[done.written..].iter().all(|word| *word == UNTOUCHED));
    assert_eq!(done.place > 0, done.answer == BAD_DATA);
    (done.answer, done.read, out[..done.written].to_vec())
}

fn up_with(table: &mut [Record], words: &[u32]) -> (u32, usize, Vec<u32>) {
    called(|out| up(words, table, out))
}

/// One call up with a fresh table, which no refusal may change.
fn up_fresh(words: &[u32]) -> (u32, usize, Vec<u32>) {
    let mut table = fresh();
    let result = up_with(&mut table, words);
    assert!(result.0 <= TAKEN_IN || table == fresh());
    result
}

fn down_one(words: &[u32]) -> (u32, usize, Vec<u32>) {
    called(|out| down(words, out))
}

fn sent(read: usize, words: &[u32]) -> (u32, usize, Vec<u32>) {
    (SENT, read, words.to_vec())
}

fn nothing(answer: u32, read: usize) -> (u32, usize, Vec<u32>) {
    (answer, read, vec![])
}

/// The answers of single calls up over one table, with all the words they sent.
fn up_all(table: &mut [Record], words: &[u32]) -> (Vec<u32>, Vec<u32>) {
    let calls = words.iter().map(|word| up_with(table, &[*word]));
    let (answers, words): (Vec<_>, Vec<_>) = calls.map(|call| (call.0, call.2)).unzip();
    (answers, words.concat())
}

fn record(kind: u16, numbers: [u8; 5]) -> Record {
    let [bank_high, bank_low, address_bank, address_index, data_high] = numbers;
    Record {
        kind,
        bank_high,
        bank_low,
        address_bank,
        address_index,
        data_high,
        ..empty()
    }
}

const M: u8 = MISSING;

#[test]
fn examples_of_scaling() {
    let to_16 = [
        (63, 0x7E00),
        (64, 0x8000),
        (65, 0x8208),
        (100, 0xC924),
        (127, 0xFFFF),
    ];
    for (value, scaled) in to_16 {
        assert_eq!(scale_up(value, 7, 16), scaled);
    }
    for (value, scaled) in [(1, 0x0200), (10, 0x1400), (64, 0x8000), (87, 0xAEBA)] {
        assert_eq!(scale_up(value, 7, 16), scaled);
    }
    for (value, scaled) in [(65, 0x8208_2082), (127, 0xFFFF_FFFF)] {
        assert_eq!(scale_up(value, 7, 32), scaled);
        assert_eq!(SCALED_7_TO_32[value as usize], scaled);
    }
    for (value, scaled) in [(1, 0x0004_0000), (8192, 0x8000_0000), (8193, 0x8004_0020)] {
        assert_eq!(scale_up(value, 14, 32), scaled);
    }
}

/// The code of 004 D.1.3, line by line.
fn scale_up_of_004(value: u32, source_bits: u32, target_bits: u32) -> u32 {
    let scale_bits = target_bits - source_bits;
    let mut shifted = value << scale_bits;
    if value <= 1 << (source_bits - 1) {
        return shifted;
    }
    let repeat_bits = source_bits - 1;
    let mut repeat = value & ((1 << repeat_bits) - 1);
    if scale_bits > repeat_bits {
        repeat <<= scale_bits - repeat_bits;
    } else {
        repeat >>= repeat_bits - scale_bits;
    }
    while repeat != 0 {
        shifted |= repeat;
        repeat >>= repeat_bits;
    }
    shifted
}

#[test]
fn every_value_scales_as_004_writes_it() {
    for (source_bits, target_bits) in [(7, 16), (7, 32), (14, 32), (7, 8), (2, 32), (16, 32)] {
        for value in 0..1 << source_bits {
            let scaled = scale_up(value, source_bits, target_bits);
            assert_eq!(scaled, scale_up_of_004(value, source_bits, target_bits));
            assert_eq!(scaled >> (target_bits - source_bits), value);
        }
    }
    for value in 0..128 {
        assert_eq!(SCALED_7_TO_16[value as usize], scale_up(value, 7, 16));
        assert_eq!(SCALED_7_TO_32[value as usize], scale_up(value, 7, 32));
    }
}

#[test]
fn examples_of_notes_up() {
    assert_eq!(up_fresh(&[0x20903C41]), sent(1, &[0x40903C00, 0x82080000]));
    assert_eq!(up_fresh(&[0x20903C00]), sent(1, &[0x40803C00, 0]));
}

#[test]
fn example_of_a_bank_up() {
    let mut table = fresh();
    let (answers, words) = up_all(
        &mut table,
        &[0x20B00001, 0x20B02002, 0x20C00500, 0x20C00500],
    );
    assert_eq!(answers, [1, 1, 0, 0]);
    assert_eq!(words, [0x40C00001, 0x05000102, 0x40C00000, 0x05000000]);
    assert_eq!(table, fresh());
}

#[test]
fn example_of_a_registered_controller_up() {
    let mut table = fresh();
    let stream = [0x20B06500, 0x20B06400, 0x20B00602, 0x20B02600, 0x20B02601];
    let (answers, words) = up_all(&mut table, &stream);
    assert_eq!(answers, [1, 1, 1, 0, 0]);
    assert_eq!(words, [0x40200000, 0x04000000, 0x40200000, 0x04040000]);
    assert_eq!(table[0], record(REGISTERED, [M, M, 0, 0, 2]));
}

#[test]
fn examples_down_and_of_refusals() {
    assert_eq!(down_one(&[0x40903C00, 0x01FF0000]), sent(2, &[0x20903C01]));
    assert_eq!(up_fresh(&[0x20903C80]), nothing(7, 1));
    assert_eq!(up_fresh(&[0x20700000]), nothing(6, 1));
    assert_eq!(up_fresh(&[0xB0000000, 0]), nothing(3, 0));
    assert_eq!(up_fresh(&[0xB0000000, 0, 0]), nothing(4, 3));
}

fn bytes_of(words: &[u32]) -> Vec<u8> {
    words.iter().flat_map(|word| word.to_be_bytes()).collect()
}

#[test]
fn listings() {
    let mut bytes = bytes_of(&[0x20903C40, 0x20B00001, 0x60000000]);
    let whole = "0 1 40903C00 80000000\n1 1\n4 1\n";
    let text = |bytes: &[u8]| String::from_utf8(listing(bytes, fresh())).unwrap();
    assert_eq!(text(&[]), "");
    assert_eq!(text(&bytes), whole);
    for left_over in 1..4 {
        bytes.push(left_over);
        assert_eq!(text(&bytes), format!("{}3 0\n", whole));
    }
    assert_eq!(text(&bytes_of(&[0x50000000, 1, 2])), "3 0\n");
    assert_eq!(text(&[0x50, 0, 0, 0, 1, 2, 3, 4, 5]), "3 0\n");
    assert_eq!(
        text(&bytes_of(&[0xF123ABCD, 1, 2, 3])),
        "0 4 F123ABCD 00000001 00000002 00000003\n"
    );
}

#[test]
fn listings_tell_the_place_of_bad_data_alone() {
    let stream = [
        0x20903C80, 0x20908080, 0x10F20080, 0x30070000, 0, 0x30061122, 0x33445580, 0x20700080,
        0x40908000, 0, 0x60000080,
    ];
    let text = listing(&bytes_of(&stream), fresh());
    let lines = "7 1 2\n7 1 1\n7 1 2\n7 2 1\n7 2 7\n6 1\n5 2\n4 1\n";
    assert_eq!(String::from_utf8(text).unwrap(), lines);
}

#[test]
fn filters_send_nothing_for_a_cut_end() {
    let mut up_bytes = bytes_of(&[0x20903C41, 0x20700000, 0x31020102, 5]);
    let up_sent = bytes_of(&[0x40903C00, 0x82080000, 0x31020102, 5]);
    let mut down_bytes = bytes_of(&[0x40903C00, 0x01FF0000, 0x40600000, 0]);
    let down_sent = bytes_of(&[0x20903C01]);
    assert_eq!(up_filter(&[], fresh()), []);
    for end in [&[][..], &[0xF0, 0, 0], &[0xF0, 0, 0, 0, 1, 2]] {
        up_bytes.extend(end);
        down_bytes.extend(end);
        assert_eq!(up_filter(&up_bytes, fresh()), up_sent);
        assert_eq!(down_filter(&down_bytes), down_sent);
        up_bytes.truncate(16);
        down_bytes.truncate(16);
    }
}

/// What both directions answer for a packet that is not channel voice.
fn either_way(words: &[u32]) -> (u32, usize, Vec<u32>) {
    let answer = up_fresh(words);
    assert_eq!(down_one(words), answer);
    answer
}

#[test]
fn sizes_and_cut_packets_of_every_type() {
    let sizes = [1, 1, 1, 2, 2, 4, 1, 1, 2, 2, 2, 3, 3, 4, 4, 4];
    for (message_type, whole) in (0..16).zip(sizes) {
        let packet = [message_type << 28 | 0x0080_0000, 0, 0, 0, 0];
        assert_eq!(size(packet[0]), whole);
        for left in 0..whole {
            assert_eq!(either_way(&packet[..left]), nothing(CUT, 0));
        }
        assert_ne!(up_fresh(&packet[..whole]).0, CUT);
        assert_eq!(up_fresh(&packet[..whole]).1, whole);
        assert_ne!(down_one(&packet[..whole]).0, CUT);
        assert_eq!(down_one(&packet).1, whole);
    }
}

#[test]
fn reserved_and_unread_types() {
    for message_type in [0x6, 0x7, 0x8, 0x9, 0xA, 0xB, 0xC, 0xE] {
        let packet = [
            message_type << 28 | 0x0FFF_FFFF,
            u32::MAX,
            u32::MAX,
            u32::MAX,
        ];
        assert_eq!(either_way(&packet), nothing(RESERVED_TYPE, size(packet[0])));
    }
    for message_type in [0x5, 0xD, 0xF] {
        let packet = [message_type << 28 | 0x0FFF_FFFF, u32::MAX, 7, 0x8080_8080];
        assert_eq!(either_way(&packet), sent(4, &packet));
    }
}

#[test]
fn utility_messages() {
    for status in 0..16 {
        let word = status << 20 | 0x0F0F_FFFF;
        let expected = if status <= 4 {
            sent(1, &[word])
        } else {
            nothing(BAD_STATUS, 1)
        };
        assert_eq!(either_way(&[word]), expected);
    }
}

#[test]
fn system_messages() {
    for status in 0..256 {
        let data_bytes = match status {
            0xF1 | 0xF3 => 1,
            0xF2 => 2,
            0xF6 | 0xF8 | 0xFA | 0xFB | 0xFC | 0xFE | 0xFF => 0,
            _ => 3,
        };
        for data in [0x0000, 0x7F7F, 0x7F80, 0x807F, 0xFFFF] {
            let word = 0x1A00_0000 | status << 16 | data;
            let expected = match data_bytes {
                3 => nothing(BAD_STATUS, 1),
                1 if data > 0x7FFF => nothing(BAD_DATA, 1),
                2 if data > 0x7FFF || data & 0xFF > 0x7F => nothing(BAD_DATA, 1),
                _ => sent(1, &[word]),
            };
            assert_eq!(either_way(&[word]), expected);
        }
    }
}

#[test]
fn exclusive_messages() {
    for status in 0..16 {
        for count in 0..16 {
            for bad_byte in 0..7 {
                let payload: u64 = 0x7F7F_7F7F_7F7F | 0x8000_0000_0000 >> (8 * bad_byte);
                let first = 0x3500_0000 | status << 20 | count << 16 | (payload >> 32) as u32;
                let packet = [first, payload as u32];
                let expected = match () {
                    _ if status > 3 => nothing(BAD_STATUS, 2),
                    _ if count > 6 => nothing(BAD_DATA, 2),
                    _ if bad_byte < count && bad_byte < 6 => nothing(BAD_DATA, 2),
                    _ => sent(2, &packet),
                };
                assert_eq!(either_way(&packet), expected, "{:08X?}", packet);
            }
        }
    }
}

#[test]
fn wrong_protocol_comes_before_status_and_data() {
    for status in 0..16 {
        let up_packet = [0x4000_FFFF | status << 20, u32::MAX];
        assert_eq!(up_fresh(&up_packet), nothing(WRONG_PROTOCOL, 2));
        assert_eq!(
            down_one(&[0x2000_FFFF | status << 20]),
            nothing(WRONG_PROTOCOL, 1)
        );
    }
}

#[test]
fn status_and_data_of_midi_1_voices() {
    for status in 0..16 {
        for (data, first_bad, second_bad) in [
            (0x0180, false, true),
            (0x8001, true, false),
            (0x8080, true, true),
        ] {
            let word = 0x2000_0000 | status << 20 | data;
            let one_byte = status == 0xC || status == 0xD;
            let expected = match status {
                0..=7 | 0xF => BAD_STATUS,
                _ if first_bad || second_bad && !one_byte => BAD_DATA,
                _ => SENT,
            };
            let (answer, read, words) = up_fresh(&[word]);
            assert_eq!(
                (answer, read, words.len()),
                (expected, 1, if one_byte && !first_bad { 2 } else { 0 })
            );
        }
    }
}

#[test]
fn voices_up() {
    let cases = [
        (0x2F8E7F00, [0x4F8E7F00, 0x00000000]),
        (0x2F8E7F7F, [0x4F8E7F00, 0xFFFF0000]),
        (0x2F9E0001, [0x4F9E0000, 0x02000000]),
        (0x23A50741, [0x43A50700, 0x82082082]),
        (0x23B50741, [0x43B50700, 0x82082082]),
        (0x23C57FFF, [0x43C50000, 0x7F000000]),
        (0x23D541FF, [0x43D50000, 0x82082082]),
        (0x23E50100, [0x43E50000, 0x00040000]),
        (0x23E50040, [0x43E50000, 0x80000000]),
        (0x23E50140, [0x43E50000, 0x80040020]),
        (0x23E57F7F, [0x43E50000, 0xFFFFFFFF]),
    ];
    for (word, words) in cases {
        assert_eq!(up_fresh(&[word, 0x60000000]), sent(1, &words));
    }
}

#[test]
fn every_control_change_up_from_a_fresh_record() {
    for index in 0..128_u32 {
        let mut table = fresh();
        let result = up_with(&mut table, &[0x25BA0041 | index << 8]);
        let changed = match index {
            0 => Some(record(NONE, [0x41, M, M, M, M])),
            32 => Some(record(NONE, [M, 0x41, M, M, M])),
            98 => Some(record(ASSIGNABLE, [M, M, M, 0x41, M])),
            99 => Some(record(ASSIGNABLE, [M, M, 0x41, M, M])),
            100 => Some(record(REGISTERED, [M, M, M, 0x41, M])),
            101 => Some(record(REGISTERED, [M, M, 0x41, M, M])),
            6 | 38 | 96 | 97 => Some(empty()),
            _ => None,
        };
        match changed {
            Some(_) => assert_eq!(result, nothing(TAKEN_IN, 1)),
            None => assert_eq!(result, sent(1, &[0x45BA0000 | index << 8, 0x82082082])),
        }
        let mut expected = fresh();
        expected[0x5A] = changed.unwrap_or(empty());
        assert_eq!(table, expected);
    }
}

#[test]
fn every_control_change_up_from_a_full_record() {
    for index in 0..128_u32 {
        let mut table = fresh();
        let full = [1, 2, 3, 4, 5];
        table[0x5A] = record(ASSIGNABLE, full);
        let result = up_with(&mut table, &[0x25BA0041 | index << 8]);
        let (changed, taken_in) = match index {
            0 => (record(ASSIGNABLE, [0x41, 2, 3, 4, 5]), true),
            32 => (record(ASSIGNABLE, [1, 0x41, 3, 4, 5]), true),
            98 => (record(ASSIGNABLE, [1, 2, 3, 0x41, M]), true),
            99 => (record(ASSIGNABLE, [1, 2, 0x41, 4, M]), true),
            100 => (record(REGISTERED, [1, 2, M, 0x41, M]), true),
            101 => (record(REGISTERED, [1, 2, 0x41, M, M]), true),
            6 => (record(ASSIGNABLE, [1, 2, 3, 4, 0x41]), true),
            96 | 97 => (record(ASSIGNABLE, full), true),
            121 => (record(NONE, [1, 2, M, M, M]), false),
            _ => (record(ASSIGNABLE, full), false),
        };
        let plain = sent(1, &[0x45BA0000 | index << 8, 0x82082082]);
        match index {
            38 => assert_eq!(
                result,
                sent(1, &[0x453A0304, scale_up(5 * 128 + 0x41, 14, 32)])
            ),
            _ if taken_in => assert_eq!(result, nothing(TAKEN_IN, 1)),
            _ => assert_eq!(result, plain),
        }
        assert_eq!(table[0x5A], changed);
    }
}

#[test]
fn data_high_needs_a_complete_address_that_is_not_null() {
    let cases = [
        (record(NONE, [M, M, M, M, M]), false),
        (record(REGISTERED, [M, M, 3, M, M]), false),
        (record(ASSIGNABLE, [M, M, M, 3, M]), false),
        (record(REGISTERED, [M, M, 127, 127, M]), false),
        (record(REGISTERED, [M, M, 127, 126, M]), true),
        (record(REGISTERED, [M, M, 126, 127, M]), true),
        (record(ASSIGNABLE, [M, M, 127, 127, M]), true),
    ];
    for (before, takes) in cases {
        let mut table = fresh();
        table[0] = before;
        assert_eq!(up_with(&mut table, &[0x20B00609]), nothing(TAKEN_IN, 1));
        let data_high = if takes { 9 } else { M };
        assert_eq!(
            table[0],
            Record {
                data_high,
                ..before
            }
        );
        let answer = if takes { SENT } else { TAKEN_IN };
        assert_eq!(up_with(&mut table, &[0x20B02601]).0, answer);
    }
}

#[test]
fn an_assignable_127_127_is_sent() {
    let stream = [0x20B0637F, 0x20B0627F, 0x20B0067F, 0x20B0267F];
    let (answers, words) = up_all(&mut fresh(), &stream);
    assert_eq!(answers, [1, 1, 1, 0]);
    assert_eq!(words, [0x40307F7F, 0xFFFFFFFF]);
}

#[test]
fn half_a_bank_is_not_sent_and_is_spent() {
    for half in [0x20B00001, 0x20B02001] {
        let mut table = fresh();
        let (answers, words) = up_all(&mut table, &[half, 0x20C00500]);
        assert_eq!(answers, [1, 0]);
        assert_eq!(words, [0x40C00000, 0x05000000]);
        assert_eq!(table, fresh());
    }
}

#[test]
fn reset_of_all_controllers_closes_the_address() {
    for kind in [REGISTERED, ASSIGNABLE] {
        for (word, second) in [(0x20B07900, 0), (0x20B0797F, 0xFFFF_FFFF)] {
            let mut table = fresh();
            table[0] = record(kind, [1, 2, 3, 4, 5]);
            assert_eq!(up_with(&mut table, &[word]), sent(1, &[0x40B07900, second]));
            assert_eq!(table[0], record(NONE, [1, 2, M, M, M]));
        }
    }
}

#[test]
fn a_reset_without_room_changes_nothing() {
    let mut table = fresh();
    table[0] = record(REGISTERED, [1, 2, 3, 4, 5]);
    assert_eq!(up(&[0x20B07900], &mut table, &mut [0]).answer, OUTPUT_SHORT);
    assert_eq!(table[0], record(REGISTERED, [1, 2, 3, 4, 5]));
}

#[test]
fn after_a_reset_the_data_slider_sends_nothing() {
    let stream = [0x20B06500, 0x20B06400, 0x20B07900, 0x20B00602, 0x20B02600];
    let (answers, words) = up_all(&mut fresh(), &stream);
    assert_eq!(answers, [1, 1, 0, 1, 1]);
    assert_eq!(words, [0x40B07900, 0]);
}

#[test]
fn group_and_channel_are_kept_apart() {
    for group in 0..16_u32 {
        for channel in 0..16_u32 {
            let mut table = fresh();
            let place = group << 24 | channel << 16;
            assert_eq!(
                up_with(&mut table, &[0x20B00001 | place]),
                nothing(TAKEN_IN, 1)
            );
            let mut expected = fresh();
            expected[(16 * group + channel) as usize].bank_high = 1;
            assert_eq!(table, expected);
            let note = up_with(&mut table, &[0x20903C40 | place]);
            assert_eq!(note, sent(1, &[0x40903C00 | place, 0x80000000]));
        }
    }
}

const NOT_SOUND_RECORDS: [(u16, [u8; 5]); 16] = [
    (NONE, [128, M, M, M, M]),
    (NONE, [M, 254, M, M, M]),
    (NONE, [M, M, 0, M, M]),
    (NONE, [M, M, M, 0, M]),
    (NONE, [M, M, M, M, 0]),
    (REGISTERED, [M, M, 128, M, M]),
    (REGISTERED, [M, M, M, 200, M]),
    (REGISTERED, [M, M, 1, 1, 128]),
    (REGISTERED, [M, M, M, 1, 1]),
    (ASSIGNABLE, [M, M, 1, M, 1]),
    (ASSIGNABLE, [M, M, M, M, 1]),
    (REGISTERED, [M, M, 127, 127, 0]),
    (3, [M, M, M, M, M]),
    (255, [M, M, M, M, M]),
    (256, [M, M, M, M, M]),
    (65535, [M, M, 1, 1, 1]),
];

const SOUND_RECORDS: [(u16, [u8; 5]); 9] = [
    (NONE, [M, M, M, M, M]),
    (NONE, [127, 0, M, M, M]),
    (REGISTERED, [M, 1, M, M, M]),
    (REGISTERED, [M, M, 127, 127, M]),
    (REGISTERED, [M, M, 127, M, M]),
    (REGISTERED, [M, M, 127, 126, 127]),
    (ASSIGNABLE, [M, M, 127, 127, 127]),
    (ASSIGNABLE, [M, M, M, 127, M]),
    (ASSIGNABLE, [0, 0, 0, 0, 0]),
];

#[test]
fn only_the_own_record_of_a_voice_must_be_sound() {
    let voices = [
        0x2181_0000,
        0x2191_0000,
        0x21A1_0000,
        0x21B1_0700,
        0x21B1_6000,
    ];
    let voices = voices
        .iter()
        .chain(&[0x21B1_0000, 0x21C1_0000, 0x21D1_0000, 0x21E1_0000]);
    for word in voices.copied() {
        for (kind, numbers) in NOT_SOUND_RECORDS {
            let mut table = fresh();
            table[0x11] = record(kind, numbers);
            let before = table;
            assert_eq!(up_with(&mut table, &[word]), nothing(NOT_SOUND, 0));
            assert_eq!(up_with(&mut table, &[0x10F80000]), sent(1, &[0x10F80000]));
            assert_eq!(up_with(&mut table, &[word | 0x8000]), nothing(BAD_DATA, 1));
            assert_eq!(up_with(&mut table, &[0x21F10000]), nothing(BAD_STATUS, 1));
            assert_eq!(up_with(&mut table, &[0x20803C40]).0, SENT);
            assert_eq!(table, before);
        }
        for (kind, numbers) in SOUND_RECORDS {
            let mut table = [record(3, [M; 5]); 256];
            table[0x11] = record(kind, numbers);
            assert!(up_with(&mut table, &[word]).0 <= TAKEN_IN);
        }
    }
}

#[test]
fn a_table_of_another_length_is_answered_before_everything() {
    for length in [0, 1, 100, 255, 257, 512] {
        let mut table = vec![record(3, [200; 5]); length];
        let before = table.clone();
        for words in [
            &[][..],
            &[0x20903C40],
            &[0xB0000000],
            &[0x20700000],
            &[0x60000000],
        ] {
            assert_eq!(up_with(&mut table, words), nothing(NOT_256_RECORDS, 0));
            assert_eq!(
                called(|out| run_up(words, &mut table, out)),
                nothing(NOT_256_RECORDS, 0)
            );
        }
        assert_eq!(table, before);
    }
}

#[test]
fn voices_down() {
    let cases: [(&[u32], &[u32]); 16] = [
        (&[0x4F8E7F55, 0x01FF5555], &[0x2F8E7F00]),
        (&[0x4F8E7F55, 0xFFFF5555], &[0x2F8E7F7F]),
        (&[0x4F9E0055, 0x00005555], &[0x2F9E0001]),
        (&[0x4F9E0055, 0x02005555], &[0x2F9E0001]),
        (&[0x4F9E0055, 0x04005555], &[0x2F9E0002]),
        (&[0x43A507FF, 0x01FFFFFF], &[0x23A50700]),
        (&[0x43B507FF, 0x83FFFFFF], &[0x23B50741]),
        (&[0x43C5FFFE, 0x7FFFFFFF], &[0x23C57F00]),
        (
            &[0x43C5FF01, 0x7FFF0102],
            &[0x23B50001, 0x23B52002, 0x23C57F00],
        ),
        (
            &[0x43C5FFFF, 0x00FF7F00],
            &[0x23B5007F, 0x23B52000, 0x23C50000],
        ),
        (&[0x43D5FFFF, 0x83FFFFFF], &[0x23D54100]),
        (&[0x43E5FFFF, 0x80040020], &[0x23E50140]),
        (&[0x43E50000, 0xFFFFFFFF], &[0x23E57F7F]),
        (
            &[0x43250102, 0x04040000],
            &[0x23B56501, 0x23B56402, 0x23B50602, 0x23B52601],
        ),
        (
            &[0x4335007F, 0xFFFFFFFF],
            &[0x23B56300, 0x23B5627F, 0x23B5067F, 0x23B5267F],
        ),
        (
            &[0x43357F7F, 0x00000000],
            &[0x23B5637F, 0x23B5627F, 0x23B50600, 0x23B52600],
        ),
    ];
    for (packet, words) in cases {
        assert_eq!(down_one(packet), sent(2, words));
    }
}

#[test]
fn no_midi_1_form() {
    for status in [0x0, 0x1, 0x4, 0x5, 0x6, 0xF] {
        let packet = [0x40000000 | status << 20, u32::MAX];
        assert_eq!(down_one(&packet), nothing(NO_MIDI_1_FORM, 2));
    }
    assert_eq!(down_one(&[0x40207F7F, 0]), nothing(NO_MIDI_1_FORM, 2));
    assert_eq!(down_one(&[0x40207F7E, 0]).0, SENT);
    assert_eq!(down_one(&[0x40207E7F, 0]).0, SENT);
    for index in 0..128 {
        let expected = match index {
            0 | 6 | 32 | 38 | 96 | 97 | 98 | 99 | 100 | 101 => nothing(NO_MIDI_1_FORM, 2),
            _ => sent(2, &[0x20B00040 | index << 8]),
        };
        assert_eq!(down_one(&[0x40B00000 | index << 8, 0x80000000]), expected);
    }
}

#[test]
fn status_and_data_of_midi_2_voices() {
    for status in 0..16 {
        let head = 0x40000000 | status << 20;
        let (high_bad, low_bad) = match status {
            0 | 1 | 6 | 8 | 9 | 0xA | 0xB | 0xF => (true, false),
            2 | 3 | 4 | 5 => (true, true),
            _ => (false, false),
        };
        for (bits, bad) in [(0x8000, high_bad), (0x0080, low_bad)] {
            let answer = down_one(&[head | bits | 0x0100, 0]).0;
            assert_eq!(answer == BAD_DATA, bad);
            assert_eq!(answer == BAD_STATUS, status == 7);
        }
    }
    assert_eq!(down_one(&[0x4070FFFF, 0]), nothing(BAD_STATUS, 2));
    for (packet, answer) in [
        ([0x40C00000, 0x80000000], BAD_DATA),
        ([0x40C00000, 0x7FFFFFFF], SENT),
        ([0x40C00001, 0x80000000], BAD_DATA),
        ([0x40C00001, 0x00008000], BAD_DATA),
        ([0x40C00001, 0x00000080], BAD_DATA),
        ([0x40C000FF, 0x7FFF7F7F], SENT),
        ([0x40C000FE, 0x7FFF8080], SENT),
    ] {
        assert_eq!(down_one(&packet).0, answer);
        assert_eq!(down_one(&packet).1, 2);
    }
}

/// The refusal of a packet of `read` words that is bad at a place.
fn bad(place: u32, read: usize) -> Done {
    Done {
        answer: BAD_DATA,
        place,
        read,
        written: 0,
    }
}

#[test]
fn every_place_of_system_messages() {
    for (word, place) in [
        (0x10F18000, 1),
        (0x10F180FF, 1),
        (0x10F38000, 1),
        (0x10F28000, 1),
        (0x10F28080, 1),
        (0x10F20080, 2),
        (0x1FF27FFF, 2),
    ] {
        assert_eq!(up(&[word], &mut fresh(), &mut []), bad(place, 1));
        assert_eq!(down(&[word], &mut []), bad(place, 1));
    }
}

#[test]
fn every_place_of_midi_1_voices() {
    for status in [0x8, 0x9, 0xA, 0xB, 0xE] {
        for (data, place) in [(0x8000, 1), (0xFFFF, 1), (0x0080, 2), (0x7FFF, 2)] {
            let word = 0x2503_0000 | status << 20 | data;
            assert_eq!(up(&[word], &mut fresh(), &mut []), bad(place, 1));
        }
    }
    for word in [0x20C08000, 0x20C0FFFF, 0x20D08080, 0x20D0FF00] {
        assert_eq!(up(&[word], &mut fresh(), &mut []), bad(1, 1));
    }
}

#[test]
fn every_place_of_exclusives() {
    for status in 0..4 {
        for count in 7..16 {
            let first = 0x3500_0000 | status << 20 | count << 16;
            for packet in [[first, 0], [first | 0x8080, 0x8080_8080]] {
                assert_eq!(up(&packet, &mut fresh(), &mut []), bad(1, 2));
                assert_eq!(down(&packet, &mut []), bad(1, 2));
            }
        }
        for (count, byte) in (1..7).flat_map(|count| (0..count).map(move |byte| (count, byte))) {
            // That byte alone is bad, or it and all behind it are.
            let alone = 0x8000_0000_0000_u64 >> (8 * byte);
            let rest = 0x8080_8080_8080_u64 >> (8 * byte);
            for payload in [alone, rest] {
                let first = 0x3500_0000 | status << 20 | count << 16 | (payload >> 32) as u32;
                let packet = [first, payload as u32];
                assert_eq!(up(&packet, &mut fresh(), &mut []), bad(2 + byte, 2));
                assert_eq!(down(&packet, &mut []), bad(2 + byte, 2));
            }
        }
    }
}

#[test]
fn every_place_of_midi_2_voices() {
    for status in [0x0, 0x1, 0x6, 0x8, 0x9, 0xA, 0xB, 0xF] {
        for data in [0x8000, 0xFFFF] {
            assert_eq!(
                down(&[0x4000_0000 | status << 20 | data, 0], &mut []),
                bad(1, 2)
            );
        }
    }
    for status in 0x2..0x6 {
        for (data, place) in [(0x8000, 1), (0xFFFF, 1), (0x0080, 2), (0x7FFF, 2)] {
            let packet = [0x4503_0000 | status << 20 | data, u32::MAX];
            assert_eq!(down(&packet, &mut []), bad(place, 2));
        }
    }
    for (packet, place) in [
        ([0x40C00000, 0x80000000], 1),
        ([0x40C0FFFE, 0xFFFFFFFF], 1),
        ([0x40C00001, 0x80000000], 1),
        ([0x40C0FFFF, 0xFFFFFFFF], 1),
        ([0x40C00001, 0x00008000], 2),
        ([0x40C000FF, 0x7FFFFFFF], 2),
        ([0x40C00001, 0x00000080], 3),
        ([0x40C000FF, 0x7FFF7FFF], 3),
    ] {
        assert_eq!(down(&packet, &mut []), bad(place, 2));
    }
}

/// The checked fields of a packet in the order of the packet, each with the most it may be.
fn checked_fields(packet: &[u32; 2]) -> Vec<(u32, u32)> {
    let byte = |number: usize| packet[number / 4] >> (24 - 8 * (number % 4)) & 255;
    let bytes = |numbers: &[usize]| numbers.iter().map(|n| (byte(*n), 127)).collect();
    let (message_type, status) = (packet[0] >> 28, packet[0] >> 20 & 15);
    match (message_type, status) {
        (1, _) if byte(1) == 0xF2 => bytes(&[2, 3]),
        (1, _) if byte(1) == 0xF1 || byte(1) == 0xF3 => bytes(&[2]),
        (2, 0xC | 0xD) => bytes(&[2]),
        (2, _) => bytes(&[2, 3]),
        (3, _) => {
            let count = byte(1) & 15;
            let payload = (2..8).map(|number| (byte(number), 127));
            let counted = payload.take(count as usize);
            std::iter::once((count, 6)).chain(counted).collect()
        }
        (4, 0xC) if packet[0] & 1 == 1 => bytes(&[4, 6, 7]),
        (4, 0xC) => bytes(&[4]),
        (4, 0x2..=0x5) => bytes(&[2, 3]),
        (4, 0xD | 0xE) => vec![],
        (4, _) => bytes(&[2]),
        _ => vec![],
    }
}

/// Holds the answer of a call to the list of checked fields, unless an earlier refusal stands.
fn hold_to_the_list(packet: &[u32; 2], done: Done) {
    if let CUT | RESERVED_TYPE | WRONG_PROTOCOL | BAD_STATUS = done.answer {
        return;
    }
    let fields = checked_fields(packet);
    let first_bad = fields.iter().position(|(value, most)| value > most);
    let place = first_bad.map_or(0, |index| index as u32 + 1);
    assert_eq!(done.place, place, "{:08X?}", packet);
    assert_eq!(done.answer == BAD_DATA, place > 0, "{:08X?}", packet);
}

#[test]
fn the_place_is_the_first_bad_one_of_the_list() {
    const EDGES: [u32; 5] = [0, 0x80, 0x8000, 0x8080, 0x7F7F];
    for head in 0..0x1_0000 {
        for high in EDGES {
            for low in EDGES {
                let packet = [head << 16 | EDGES[(head % 5) as usize], high << 16 | low];
                hold_to_the_list(&packet, up(&packet, &mut fresh(), &mut [0; 2]));
                hold_to_the_list(&packet, down(&packet, &mut [0; 4]));
            }
        }
        for first in EDGES {
            let packet = [head << 16 | first, 0x7F80_807F];
            hold_to_the_list(&packet, up(&packet, &mut fresh(), &mut [0; 2]));
            hold_to_the_list(&packet, down(&packet, &mut [0; 4]));
        }
    }
}

/// The answer is 9 with any room below the need, and the need itself suffices.
fn needs(need: usize, call: impl Fn(&mut [u32]) -> Done) {
    for room in 0..need {
        let mut out = vec![UNTOUCHED; room];
        assert_eq!(call(&mut out), stopped(OUTPUT_SHORT));
        assert_eq!(out, vec![UNTOUCHED; room]);
    }
    let done = call(&mut vec![UNTOUCHED; need]);
    assert_eq!((done.answer, done.written), (SENT, need));
}

#[test]
fn output_shorter_than_what_is_sent() {
    let up_cases: [(&[u32], usize); 7] = [
        (&[0x00000000], 1),
        (&[0x10F80000], 1),
        (&[0x30000000, 0], 2),
        (&[0xD0000000, 0, 0, 0], 4),
        (&[0x20903C40], 2),
        (&[0x20B00700], 2),
        (&[0x20B02600], 2),
    ];
    for (words, need) in up_cases {
        needs(need, |out| {
            up(words, &mut [record(ASSIGNABLE, [1; 5]); 256], out)
        });
    }
    let down_cases: [(&[u32], usize); 5] = [
        (&[0x40903C00, 0], 1),
        (&[0x40C00000, 0], 1),
        (&[0x40C00001, 0], 3),
        (&[0x40200000, 0], 4),
        (&[0x50000000, 0, 0, 0], 4),
    ];
    for (words, need) in down_cases {
        needs(need, |out| down(words, out));
    }
}

#[test]
fn a_short_output_leaves_the_record_and_comes_last() {
    let mut table = fresh();
    table[0].bank_high = 1;
    table[0].bank_low = 2;
    let before = table;
    assert_eq!(
        up(&[0x20C00500], &mut table, &mut [UNTOUCHED]),
        stopped(OUTPUT_SHORT)
    );
    assert_eq!(table, before);
    assert_eq!(up(&[0x20B00003], &mut table, &mut []), refused(TAKEN_IN, 1));
    table[0].kind = 3;
    assert_eq!(up(&[0x20C00500], &mut table, &mut []), stopped(NOT_SOUND));
    assert_eq!(up(&[0x20C08000], &mut table, &mut []), bad(1, 1));
    assert_eq!(
        up(&[0x20F08000], &mut table, &mut []),
        refused(BAD_STATUS, 1)
    );
    assert_eq!(
        up(&[0x40C00000, 0], &mut table, &mut []),
        refused(WRONG_PROTOCOL, 2)
    );
    assert_eq!(
        up(&[0x60000000], &mut table, &mut []),
        refused(RESERVED_TYPE, 1)
    );
    assert_eq!(down(&[0x40600000, 0], &mut []), refused(NO_MIDI_1_FORM, 2));
    assert_eq!(down(&[0x40608000, 0], &mut []), bad(1, 2));
    assert_eq!(down(&[0x40708000, 0], &mut []), refused(BAD_STATUS, 2));
}

#[test]
fn a_run_goes_on_after_refusals() {
    let stream = [
        0x20903C40, 0x20B00001, 0x60000000, 0x40B00000, 0, 0x20700000, 0x20903C80, 0xB0000000, 1,
        2, 0x10F80000,
    ];
    let result = called(|out| run_up(&stream, &mut fresh(), out));
    assert_eq!(result, sent(11, &[0x40903C00, 0x80000000, 0x10F80000]));
    let stream = [
        0x20903C40, 0x40600000, 0, 0x40700000, 0, 0x40808000, 0, 0x60000000, 0x00400000,
    ];
    assert_eq!(called(|out| run_down(&stream, out)), sent(9, &[0x00400000]));
    assert_eq!(called(|out| run_up(&[], &mut fresh(), out)), sent(0, &[]));
    assert_eq!(called(|out| run_down(&[], out)), sent(0, &[]));
    assert_eq!(up(&[], &mut fresh(), &mut []), stopped(CUT));
    assert_eq!(down(&[], &mut []), stopped(CUT));
}

#[test]
fn a_run_stops_and_reports_its_sums() {
    let stream = [0x20903C40, 0x20B10001, 0x50000000, 1, 2];
    let mut table = fresh();
    let result = called(|out| run_up(&stream, &mut table, out));
    assert_eq!(result, (CUT, 2, vec![0x40903C00, 0x80000000]));
    table[1].kind = 9;
    let result = called(|out| run_up(&stream, &mut table, out));
    assert_eq!(result, (NOT_SOUND, 1, vec![0x40903C00, 0x80000000]));
    let mut out = [UNTOUCHED; 3];
    let done = run_up(&[0x20903C40; 3], &mut fresh(), &mut out);
    assert_eq!(
        done,
        Done {
            answer: OUTPUT_SHORT,
            place: 0,
            read: 1,
            written: 2
        }
    );
    assert_eq!(out, [0x40903C00, 0x80000000, UNTOUCHED]);
    let done = run_down(&[0x40800000, 0, 0x40C00001, 0], &mut out);
    assert_eq!(
        done,
        Done {
            answer: OUTPUT_SHORT,
            place: 0,
            read: 2,
            written: 1
        }
    );
    let done = run_down(&[0x40800000, 0, 0x40C00001], &mut out);
    assert_eq!(
        done,
        Done {
            answer: CUT,
            place: 0,
            read: 2,
            written: 1
        }
    );
}

#[test]
fn a_run_taken_up_again_gives_the_whole() {
    let stream = [
        0x20B00001, 0x20B02002, 0x20C00500, 0x20C00600, 0x50000000, 1, 2, 3, 0x10F80000,
    ];
    let (mut whole, mut whole_table) = ([0; 9], fresh());
    let all = run_up(&stream, &mut whole_table, &mut whole);
    assert_eq!(
        all,
        Done {
            answer: SENT,
            place: 0,
            read: 9,
            written: 9
        }
    );
    for room in 0..9 {
        let (mut out, mut table) = ([0; 9], fresh());
        let part = run_up(&stream, &mut table, &mut out[..room]);
        assert_eq!(part.answer, OUTPUT_SHORT);
        let rest = run_up(&stream[part.read..], &mut table, &mut out[part.written..]);
        assert_eq!(
            (
                rest.answer,
                part.read + rest.read,
                part.written + rest.written
            ),
            (0, 9, 9)
        );
        assert_eq!((out, table), (whole, whole_table));
    }
}

/// Long runs ask for all records at once if they can, and short ones for each.
#[test]
fn a_long_run_is_its_calls_one_after_another_over_sound_and_other_tables() {
    let mut thrown = Thrown(12);
    let (mut answers, mut long) = ([0; 11], 0);
    for _ in 0..1_500 {
        let mut start = thrown.marked_table();
        for _ in 0..thrown.number(3) {
            let (kind, numbers) = NOT_SOUND_RECORDS[thrown.number(16) as usize];
            start[thrown.of(&[0, 1, 0xFF, 0x5A]) as usize] = record(kind, numbers);
        }
        let stream = [(); 4].map(|_| thrown.stream()).concat();
        long += usize::from(stream.len() >= LONG_RUN);
        let room = thrown.room(stream.len());
        let (mut table, mut out) = (start, vec![UNTOUCHED; room]);
        let done = run_up(&stream, &mut table, &mut out);
        let (mut other, mut other_out) = (start, vec![UNTOUCHED; room]);
        let (mut read, mut written, mut answer) = (0, 0, SENT);
        while read < stream.len() {
            let one = up(&stream[read..], &mut other, &mut other_out[written..]);
            read += one.read;
            written += one.written;
            if one.read == 0 {
                answer = one.answer;
                break;
            }
        }
        assert_eq!(
            (done.answer, done.read, done.written),
            (answer, read, written)
        );
        assert!(table == other && out == other_out);
        answers[answer as usize] += 1;
    }
    assert!(long > 500 && long < 1_400);
    for answer in [SENT, NOT_SOUND, OUTPUT_SHORT] {
        assert!(answers[answer as usize] > 50);
    }
}

/// A record of which only these keys are known.
fn keyed(keys: &[u32]) -> Record {
    let mut record = empty();
    for key in keys {
        match key {
            0..=63 => record.keys[0] |= 1 << key,
            _ => record.keys[1] |= 1 << (key - 64),
        }
    }
    record
}

/// A MIDI 1.0 voice in group 5 and channel 10, whose record is number 0x5A.
fn voice(status: u32, first: u32, second: u32) -> u32 {
    0x250A0000 | status << 20 | first << 8 | second
}

/// What a record becomes by one word that must be accepted and may change no other record.
fn after(before: Record, word: u32) -> Record {
    let mut table = [keyed(&[1, 126]); 256];
    table[0x5A] = before;
    let mut expected = table;
    assert!(up_with(&mut table, &[word]).0 <= TAKEN_IN);
    expected[0x5A] = table[0x5A];
    assert!(table == expected);
    table[0x5A]
}

const NOTE_OFF: u32 = 0x8;
const NOTE_ON: u32 = 0x9;
const CONTROL: u32 = 0xB;

#[test]
fn the_layout_is_that_of_the_c_structs() {
    use std::mem::{align_of, size_of};
    assert_eq!((size_of::<Record>(), align_of::<Record>()), (24, 8));
    assert_eq!((size_of::<Keys>(), align_of::<Keys>()), (12, 4));
    let record = empty();
    let start = std::ptr::addr_of!(record) as usize;
    assert_eq!(std::ptr::addr_of!(record.keys) as usize - start, 0);
    assert_eq!(std::ptr::addr_of!(record.kind) as usize - start, 16);
    assert_eq!(std::ptr::addr_of!(record.bank_high) as usize - start, 18);
    assert_eq!(std::ptr::addr_of!(record.data_high) as usize - start, 22);
    assert_eq!(std::ptr::addr_of!(record.coarse) as usize - start, 23);
}

#[test]
fn a_note_on_with_a_velocity_presses_its_key() {
    assert_eq!(empty().keys, [0, 0]);
    assert_eq!(after(empty(), voice(NOTE_ON, 0, 1)).keys, [1, 0]);
    assert_eq!(after(empty(), voice(NOTE_ON, 63, 1)).keys, [1 << 63, 0]);
    assert_eq!(after(empty(), voice(NOTE_ON, 64, 1)).keys, [0, 1]);
    assert_eq!(after(empty(), voice(NOTE_ON, 127, 1)).keys, [0, 1 << 63]);
    for key in 0..128 {
        for velocity in 1..128 {
            let word = voice(NOTE_ON, key, velocity);
            assert_eq!(after(empty(), word), keyed(&[key]));
        }
        // A key that is down already stays down, and so do the others.
        let before = keyed(&[5, 70, key]);
        assert_eq!(after(before, voice(NOTE_ON, key, 64)), before);
        let others = keyed(&[5, 70]);
        assert_eq!(after(others, voice(NOTE_ON, key, 64)), before);
    }
}

#[test]
fn a_note_off_and_a_silent_note_on_lift_their_key() {
    let mut all = empty();
    all.keys = [u64::MAX; 2];
    for key in 0..128 {
        let rest: Vec<u32> = (0..128).filter(|other| *other != key).collect();
        for velocity in 0..128 {
            assert_eq!(after(all, voice(NOTE_OFF, key, velocity)), keyed(&rest));
        }
        assert_eq!(after(all, voice(NOTE_ON, key, 0)), keyed(&rest));
        // A key that is up already stays up.
        assert_eq!(after(keyed(&rest), voice(NOTE_OFF, key, 0)), keyed(&rest));
        assert_eq!(after(keyed(&rest), voice(NOTE_ON, key, 0)), keyed(&rest));
    }
}

#[test]
fn only_120_and_123_of_all_controllers_lift_keys_and_they_lift_all() {
    for keys in [
        [1, 0],
        [0, 1 << 63],
        [0x8000_0000_0000_0001, 5],
        [u64::MAX; 2],
    ] {
        for (index, value) in (0..128).flat_map(|index| [0, 1, 64, 127].map(|v| (index, v))) {
            let mut before = record(REGISTERED, [1, 2, 3, 4, 5]);
            before.keys = keys;
            let expected = match index {
                120 | 123 => Record {
                    keys: [0; 2],
                    ..before
                },
                _ => Record {
                    keys,
                    ..after(before, voice(CONTROL, index, value))
                },
            };
            assert_eq!(after(before, voice(CONTROL, index, value)), expected);
        }
    }
}

#[test]
fn the_other_messages_leave_the_keys() {
    let before = keyed(&[0, 60, 63, 64, 127]);
    for status in [0xA, 0xC, 0xD, 0xE] {
        for first in [0, 59, 60, 63, 64, 127] {
            for second in [0, 1, 60, 127] {
                assert_eq!(after(before, voice(status, first, second)), before);
            }
        }
    }
    let mut table = [before; 256];
    for words in [
        &[0x00203C40][..],
        &[0x10F23C40],
        &[0x35023C40, 0x259A3D40],
        &[0x55903D40, 0x259A3D40, 0x258A3C40, 0x25BA7800],
        &[0xD5903D40, 0x259A3D40, 0x258A3C40, 0x25BA7800],
        &[0xF5903D40, 0x259A3D40, 0x258A3C40, 0x25BA7800],
    ] {
        assert_eq!(up_with(&mut table, words), sent(words.len(), words));
    }
    assert!(table == [before; 256]);
}

#[test]
fn a_reset_closes_the_address_and_a_program_change_spends_the_bank_but_keys_stay() {
    let mut before = record(ASSIGNABLE, [1, 2, 3, 4, 5]);
    before.keys = [0x1234_5678_9ABC_DEF0, 0x8000_0000_0000_0001];
    let mut reset = record(NONE, [1, 2, M, M, M]);
    reset.keys = before.keys;
    assert_eq!(after(before, voice(CONTROL, 121, 0)), reset);
    let mut spent = record(ASSIGNABLE, [M, M, 3, 4, 5]);
    spent.keys = before.keys;
    assert_eq!(after(before, voice(0xC, 5, 0)), spent);
}

#[test]
fn refused_packets_leave_the_keys() {
    let mut table = [keyed(&[0, 60, 63, 64, 127]); 256];
    let before = table;
    for (words, answer) in [
        (&[0x25903D80][..], BAD_DATA),
        (&[0x2590BD40], BAD_DATA),
        (&[0x25803C80], BAD_DATA),
        (&[0x2580BC40], BAD_DATA),
        (&[0x25B07880], BAD_DATA),
        (&[0x25B0FB00], BAD_DATA),
        (&[0x25103D40], BAD_STATUS),
        (&[0x25703D40], BAD_STATUS),
        (&[0x25F03D40], BAD_STATUS),
        (&[0x45903D00, 0x80000000], WRONG_PROTOCOL),
        (&[0x45803C00, 0x80000000], WRONG_PROTOCOL),
        (&[0x45B07800, 0], WRONG_PROTOCOL),
        (&[0x65903D40], RESERVED_TYPE),
        (&[0xB5903D40, 0x25903D40, 0x25803C40], RESERVED_TYPE),
        (&[0x55903D40, 0x25903D40, 0x25803C40], CUT),
    ] {
        assert_eq!(up_with(&mut table, words).0, answer, "{:08X?}", words);
        assert!(table == before);
    }
}

const KEY_WORDS: [u32; 5] = [0x259A3D40, 0x259A3C00, 0x258A3C40, 0x25BA7800, 0x25BA7B00];

#[test]
fn a_note_without_room_leaves_the_keys() {
    let mut table = [keyed(&[0, 60, 63, 64, 127]); 256];
    let before = table;
    for word in KEY_WORDS {
        for room in 0..2 {
            let done = up(&[word], &mut table, &mut vec![0; room]);
            assert_eq!(done, stopped(OUTPUT_SHORT));
            let done = run_up(&[word], &mut table, &mut vec![0; room]);
            assert_eq!(done, stopped(OUTPUT_SHORT));
            assert!(table == before);
        }
        assert_eq!(up(&[word], &mut table, &mut [0; 2]).answer, SENT);
        assert!(table != before);
        table = before;
    }
}

#[test]
fn a_note_with_an_unsound_record_or_another_table_leaves_the_keys() {
    for word in KEY_WORDS {
        let mut table = [keyed(&[0, 60, 63, 64, 127]); 256];
        table[0x5A].bank_high = 128;
        let before = table;
        assert_eq!(up_with(&mut table, &[word]), nothing(NOT_SOUND, 0));
        assert!(table == before);
        for length in [0, 91, 255, 257] {
            let mut table = vec![keyed(&[0, 60, 63, 64, 127]); length];
            let before = table.clone();
            assert_eq!(up_with(&mut table, &[word]), nothing(NOT_256_RECORDS, 0));
            assert!(table == before);
        }
    }
}

#[test]
fn any_keys_are_sound() {
    for keys in [[u64::MAX; 2], [1, 0], [0, 1 << 63], [0x5555, 0xAAAA]] {
        for (kind, numbers) in SOUND_RECORDS {
            let mut before = record(kind, numbers);
            before.keys = keys;
            assert_eq!(after(before, voice(0xA, 60, 64)), before);
        }
    }
}

#[test]
fn a_run_that_stops_keeps_what_was_pressed_before() {
    let mut table = fresh();
    let stream = [0x20903C40, 0x20903D40, 0x20803C40];
    let done = run_up(&stream, &mut table, &mut [0; 5]);
    assert_eq!((done.answer, done.read), (OUTPUT_SHORT, 2));
    assert_eq!(table[0], keyed(&[60, 61]));
    let done = run_up(&stream[2..], &mut table, &mut [0; 2]);
    assert_eq!((done.answer, done.read), (SENT, 1));
    assert_eq!(table[0], keyed(&[61]));
}

/// Whether a key of group 5 and channel 10 is down by what an accepted word says, if it says so.
fn said_of(word: u32, key: u32) -> Option<bool> {
    let bytes = word.to_be_bytes().map(u32::from);
    match bytes {
        [0x25, 0x9A, note, velocity] if note == key => Some(velocity > 0),
        [0x25, 0x8A, note, _] if note == key => Some(false),
        [0x25, 0xBA, 120 | 123, _] => Some(false),
        _ => None,
    }
}

#[test]
fn a_key_is_where_the_last_accepted_word_about_it_put_it() {
    let mut state = 1_u32;
    let mut thrown = |from: &[u32]| {
        state = state.wrapping_mul(1_664_525).wrapping_add(1_013_904_223);
        from[(state >> 8) as usize % from.len()]
    };
    let mut table = fresh();
    let mut accepted = vec![];
    for _ in 0..3_000 {
        let head = thrown(&[
            0x259A, 0x259A, 0x259A, 0x259A, 0x258A, 0x258A, 0x25BA, 0x25CA, 0x259B, 0x259B, 0x25BB,
            0x2A95, 0x459A, 0x659A, 0x25FA, 0x251A, 0x25EA, 0x25AA,
        ]);
        let first = thrown(&[
            0, 1, 62, 63, 64, 65, 120, 121, 123, 126, 127, 128, 191, 248, 251,
        ]);
        let second = thrown(&[0, 0, 1, 63, 64, 127, 128, 255]);
        let room = thrown(&[2, 2, 2, 2, 1, 0]) as usize;
        let word = head << 16 | first << 8 | second;
        let done = up(&[word, 0], &mut table, &mut vec![0; room]);
        if done.answer <= TAKEN_IN {
            accepted.push(word);
        }
        let down = |key: &u32| accepted.iter().rev().find_map(|word| said_of(*word, *key));
        let keys: Vec<u32> = (0..128).filter(|key| down(key) == Some(true)).collect();
        assert_eq!(table[0x5A].keys, keyed(&keys).keys);
        let lowest = keys.first().copied().unwrap_or(255);
        assert_eq!(keys_down(&table, 5, 10), shown(keys.len() as u32, lowest));
    }
}

fn shown(down: u32, lowest: u32) -> Keys {
    Keys {
        answer: 0,
        down,
        lowest,
    }
}

fn not_shown(answer: u32) -> Keys {
    Keys {
        answer,
        down: 0,
        lowest: 255,
    }
}

#[test]
fn the_question_counts_the_keys_and_names_the_lowest() {
    let mut table = fresh();
    for group in 0..16 {
        for channel in 0..16 {
            assert_eq!(keys_down(&table, group, channel), shown(0, 255));
        }
    }
    for key in 0..128 {
        table[0x5A] = keyed(&[key]);
        assert_eq!(keys_down(&table, 5, 10), shown(1, key));
        table[0x5A] = keyed(&[key, 127]);
        assert_eq!(keys_down(&table, 5, 10), shown(2 - key / 127, key));
        table[0x5A] = keyed(&(key..128).collect::<Vec<_>>());
        assert_eq!(keys_down(&table, 5, 10), shown(128 - key, key));
        table[0x5A] = keyed(&(0..=key).collect::<Vec<_>>());
        assert_eq!(keys_down(&table, 5, 10), shown(key + 1, 0));
        assert_eq!(keys_down(&table, 10, 5), shown(0, 255));
    }
}

#[test]
fn the_question_asks_the_record_of_group_and_channel() {
    for (group, channel) in (0..16).flat_map(|group| (0..16).map(move |channel| (group, channel))) {
        let mut table = [keyed(&[1, 2]); 256];
        table[16 * usize::from(group) + usize::from(channel)] = keyed(&[3, 63, 64]);
        // What else is in the record does not matter, nor whether it is sound.
        table.iter_mut().for_each(|record| record.kind = 3);
        assert_eq!(keys_down(&table, group, channel), shown(3, 3));
        assert_eq!(keys_down(&table, group, channel ^ 1), shown(2, 1));
        assert_eq!(keys_down(&table, group ^ 1, channel), shown(2, 1));
    }
}

#[test]
fn the_question_refuses_another_table_before_a_channel_out_of_range() {
    let full = keyed(&[0, 63, 64, 127]);
    for length in [0, 1, 16, 255, 257, 512] {
        let table = vec![full; length];
        for (group, channel) in [(0, 0), (15, 15), (16, 0), (0, 16), (255, 255)] {
            assert_eq!(keys_down(&table, group, channel), not_shown(10));
        }
    }
    for group in 0..=255 {
        for channel in 0..=255 {
            let expected = match (group, channel) {
                (0..=15, 0..=15) => shown(4, 0),
                _ => not_shown(24),
            };
            assert_eq!(keys_down(&[full; 256], group, channel), expected);
        }
    }
}

/// The lamps of a row in which these keys are down.
fn lamps(keys: &[usize]) -> String {
    let mut row = vec!['.'; 128];
    keys.iter().for_each(|key| row[*key] = '#');
    row.into_iter().collect()
}

fn panel_text(bytes: &[u8]) -> String {
    String::from_utf8(panel(bytes, fresh())).unwrap()
}

#[test]
fn the_panel_has_a_line_for_each_channel_with_keys_down() {
    assert_eq!(panel_text(&[]), "");
    let whole = format!("0 0 1 60 {}#{}\n", ".".repeat(60), ".".repeat(67));
    assert_eq!(panel_text(&bytes_of(&[0x20903C40])), whole);
    let stream = [
        0x2F9F7F01, 0x219A0001, 0x2A913F40, 0x2A914040, 0x2A917F40, 0x2A910040, 0x209F0540,
        0x22903C40, 0x22803C00, 0x23903C40, 0x23903C00, 0x24903C40, 0x24B07800, 0x25903C40,
        0x25B07B00, 0x26900A40, 0x26900940, 0x26B07900, 0x26900B80, 0x46900C00, 0x80000000,
    ];
    let lines = [
        format!("0 15 1 5 {}\n", lamps(&[5])),
        format!("1 10 1 0 {}\n", lamps(&[0])),
        format!("6 0 2 9 {}\n", lamps(&[9, 10])),
        format!("10 1 4 0 {}\n", lamps(&[0, 63, 64, 127])),
        format!("15 15 1 127 {}\n", lamps(&[127])),
    ];
    assert_eq!(panel_text(&bytes_of(&stream)), lines.concat());
}

#[test]
fn the_panel_shows_every_key_and_ignores_a_cut_end() {
    let words: Vec<u32> = (0..128).map(|key| 0x2C930040 | key << 8).collect();
    let mut bytes = bytes_of(&words);
    let line = format!("12 3 128 0 {}\n", "#".repeat(128));
    assert_eq!(panel_text(&bytes), line);
    for end in [
        &[0x2C][..],
        &[0x2C, 0xB3, 0x78],
        &[0x50, 0, 0, 0, 0x2C, 0xB3, 0x78, 0],
        &[0xB0, 0, 0, 0, 0x2C, 0x83, 0, 0, 0x2C],
    ] {
        bytes.extend(end);
        assert_eq!(panel_text(&bytes), line);
        bytes.truncate(4 * 128);
    }
}

fn coarse(kind: u16, numbers: [u8; 5]) -> Record {
    Record {
        coarse: COARSE,
        ..record(kind, numbers)
    }
}

/// The sound records without data high, with a mark and keys of their own.
fn marked_records() -> Vec<Record> {
    let without_data = SOUND_RECORDS.iter().filter(|(_, numbers)| numbers[4] == M);
    let marked = without_data.map(|(kind, numbers)| coarse(*kind, *numbers));
    let complete = [
        coarse(REGISTERED, [1, 2, 3, 4, M]),
        coarse(ASSIGNABLE, [M, M, 127, 127, M]),
        coarse(REGISTERED, [1, M, 127, 126, M]),
    ];
    let mut all: Vec<Record> = marked.chain(complete).collect();
    for (number, record) in (1..).zip(&mut all) {
        record.keys = [number << 60 | 1, number];
    }
    all
}

fn marks(table: &[Record]) -> Vec<u8> {
    table.iter().map(|record| record.coarse).collect()
}

#[test]
fn an_empty_record_is_not_marked() {
    assert_eq!(empty().coarse, 0);
    assert_eq!((FINE, COARSE), (0, 1));
}

#[test]
fn on_a_marked_channel_controller_6_sends_with_a_low_half_of_zero() {
    for (value, scaled) in [
        (0, 0),
        (2, 0x0400_0000),
        (64, 0x8000_0000),
        (65, 0x8200_1000),
        (127, 0xFE03_F01F),
    ] {
        let mut table = [coarse(REGISTERED, [M, M, 0, 0, M]); 256];
        let sent_one = sent(1, &[0x40200000, scaled]);
        assert_eq!(up_with(&mut table, &[0x20B00600 | value]), sent_one);
    }
    for (kind, status) in [(REGISTERED, 0x2), (ASSIGNABLE, 0x3)] {
        for value in 0..128 {
            let mut table = fresh();
            table[0x5A] = coarse(kind, [1, 2, 3, 4, M]);
            let before = table;
            let result = up_with(&mut table, &[voice(CONTROL, 6, value)]);
            let scaled = scale_up_of_004(128 * value, 14, 32);
            assert_eq!(result, sent(1, &[0x450A0304 | status << 20, scaled]));
            assert!(table == before);
        }
    }
}

#[test]
fn on_a_marked_channel_a_data_entry_is_sent_once() {
    for (address, first) in [([101, 100], 0x40200506), ([99, 98], 0x40300506)] {
        let mut table = fresh();
        assert_eq!(mark_coarse(&mut table, 0, 0, 1), SET);
        let control = |index: u32, value: u32| 0x20B00000 | index << 8 | value;
        let stream = [
            control(address[0], 5),
            control(address[1], 6),
            control(6, 2),
            control(38, 1),
            control(38, 127),
            control(6, 3),
            control(38, 0),
        ];
        let (answers, words) = up_all(&mut table, &stream);
        assert_eq!(answers, [1, 1, 0, 1, 1, 0, 1]);
        assert_eq!(words, [first, 0x0400_0000, first, 0x0600_0000]);
        assert_eq!((table[0].data_high, table[0].coarse), (M, COARSE));
    }
}

#[test]
fn on_a_marked_channel_controller_38_is_taken_in_and_does_nothing() {
    for record in marked_records() {
        for value in 0..128 {
            let mut table = [record; 256];
            let word = voice(CONTROL, 38, value);
            assert_eq!(up_with(&mut table, &[word]), nothing(TAKEN_IN, 1));
            assert_eq!(up(&[word], &mut table, &mut []), refused(TAKEN_IN, 1));
            assert!(table == [record; 256]);
        }
    }
}

#[test]
fn on_a_marked_channel_controller_6_needs_a_complete_address_that_is_not_null() {
    let cases = [
        (coarse(NONE, [M, M, M, M, M]), false),
        (coarse(REGISTERED, [M, M, M, M, M]), false),
        (coarse(REGISTERED, [M, M, 3, M, M]), false),
        (coarse(REGISTERED, [M, M, M, 3, M]), false),
        (coarse(ASSIGNABLE, [M, M, 3, M, M]), false),
        (coarse(ASSIGNABLE, [M, M, M, 3, M]), false),
        (coarse(REGISTERED, [M, M, 127, 127, M]), false),
        (coarse(REGISTERED, [M, M, 127, 126, M]), true),
        (coarse(REGISTERED, [M, M, 126, 127, M]), true),
        (coarse(ASSIGNABLE, [M, M, 127, 127, M]), true),
        (coarse(ASSIGNABLE, [M, M, 0, 0, M]), true),
    ];
    for (before, sends) in cases {
        for value in [0, 1, 64, 127] {
            let mut table = [before; 256];
            let word = voice(CONTROL, 6, value);
            let (answer, _, words) = up_with(&mut table, &[word]);
            let short = up(&[word], &mut table, &mut [UNTOUCHED]);
            if sends {
                assert_eq!((answer, words.len()), (SENT, 2));
                assert_eq!(short, stopped(OUTPUT_SHORT));
            } else {
                assert_eq!((answer, words.len()), (TAKEN_IN, 0));
                assert_eq!(short, refused(TAKEN_IN, 1));
            }
            assert!(table == [before; 256]);
        }
    }
}

#[test]
fn a_marked_send_needs_room_for_two_words() {
    needs(2, |out| {
        let mut table = [coarse(ASSIGNABLE, [1, 1, 1, 1, M]); 256];
        let done = up(&[0x20B00605], &mut table, out);
        assert!(table == [coarse(ASSIGNABLE, [1, 1, 1, 1, M]); 256]);
        done
    });
}

#[test]
fn after_a_reset_a_marked_channel_is_quiet_until_it_is_addressed_again() {
    let mut table = [coarse(NONE, [M; 5]); 256];
    let stream = [
        0x20B06500, 0x20B06400, 0x20B00602, 0x20B07900, 0x20B00602, 0x20B02600, 0x20B06400,
        0x20B00602, 0x20B06500, 0x20B00602,
    ];
    let (answers, words) = up_all(&mut table, &stream);
    assert_eq!(answers, [1, 1, 0, 0, 1, 1, 1, 1, 1, 0]);
    let entry = [0x40200000, 0x0400_0000];
    assert_eq!(words, [entry, [0x40B07900, 0], entry].concat());
    assert_eq!(table[0], coarse(REGISTERED, [M, M, 0, 0, M]));
}

/// Every MIDI 1.0 voice but controller 6 does with a mark what it does without one.
#[test]
fn but_for_controller_6_a_mark_changes_nothing_that_is_sent_or_kept() {
    let every_controller = (0..128).filter(|index| *index != 6);
    let controllers = every_controller.map(|index| voice(CONTROL, index, 0x41));
    let notes = [0x259A3C41, 0x259A3C00, 0x258A3C40, 0x25AA3C40];
    let others = [0x25CA0500, 0x25DA4100, 0x25EA0140, 0x25FA0000, 0x259A3C80];
    for word in controllers.chain(notes).chain(others) {
        for record in marked_records() {
            let unmarked = Record {
                coarse: FINE,
                ..record
            };
            let (mut table, mut other) = ([record; 256], [unmarked; 256]);
            let result = up_with(&mut table, &[word]);
            assert_eq!(up_with(&mut other, &[word]), result);
            other.iter_mut().for_each(|record| record.coarse = COARSE);
            assert!(table == other, "{word:08X}");
        }
    }
}

#[test]
fn a_mark_is_of_its_own_channel_alone() {
    let stream = [
        0x25BA6503, 0x25BA6404, 0x25BA0605, 0x25BA2641, 0x25BA6303, 0x25BA6204, 0x25BA067F,
        0x25BA267F,
    ];
    let mut unmarked = fresh();
    let (answers, words) = up_all(&mut unmarked, &stream);
    assert_eq!(answers, [1, 1, 1, 0, 1, 1, 1, 0]);
    let mut others = [coarse(NONE, [M; 5]); 256];
    others[0x5A] = empty();
    assert_eq!(up_all(&mut others, &stream), (answers, words));
    assert_eq!(others[0x5A], unmarked[0x5A]);
    let mut own = fresh();
    own[0x5A] = coarse(NONE, [M; 5]);
    assert_eq!(up_all(&mut own, &stream).0, [1, 1, 0, 1, 1, 1, 0, 1]);
}

#[test]
fn a_mark_must_be_0_or_1() {
    for (kind, numbers) in SOUND_RECORDS {
        for mark in 0..=255 {
            let mut table = fresh();
            table[0x5A] = Record {
                coarse: mark,
                ..record(kind, numbers)
            };
            let before = table;
            let word = voice(0xA, 60, 64);
            let sound = mark == 0 || mark == 1 && numbers[4] == M;
            match sound {
                true => assert_eq!(up_with(&mut table, &[word]).0, SENT),
                false => assert_eq!(up_with(&mut table, &[word]), nothing(NOT_SOUND, 0)),
            }
            let done = run_up(&[0x10F80000, word], &mut table, &mut [0; 3]);
            assert_eq!(done.answer, if sound { SENT } else { NOT_SOUND });
            assert!(table == before);
        }
    }
}

#[test]
fn a_marked_record_with_data_high_is_not_sound() {
    for data_high in 0..128 {
        for kind in [REGISTERED, ASSIGNABLE] {
            let mut table = fresh();
            table[0x5A] = record(kind, [1, 2, 3, 4, data_high]);
            assert_eq!(up_with(&mut table, &[voice(CONTROL, 38, 0)]).0, SENT);
            table[0x5A].coarse = COARSE;
            let before = table;
            for word in [(6, 5), (38, 5), (101, 5), (121, 0), (96, 0)] {
                let word = voice(CONTROL, word.0, word.1);
                assert_eq!(up_with(&mut table, &[word]), nothing(NOT_SOUND, 0));
                assert_eq!(up(&[word], &mut table, &mut []), stopped(NOT_SOUND));
            }
            let bad_status = up_with(&mut table, &[voice(0xF, 0, 0)]);
            assert_eq!(bad_status, nothing(BAD_STATUS, 1));
            let bad_data = up_with(&mut table, &[voice(CONTROL, 6, 128)]);
            assert_eq!(bad_data, nothing(BAD_DATA, 1));
            assert!(table == before);
        }
    }
}

#[test]
fn what_is_not_sound_without_a_mark_is_not_sound_with_one() {
    for (kind, numbers) in NOT_SOUND_RECORDS {
        for mark in [0, 1, 2, 255] {
            let unsound = Record {
                coarse: mark,
                ..record(kind, numbers)
            };
            let mut table = [unsound; 256];
            assert_eq!(up_with(&mut table, &[0x20903C40]), nothing(NOT_SOUND, 0));
            assert_eq!(mark_coarse(&mut table, 0, 0, 1), NOT_SOUND);
            assert_eq!(mark_coarse(&mut table, 0, 0, 0), NOT_SOUND);
            assert!(table == [unsound; 256]);
        }
    }
}

#[test]
fn the_marking_call_sets_a_mark_for_any_number_but_0() {
    for before in [empty(), coarse(NONE, [M; 5])] {
        for number in 0..=255 {
            let mut table = [before; 256];
            let mut expected = table;
            expected[0x5A].coarse = if number == 0 { FINE } else { COARSE };
            assert_eq!(mark_coarse(&mut table, 5, 10, number), SET);
            assert!(table == expected);
        }
    }
}

#[test]
fn the_marking_call_drops_data_high_and_keeps_the_rest() {
    for (kind, numbers) in SOUND_RECORDS {
        for before in [FINE, COARSE] {
            if before == COARSE && numbers[4] != M {
                continue;
            }
            for number in [0, 1, 2, 255] {
                let mut table = [keyed(&[1, 126]); 256];
                table[0x5A] = Record {
                    keys: [0x1234_5678_9ABC_DEF0, 0x8000_0000_0000_0001],
                    coarse: before,
                    ..record(kind, numbers)
                };
                let mut expected = table;
                expected[0x5A].data_high = M;
                expected[0x5A].coarse = u8::from(number != 0);
                assert_eq!(mark_coarse(&mut table, 5, 10, number), SET);
                assert!(table == expected);
            }
        }
    }
}

#[test]
fn the_marking_call_marks_the_record_of_group_and_channel() {
    for (group, channel) in (0..16).flat_map(|group| (0..16).map(move |channel| (group, channel))) {
        // The other records need not be sound.
        let mut table = [record(3, [200; 5]); 256];
        let number = 16 * usize::from(group) + usize::from(channel);
        table[number] = record(REGISTERED, [1, 2, 3, 4, 5]);
        let mut expected = table;
        expected[number] = coarse(REGISTERED, [1, 2, 3, 4, M]);
        assert_eq!(mark_coarse(&mut table, group, channel, 1), SET);
        assert!(table == expected);
        expected[number].coarse = FINE;
        assert_eq!(mark_coarse(&mut table, group, channel, 0), SET);
        assert!(table == expected);
    }
}

#[test]
fn the_marking_call_refuses_another_table_then_a_channel_out_of_range_then_the_record() {
    let (sound, unsound) = (record(ASSIGNABLE, [1, 2, 3, 4, 5]), record(3, [200; 5]));
    for record in [sound, unsound] {
        for length in [0, 1, 16, 255, 257, 512] {
            let mut table = vec![record; length];
            for (group, channel) in [(0, 0), (15, 15), (16, 0), (0, 16), (255, 255)] {
                for number in [0, 1, 255] {
                    let answer = mark_coarse(&mut table, group, channel, number);
                    assert_eq!(answer, NOT_256_RECORDS);
                }
            }
            assert_eq!(table, vec![record; length]);
        }
        let mut table = [record; 256];
        for (group, channel) in (0..=255).flat_map(|g| (0..=255).map(move |c| (g, c))) {
            let answer = match (group, channel) {
                (0..=15, 0..=15) if record == sound => continue,
                (0..=15, 0..=15) => 8,
                _ => 24,
            };
            assert_eq!(mark_coarse(&mut table, group, channel, channel & 1), answer);
        }
        assert!(table == [record; 256]);
    }
}

#[test]
fn the_marking_call_refuses_a_record_with_an_unsound_mark() {
    let numbers = [1, 2, 3, 4, M];
    let with_data = coarse(REGISTERED, [1, 2, 3, 4, 5]);
    let other_marks = [2, 3, 127, 128, 255].map(|mark| Record {
        coarse: mark,
        ..record(REGISTERED, numbers)
    });
    for unsound in other_marks.into_iter().chain([with_data]) {
        let mut table = [unsound; 256];
        for number in [0, 1, 2, 255] {
            assert_eq!(mark_coarse(&mut table, 5, 10, number), NOT_SOUND);
        }
        assert!(table == [unsound; 256]);
    }
}

#[test]
fn a_mark_set_or_taken_off_within_a_data_entry_ends_it() {
    let (address, high, low) = ([0x20B06503, 0x20B06404], 0x20B00605, 0x20B02601);
    let entry = [0x40200304, scale_up(5 * 128 + 1, 14, 32)];
    for (number, low_answer) in [(0, SENT), (1, TAKEN_IN)] {
        let mut table = fresh();
        up_all(&mut table, &address);
        assert_eq!(up_all(&mut table, &[high]).0, [TAKEN_IN]);
        assert_eq!(mark_coarse(&mut table, 0, 0, number), SET);
        // The address stays, so that the data slider goes on by the rule of the new mark.
        assert_eq!(up_all(&mut table, &[low]), (vec![TAKEN_IN], vec![]));
        assert_eq!(up_all(&mut table, &[high, low]).0[1], low_answer);
        assert_eq!(mark_coarse(&mut table, 0, 0, 0), SET);
        assert_eq!(up_all(&mut table, &[low]), (vec![TAKEN_IN], vec![]));
        assert_eq!(
            up_all(&mut table, &[high, low]),
            (vec![1, 0], entry.to_vec())
        );
    }
}

/// Numbers from a fixed seed.
struct Thrown(u64);

impl Thrown {
    fn number(&mut self, below: u32) -> u32 {
        self.0 = self.0.wrapping_mul(6_364_136_223_846_793_005);
        self.0 = self.0.wrapping_add(1_442_695_040_888_963_407);
        (self.0 >> 33) as u32 % below
    }

    fn of(&mut self, from: &[u32]) -> u32 {
        from[self.number(from.len() as u32) as usize]
    }

    /// A table that is empty but for the marks of about half of its channels.
    fn marked_table(&mut self) -> [Record; 256] {
        fresh().map(|_| Record {
            coarse: self.number(2) as u8,
            ..empty()
        })
    }

    /// Packets of all sorts on few channels, most of them control changes of a data entry.
    fn stream(&mut self) -> Vec<u32> {
        let mut words = vec![];
        for _ in 0..self.number(200) {
            let place = self.of(&[0, 0x00010000, 0x0F0F0000]);
            let value = self.of(&[0, 1, 63, 64, 65, 126, 127, 127]);
            let index = self.of(&[6, 6, 6, 38, 38, 98, 99, 100, 101, 0, 32, 96, 97, 121]);
            let any = self.number(0x10000) << 16 | self.number(0x10000);
            match self.number(12) {
                0..=6 => words.push(0x20B00000 | place | index << 8 | value),
                7 => words.push(0x20B00000 | place | self.number(128) << 8 | value),
                8 => words.push(0x20C00000 | place | value << 8),
                9 => words.push(0x20800000 | place | any & 0x00707F7F),
                10 => words.push(0x20000000 | any & 0x0FFFFFFF),
                _ => words.extend([any & 0xF0FFFFFF, any, any, any]),
            }
        }
        words
    }
}

/// The words that go up from this table; it has its last state then.
fn went_up(words: &[u32], table: &mut [Record; 256]) -> Vec<u32> {
    let mut out = vec![0; 2 * words.len()];
    let done = run_up(words, table, &mut out);
    assert!(done.answer == SENT || done.answer == CUT);
    out.truncate(done.written);
    out
}

fn went_down(words: &[u32]) -> Vec<u32> {
    let mut out = vec![0; 2 * words.len()];
    let done = run_down(words, &mut out);
    assert_eq!((done.answer, done.read), (SENT, words.len()));
    out.truncate(done.written);
    out
}

#[test]
fn what_went_up_and_down_goes_up_again_as_it_did_from_the_same_marks() {
    let mut thrown = Thrown(1);
    let mut at_once = 0;
    for _ in 0..3_000 {
        let start = thrown.marked_table();
        let stream = thrown.stream();
        let (mut first, mut second, mut third) = (start, start, start);
        let sent_up = went_up(&stream, &mut first);
        let normal = went_down(&sent_up);
        assert_eq!(went_up(&normal, &mut second), sent_up);
        // The normal form of a normal form is itself.
        assert_eq!(went_down(&went_up(&normal, &mut third)), normal);
        assert!(marks(&first) == marks(&start) && marks(&second) == marks(&start));
        assert!(second == third);
        at_once += usize::from(went_up(&stream, &mut fresh()) != sent_up);
    }
    assert!(at_once > 1_000);
}

#[test]
fn the_round_trip_of_a_marked_channel() {
    let table = marked_table(&["0:0"]).unwrap();
    let entries = [0x20B06503, 0x20B06404, 0x20B00605, 0x20B02601, 0x20B00606];
    let sent_up = went_up(&entries, &mut table.clone());
    assert_eq!(sent_up, [0x40200304, 0x0A00_0000, 0x40200304, 0x0C00_0000]);
    let normal = [
        0x20B06503, 0x20B06404, 0x20B00605, 0x20B02600, 0x20B06503, 0x20B06404, 0x20B00606,
        0x20B02600,
    ];
    assert_eq!(went_down(&sent_up), normal);
    assert_eq!(went_up(&normal, &mut table.clone()), sent_up);
    // Without the mark the data low of the normal form sends the same.
    assert_eq!(went_up(&normal, &mut fresh()), sent_up);
}

#[test]
fn no_packet_changes_a_mark_and_every_record_stays_sound() {
    let mut thrown = Thrown(2);
    for _ in 0..300 {
        let mut table = thrown.marked_table();
        let before = marks(&table);
        for _ in 0..5 {
            let stream = thrown.stream();
            let room = thrown.number(2 * stream.len() as u32 + 1) as usize;
            let done = run_up(&stream, &mut table, &mut vec![0; room]);
            assert!([SENT, CUT, OUTPUT_SHORT].contains(&done.answer));
            assert!(marks(&table) == before);
            assert!(table.iter().all(Record::sound));
        }
    }
    for status in 0..16 {
        for data in [0x0000, 0x7900, 0x7F7F, 0x0605, 0x2605, 0x8000, 0x0080] {
            for record in marked_records() {
                let mut table = [record; 256];
                up_with(&mut table, &[0x250A0000 | status << 20 | data]);
                assert!(marks(&table) == [COARSE; 256]);
            }
        }
    }
}

#[test]
fn the_question_of_the_keys_does_not_ask_for_marks() {
    for mark in [0, 1, 2, 255] {
        let record = Record {
            coarse: mark,
            ..keyed(&[3, 63, 64])
        };
        assert_eq!(keys_down(&[record; 256], 5, 10), shown(3, 3));
    }
}

#[test]
fn arguments_name_the_channels_that_are_marked() {
    assert_eq!(marked_table(&[]), Some(fresh()));
    for group in 0..16 {
        for channel in 0..16 {
            let mut expected = fresh();
            expected[16 * group + channel].coarse = COARSE;
            for argument in [
                format!("{group}:{channel}"),
                format!("{group:02}:{channel:02}"),
                format!("{group}:{channel:02}"),
            ] {
                assert_eq!(marked_table(&[&argument]), Some(expected));
                assert_eq!(marked_table(&[&argument, &argument]), Some(expected));
            }
        }
    }
    let mut expected = fresh();
    for number in [0x03, 0x20, 0x9C, 0xFF] {
        expected[number].coarse = COARSE;
    }
    let arguments = ["0:3", "2:0", "9:12", "15:15"];
    assert_eq!(marked_table(&arguments), Some(expected));
}

#[test]
fn an_argument_that_names_no_channel_gives_no_table() {
    for argument in [
        "", ":", "0", "0:", ":0", "16:0", "0:16", "99:0", "0:99", "000:0", "0:003", "0:0:0", "0-0",
        "0,0", " 0:0", "0:0 ", "0: 0", "+1:0", "0:+1", "-1:0", "0x1:0", "a:0", "0:f", "256:0",
        "0:0\n", "1 :0", "٣:0",
    ] {
        assert_eq!(marked_table(&[argument]), None, "{argument:?}");
        assert_eq!(marked_table(&["1:1", argument]), None);
        assert_eq!(marked_table(&[argument, "1:1"]), None);
    }
}

#[test]
fn programs_start_from_the_marks_of_their_arguments() {
    let table = marked_table(&["1:2", "15:15"]).unwrap();
    let stream = [
        0x21B26500, 0x21B26401, 0x21B20602, 0x21B22603, 0x20B06500, 0x20B06401, 0x20B00602,
        0x20B02603, 0x219F3C40,
    ];
    let text = String::from_utf8(listing(&bytes_of(&stream), table)).unwrap();
    let marked = "1 1\n1 1\n0 1 41220001 04000000\n1 1\n";
    let unmarked = "1 1\n1 1\n1 1\n0 1 40200001 040C0000\n";
    let note = "0 1 419F3C00 80000000\n";
    assert_eq!(text, [marked, unmarked, note].concat());
    let sent_up = [
        0x41220001, 0x04000000, 0x40200001, 0x040C0000, 0x419F3C00, 0x80000000,
    ];
    assert_eq!(up_filter(&bytes_of(&stream), table), bytes_of(&sent_up));
    let panel_of = |table| String::from_utf8(panel(&bytes_of(&stream), table)).unwrap();
    assert_eq!(panel_of(table), format!("1 15 1 60 {}\n", lamps(&[60])));
    assert_eq!(panel_of(table), panel_of(fresh()));
}

/// A table that is marked, channel by channel, as a list of marks says.
fn lesson_start(marks: &[u16]) -> [Record; 256] {
    let mut table = fresh();
    for group in 0..16 {
        let number = marks.get(usize::from(group)).copied().unwrap_or(0);
        for channel in 0..16 {
            let mark = (number & 1 << channel != 0) as u8;
            assert_eq!(mark_coarse(&mut table, group, channel, mark), SET);
        }
    }
    table
}

impl Thrown {
    /// A list of marks, of up to 20 numbers.
    fn marks(&mut self) -> Vec<u16> {
        let length = self.number(21);
        let any = |_| self.number(0x10000) as u16;
        (0..length).map(any).collect()
    }

    /// Room that is short, ample or neither for what a stream sends.
    fn room(&mut self, words: usize) -> usize {
        match self.number(3) {
            0 => self.number(8) as usize,
            1 => self.number(2 * words as u32 + 1) as usize,
            _ => 2 * words,
        }
    }
}

/// What a lesson reports, and the whole output.
fn taught(words: &[u32], marks: &[u16], room: usize) -> (Done, Vec<u32>) {
    let mut out = vec![UNTOUCHED; room];
    let done = lesson(words, marks, &mut out);
    (done, out)
}

#[test]
fn a_lesson_is_the_run_up_from_a_fresh_table_with_its_marks() {
    let mut thrown = Thrown(3);
    let mut answers = [0; 11];
    let mut told_apart = 0;
    for _ in 0..6_000 {
        let (mut stream, marks) = (thrown.stream(), thrown.marks());
        if thrown.number(2) == 0 {
            stream.push(0x50000000);
        }
        let room = thrown.room(stream.len());
        let mut out = vec![UNTOUCHED; room];
        let done = run_up(&stream, &mut lesson_start(&marks), &mut out);
        let result = taught(&stream, &marks, room);
        assert!(out[done.written..].iter().all(|word| *word == UNTOUCHED));
        assert_eq!(done.place, 0);
        told_apart += usize::from(taught(&stream, &[], room) != result);
        assert_eq!(result, (done, out));
        answers[done.answer as usize] += 1;
    }
    // Only these three came, and each of them often.
    let [finished, cut, no_room] = [SENT, CUT, OUTPUT_SHORT].map(|n| answers[n as usize]);
    assert_eq!(finished + cut + no_room, 6_000);
    assert!(finished > 1_000 && cut > 1_000 && no_room > 1_000);
    assert!(told_apart > 500);
}

/// Any three voices on one channel, and then those that show the record they left.
#[test]
fn a_lesson_answers_as_the_run_after_any_three_voices() {
    const VOICES: [u32; 18] = [
        0x20903C40, 0x20903C00, 0x20803C40, 0x20B00001, 0x20B02002, 0x20B06503, 0x20B06404,
        0x20B0657F, 0x20B0647F, 0x20B06305, 0x20B06206, 0x20B00607, 0x20B02608, 0x20B07900,
        0x20B07B00, 0x20C00900, 0x20B00680, 0x20700000,
    ];
    for number in 0..VOICES.len().pow(3) {
        let voice = |place: u32| VOICES[number / VOICES.len().pow(place) % VOICES.len()];
        let last = [0x20B00611, 0x20B02612, 0x20C00013];
        let stream = [&[voice(0), voice(1), voice(2)][..], &last].concat();
        for marks in [&[][..], &[1]] {
            let mut out = vec![UNTOUCHED; 12];
            let done = run_up(&stream, &mut lesson_start(marks), &mut out);
            assert_eq!(taught(&stream, marks, 12), (done, out));
        }
    }
}

/// Controller 6 at an address on every channel; the channels that send it are the marked ones.
fn marked_in_a_lesson(marks: &[u16]) -> Vec<usize> {
    let places = (0..256_u32).map(|number| (number & 0xF0) << 20 | (number & 15) << 16);
    let entry = |place| [0x20B06500, 0x20B06401, 0x20B00602].map(|word| word | place);
    let stream: Vec<u32> = places.flat_map(entry).collect();
    let (done, out) = taught(&stream, marks, 512);
    assert_eq!((done.answer, done.read), (SENT, stream.len()));
    let sent = out[..done.written].chunks_exact(2);
    sent.map(|words| {
        assert_eq!((words[0] & 0xF0F0FFFF, words[1]), (0x40200001, 0x04000000));
        record_number(words[0])
    })
    .collect()
}

#[test]
fn a_bit_marks_the_channel_of_its_number_in_the_group_of_its_place() {
    for number in 0..256 {
        for length in [number / 16 + 1, 16, 20] {
            let mut marks = vec![0; length];
            marks[number / 16] = 1 << (number % 16);
            assert_eq!(marked_in_a_lesson(&marks), [number]);
            let others: Vec<usize> = (0..256).filter(|other| *other != number).collect();
            let mut marks = [0xFFFF; 16];
            marks[number / 16] ^= 1 << (number % 16);
            assert_eq!(marked_in_a_lesson(&marks), others);
        }
    }
}

#[test]
fn groups_past_the_end_of_the_marks_have_none_and_numbers_past_the_16th_are_not_looked_at() {
    for length in 0..=40 {
        let marked: Vec<usize> = (0..256).take(16 * length).collect();
        assert_eq!(marked_in_a_lesson(&vec![0xFFFF; length]), marked);
        let mut marks = vec![0; 16];
        marks.resize(16 + length, 0xFFFF);
        assert_eq!(marked_in_a_lesson(&marks), []);
    }
}

#[test]
fn a_lesson_finishes_is_cut_or_lacks_room() {
    let report = |answer, read, written| Done {
        answer,
        place: 0,
        read,
        written,
    };
    assert_eq!(taught(&[], &[], 0), (report(SENT, 0, 0), vec![]));
    assert_eq!(
        taught(&[], &[0xFFFF; 16], 1),
        (report(SENT, 0, 0), vec![UNTOUCHED])
    );
    // Between a note and the end: taken in, reserved, the wrong protocol, bad status and bad data.
    let stream = [
        0x20903C40, 0x20B00001, 0x60000000, 0x40903C00, 0, 0x20700000, 0x20903C80, 0x10F80000,
    ];
    let all = vec![0x40903C00, 0x80000000, 0x10F80000];
    assert_eq!(taught(&stream, &[], 3), (report(SENT, 8, 3), all));
    let note = vec![0x40903C00, 0x80000000];
    assert_eq!(taught(&stream, &[], 2), (report(OUTPUT_SHORT, 7, 2), note));
    assert_eq!(
        taught(&stream, &[], 1),
        (report(OUTPUT_SHORT, 0, 0), vec![UNTOUCHED])
    );
    assert_eq!(taught(&stream[..4], &[], 2).0, report(CUT, 3, 2));
    assert_eq!(taught(&stream[3..4], &[], 0), (report(CUT, 0, 0), vec![]));
}

#[test]
fn a_lesson_remembers_within_itself_and_nothing_of_the_one_before() {
    let stream = [0x20B06503, 0x20B06404, 0x20B00605, 0x20B02601];
    let (done, out) = taught(&stream, &[], 4);
    assert_eq!((done.answer, done.read, done.written), (SENT, 4, 2));
    assert_eq!(out, [0x40200304, 0x0A040000, UNTOUCHED, UNTOUCHED]);
    for end in 1..4 {
        for part in [&stream[..end], &stream[end..]] {
            assert_eq!(taught(part, &[], 4).0.written, 0);
        }
    }
    // A marked channel sends at controller 6, if its address came in the same lesson.
    for (end, sent) in [(1, [0, 0]), (2, [0, 0]), (3, [2, 0])] {
        let written = [&stream[..end], &stream[end..]].map(|part| taught(part, &[1], 4).0.written);
        assert_eq!(written, sent);
    }
}
