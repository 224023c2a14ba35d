//! Tests of the rescue of recordings.

use super::*;

/// A recording of these words.
fn recording(words: &[u32]) -> Vec<u8> {
    let bytes = words.iter().flat_map(|word| word.to_be_bytes());
    HEADER.into_iter().chain(bytes).collect()
}

/// The lines of a recording of these words, and the words that are kept.
fn rescued(words: &[u32]) -> (String, Vec<u32>) {
    let Rescued { lines, clean } = rescue(&recording(words));
    let clean = clean.expect("a recording");
    assert_eq!(clean[..5], HEADER);
    (lines, words_of(&clean[5..]))
}

fn kept_whole(words: &[u32]) {
    assert_eq!(rescued(words), (String::new(), words.to_vec()));
}

fn refused_alone(answer: u32) -> Rescued {
    Rescued {
        lines: format!("{answer}\n"),
        clean: None,
    }
}

#[test]
fn the_header_is_the_mark_and_version_1() {
    assert_eq!(HEADER, [0x55, 0x50, 0x4B, 0x00, 0x01]);
    let clean = Some(HEADER.to_vec());
    let lines = String::new();
    assert_eq!(rescue(&HEADER), Rescued { lines, clean });
}

#[test]
fn a_wrong_or_cut_mark_comes_before_a_wrong_or_cut_version() {
    for length in 0..5 {
        let answer = if length < 3 { 19 } else { 20 };
        assert_eq!(rescue(&HEADER[..length]), refused_alone(answer));
    }
    for place in 0..5 {
        for value in 0..=255 {
            let mut file = recording(&[0x2090_3C40, 0x6000_0000]);
            if file[place] == value {
                continue;
            }
            file[place] = value;
            let answer = if place < 3 { 19 } else { 20 };
            assert_eq!(rescue(&file), refused_alone(answer));
            file[3] = 7;
            assert_eq!(rescue(&file), refused_alone(answer));
        }
    }
    assert_eq!(rescue(b"UPX\0\x02"), refused_alone(19));
    assert_eq!(rescue(b"upk\0\x01"), refused_alone(19));
    assert_eq!(rescue(b"UPK\x01\0"), refused_alone(20));
}

#[test]
fn the_packets_that_01_refuses_are_dropped_with_place_answer_and_count() {
    // 01's examples, each of them behind a packet that is kept.
    let good = 0x2090_3C41;
    let of = |packet: &[u32]| rescued(&[&[good], packet, &[good]].concat());
    let line = |line: &str| (line.to_string(), vec![good, good]);
    assert_eq!(of(&[0x2090_3C80]), line("1 7 1 2\n"));
    assert_eq!(of(&[0x2070_0000]), line("1 6 1\n"));
    assert_eq!(of(&[0xB000_0000, 0, 0]), line("1 4 3\n"));
    assert_eq!(of(&[0x6000_0000]), line("1 4 1\n"));
    let (lines, kept) = rescued(&[good, 0xB000_0000, 0]);
    assert_eq!((lines.as_str(), kept), ("1 3 2\n", vec![good]));
}

#[test]
fn reserved_types_are_dropped_with_all_their_words() {
    for (message_type, count) in [(6, 1), (7, 1), (8, 2), (9, 2), (10, 2), (11, 3), (12, 3)] {
        let mut words = vec![0x2090_3C40; count + 2];
        words[1] = message_type << 28;
        let lines = format!("1 4 {count}\n");
        assert_eq!(rescued(&words), (lines, vec![0x2090_3C40; 2]));
    }
    let words = [0xE000_0000, 0x2090_3C40, 0x0020_0001, 0x0020_0002];
    assert_eq!(rescued(&words), ("0 4 4\n".to_string(), vec![]));
}

#[test]
fn voices_of_both_protocols_and_unread_types_are_kept() {
    kept_whole(&[0x2090_3C40, 0x4090_3C00, 0x8000_0000, 0x20B0_0001]);
    // No MIDI 1.0 form, or nothing to send, or a null address: all good.
    kept_whole(&[
        0x4000_3CFF,
        1,
        0x4060_3C00,
        2,
        0x40F0_3C00,
        3,
        0x4020_7F7F,
        4,
    ]);
    kept_whole(&[
        0x20B0_6500,
        0x20B0_0605,
        0x20B0_2606,
        0x20C0_05FF,
        0x20D0_05FF,
    ]);
    for message_type in [0x5, 0xD, 0xF] {
        kept_whole(&[
            message_type << 28 | 0x0FFF_FFFF,
            u32::MAX,
            0x6000_0000,
            0x2090_3C80,
        ]);
    }
}

#[test]
fn statuses_are_checked_type_by_type() {
    for status in 0..256 {
        let words = [0, 1, 2, 3, 4].map(|message_type| [message_type << 28 | status << 16, 0]);
        let high = status >> 4;
        let system = [0xF1, 0xF2, 0xF3, 0xF6, 0xF8, 0xFA, 0xFB, 0xFC, 0xFE, 0xFF];
        let good = [
            high <= 4,
            system.contains(&status),
            (8..15).contains(&high),
            high <= 3,
            high != 7,
        ];
        for ((message_type, good), packet) in good.into_iter().enumerate().zip(words) {
            let packet = &packet[..if message_type < 3 { 1 } else { 2 }];
            let count_bad = message_type == 3 && good && status & 15 > 6;
            let expected = match (good, count_bad) {
                (false, _) => (format!("0 6 {}\n", packet.len()), vec![]),
                (true, true) => ("0 7 2 1\n".to_string(), vec![]),
                (true, false) => (String::new(), packet.to_vec()),
            };
            assert_eq!(rescued(packet), expected, "{:08X}", packet[0]);
        }
    }
}

#[test]
fn bad_data_are_named_by_the_place_of_the_first_bad_field() {
    let place = |words: &[u32]| match rescued(words) {
        (line, kept) if kept.is_empty() => line,
        other => panic!("{other:?}"),
    };
    assert_eq!(place(&[0x10F1_8080]), "0 7 1 1\n");
    assert_eq!(place(&[0x10F2_0080]), "0 7 1 2\n");
    assert_eq!(place(&[0x20E0_8080]), "0 7 1 1\n");
    assert_eq!(place(&[0x20E0_0080]), "0 7 1 2\n");
    assert_eq!(place(&[0x3007_0000, 0]), "0 7 2 1\n");
    for (count, first, second) in [
        (1, 0x8000, 0),
        (2, 0x80, 0),
        (3, 0, 0x8000_0000),
        (4, 0, 0x80_0000),
        (5, 0, 0x8000),
        (6, 0, 0x80),
    ] {
        let words = [0x3000_0000 | count << 16 | first, second];
        assert_eq!(place(&words), format!("0 7 2 {}\n", count + 1));
        // One byte fewer is counted, so that the bad one is not read.
        kept_whole(&[words[0] - 0x1_0000, second]);
    }
    assert_eq!(place(&[0x4090_8000, 0]), "0 7 2 1\n");
    assert_eq!(place(&[0x40B0_8080, 0]), "0 7 2 1\n");
    assert_eq!(place(&[0x4020_0080, 0]), "0 7 2 2\n");
    assert_eq!(place(&[0x40C0_0001, 0x8000_8080]), "0 7 2 1\n");
    assert_eq!(place(&[0x40C0_0001, 0x0000_8080]), "0 7 2 2\n");
    assert_eq!(place(&[0x40C0_0001, 0x0000_0080]), "0 7 2 3\n");
    kept_whole(&[0x40C0_0000, 0x0000_8080]);
}

#[test]
fn places_count_words_and_not_packets_or_bytes() {
    let words = [
        0x4090_3C00,
        0,
        0x2090_3C80,
        0x5000_0000,
        0,
        0,
        0,
        0xC000_0000,
        0,
        0,
        0x3008_0000,
        0,
        0x2070_0000,
    ];
    let lines = "2 7 1 2\n7 4 3\n10 7 2 1\n12 6 1\n";
    let kept = [&words[..2], &words[3..7]].concat();
    assert_eq!(rescued(&words), (lines.to_string(), kept));
}

#[test]
fn ticks_are_the_later_stamp_less_the_earlier_round_at_65536() {
    let stamps = |first: u16, second: u16| {
        let words = [first, second].map(|stamp| 0x0020_0000 | u32::from(stamp));
        let (lines, kept) = rescued(&words);
        assert_eq!(kept, words);
        lines
    };
    assert_eq!(stamps(100, 350), "ticks 250\n");
    assert_eq!(stamps(350, 100), "ticks 65286\n");
    assert_eq!(stamps(5, 5), "ticks 0\n");
    assert_eq!(stamps(0xFFFF, 0), "ticks 1\n");
    assert_eq!(stamps(0, 0xFFFF), "ticks 65535\n");
    assert_eq!(stamps(0x8000, 0), "ticks 32768\n");
}

#[test]
fn neighbouring_stamps_are_those_with_no_stamp_between_them() {
    let words = [
        // Clocks and words within other packets are no stamps, and the first stamp has no line.
        0x0010_0001,
        0x4090_3C00,
        0x0020_FFFF,
        0x0F2F_0010,
        0x6020_0000,
        0x2090_3C40,
        0x0030_0001,
        0x0020_0013,
        0xE020_0000,
        0x0020_0014,
        0x0020_0015,
        0x0020_0016,
        0x0020_0005,
    ];
    let lines = "4 4 1\nticks 3\n8 4 4\nticks 65522\n";
    let kept = [&words[..4], &words[5..8], &words[12..]].concat();
    assert_eq!(rescued(&words), (lines.to_string(), kept));
}

#[test]
fn one_stamp_alone_has_no_line() {
    kept_whole(&[0x2090_3C40, 0x0020_0005, 0x2080_3C40]);
}

#[test]
fn a_cut_end_and_bytes_left_over_come_last() {
    let mut file = recording(&[0x0020_0005, 0x0020_0006, 0x5000_0000, 1, 2]);
    let clean = Some(file[..5 + 8].to_vec());
    for (left_over, last) in ["", "bytes 1\n", "bytes 2\n", "bytes 3\n"]
        .iter()
        .enumerate()
    {
        let lines = format!("ticks 1\n2 3 3\n{last}");
        let clean = clean.clone();
        assert_eq!(rescue(&file), Rescued { lines, clean });
        file.push(left_over as u8);
    }
    let mut file = recording(&[0x2090_3C40]);
    file.extend([0x60, 0, 0]);
    let clean = Some(file[..9].to_vec());
    let lines = "bytes 3\n".to_string();
    assert_eq!(rescue(&file), Rescued { lines, clean });
    // Left-over bytes alone, and words of a cut packet alone.
    let clean = Some(HEADER.to_vec());
    let lines = "bytes 1\n".to_string();
    assert_eq!(rescue(b"UPK\0\x01\x40"), Rescued { lines, clean });
    assert_eq!(rescued(&[0x4090_3C00]), ("0 3 1\n".to_string(), vec![]));
    // The packet is cut by its own size, and reserved types can be cut too.
    assert_eq!(rescued(&[0xE000_0000, 0, 0]).0, "0 3 3\n");
    assert_eq!(rescued(&[0x8000_0000]).0, "0 3 1\n");
}

/// Words of every sort, from a fixed rule.
fn mixed(count: usize, seed: u32) -> Vec<u32> {
    let mut state = seed;
    let mut next = || {
        state = state.wrapping_mul(0x0019_660D).wrapping_add(0x3C6E_F35F);
        state >> 8
    };
    (0..count)
        .map(|_| next() << 16 ^ next() & if next() & 1 == 0 { 0x7F7F } else { 0xFFFF })
        .collect()
}

#[test]
fn rescuing_again_drops_nothing_and_prints_ticks_alone() {
    for seed in 0..200 {
        let first = rescue(&recording(&mixed(400, seed)));
        let clean = first.clean.expect("a recording");
        let again = rescue(&clean);
        assert_eq!(again.clean, Some(clean));
        let is_ticks = |line: &&str| line.starts_with("ticks ");
        let ticks: Vec<&str> = first.lines.lines().filter(is_ticks).collect();
        assert_eq!(again.lines.lines().collect::<Vec<_>>(), ticks);
    }
}

#[test]
fn what_is_kept_and_the_counts_of_the_lines_add_up_to_the_words() {
    for seed in 0..200 {
        let words = mixed(300 + seed as usize % 7, seed);
        let (lines, kept) = rescued(&words);
        let (mut dropped, mut end) = (0, 0);
        for line in lines.lines().filter(|line| !line.starts_with("ticks")) {
            let numbers: Vec<usize> = line.split(' ').map(|n| n.parse().unwrap()).collect();
            assert!(numbers[0] >= end && [3, 4, 6, 7].contains(&numbers[1]));
            assert_eq!(numbers.len(), if numbers[1] == 7 { 4 } else { 3 });
            end = numbers[0] + numbers[2];
            dropped += numbers[2];
        }
        assert_eq!(kept.len() + dropped, words.len());
    }
}

#[test]
fn a_place_can_be_beyond_16_bits() {
    let mut words = vec![0x2090_3C40; 70_000];
    words.push(0x2070_0000);
    assert_eq!(rescued(&words).0, "70000 6 1\n");
}
