//! Tests of the tuning desk.

use super::*;

const PLACE: u32 = 0x030A_0000;

fn note_on(note: u32) -> [u32; 2] {
    [0x4090_0000 | PLACE | note << 8, 0x8000_0000]
}

fn note_on_at(note: u32, pitch: u16) -> [u32; 2] {
    let [first, second] = note_on(note);
    [first | 3, second | u32::from(pitch)]
}

fn note_off(note: u32) -> [u32; 2] {
    [0x4080_0000 | PLACE | note << 8, 0]
}

fn pitch_of_note(note: u32, pitch: u32) -> [u32; 2] {
    [0x4000_0003 | PLACE | note << 8, pitch]
}

fn bend(value: u32) -> [u32; 2] {
    [0x40E0_0000 | PLACE, value]
}

fn control(index: u32) -> [u32; 2] {
    [0x40B0_0000 | PLACE | index << 8, 0x1234_5678]
}

fn after(packets: &[[u32; 2]]) -> Desk {
    let mut desk = Desk::new(3, 10);
    packets.iter().for_each(|packet| desk.hear(packet));
    desk
}

/// What the desk shows of a note, with the pitch in digits.
fn shown(desk: &Desk, note: u8, units: u32) -> Option<(Base, String)> {
    let shown = desk.shown(note, units, 0).ok()?;
    Some((shown.base, exact_decimal(shown.pitch)))
}

fn text(base: Base, digits: &str) -> Option<(Base, String)> {
    Some((base, digits.to_string()))
}

/// What the program prints with a range of 2 for these packets of any channel.
fn lines(packets: &[&[u32]]) -> String {
    let words = packets.concat();
    let bytes: Vec<u8> = words.iter().flat_map(|word| word.to_be_bytes()).collect();
    let display = desk(&bytes, &["3", "10", "2"]).expect("good arguments");
    assert_eq!(display.stderr, "");
    display.stdout
}

#[test]
fn the_requests_examples() {
    let mut desk = after(&[note_on_at(69, 0x8A80)]);
    let base = Base::Pitch7_9;
    assert_eq!(shown(&desk, 69, 2), text(base, "69.25"));
    desk.hear(&bend(0xC000_0000));
    assert_eq!(shown(&desk, 69, 2), text(base, "70.25"));
    let pitch = 70 * (1 << 31) + (1 << 29);
    assert_eq!(desk.shown(69, 2, 0), Ok(Shown { base, pitch }));
}

#[test]
fn nothing_sounds_at_first_and_the_bend_stands_in_the_middle() {
    let desk = after(&[]);
    assert!((0..=255).all(|note| desk.shown(note, 2, 0) == Err(22)));
    for note in 0..128 {
        let desk = after(&[note_on(note)]);
        let expected = text(Base::NoteNumber, &note.to_string());
        for units in [0, 1, 2, 127] {
            assert_eq!(shown(&desk, note as u8, units), expected);
        }
    }
}

#[test]
fn a_silent_note_is_refused_before_a_bad_range() {
    let desk = after(&[note_on(60)]);
    for (units, cents) in [(128, 0), (0, 1), (2, 99), (u32::MAX, u32::MAX), (127, 100)] {
        assert_eq!(desk.shown(60, units, cents), Err(BAD_RANGE));
        assert_eq!(desk.shown(61, units, cents), Err(NOT_SOUNDING));
        assert_eq!(desk.shown(60 + 128, units, cents), Err(NOT_SOUNDING));
    }
    assert!((0..128).all(|units| desk.shown(60, units, 0).is_ok()));
}

#[test]
fn the_attribute_is_over_pitch_7_25_which_is_over_the_number() {
    let mut desk = after(&[note_on(60)]);
    assert_eq!(shown(&desk, 60, 2), text(Base::NoteNumber, "60"));
    // It comes while the note sounds, then another, and the last counts.
    desk.hear(&pitch_of_note(60, 61 << 25 | 1 << 24));
    assert_eq!(shown(&desk, 60, 2), text(Base::Pitch7_25, "61.5"));
    desk.hear(&pitch_of_note(60, 59 << 25 | 1 << 23));
    assert_eq!(shown(&desk, 60, 2), text(Base::Pitch7_25, "59.25"));
    desk.hear(&note_on_at(60, 62 << 9 | 1 << 6));
    assert_eq!(shown(&desk, 60, 2), text(Base::Pitch7_9, "62.125"));
    // Below the attribute it is kept, and seen once a note without one comes.
    desk.hear(&pitch_of_note(60, 1));
    assert_eq!(shown(&desk, 60, 2), text(Base::Pitch7_9, "62.125"));
    desk.hear(&note_on(60));
    let smallest = "0.0000000298023223876953125";
    assert_eq!(shown(&desk, 60, 2), text(Base::Pitch7_25, smallest));
}

#[test]
fn pitch_7_25_is_kept_by_note_number_and_the_attribute_is_not() {
    let kept = [note_off(60), note_on(60)];
    let mut desk = after(&[pitch_of_note(60, 0), note_on(60), note_on(61)]);
    assert_eq!(shown(&desk, 60, 2), text(Base::Pitch7_25, "0"));
    assert_eq!(shown(&desk, 61, 2), text(Base::NoteNumber, "61"));
    kept.iter().for_each(|packet| desk.hear(packet));
    assert_eq!(shown(&desk, 60, 2), text(Base::Pitch7_25, "0"));
    for silence in [120, 123] {
        desk.hear(&control(silence));
        assert_eq!(desk.shown(60, 2, 0), Err(22));
        desk.hear(&note_on(60));
        assert_eq!(shown(&desk, 60, 2), text(Base::Pitch7_25, "0"));
    }
    let mut desk = after(&[note_on_at(60, 0)]);
    assert_eq!(shown(&desk, 60, 2), text(Base::Pitch7_9, "0"));
    kept.iter().for_each(|packet| desk.hear(packet));
    assert_eq!(shown(&desk, 60, 2), text(Base::NoteNumber, "60"));
}

#[test]
fn only_attribute_type_3_is_a_pitch() {
    for attribute in 0..256 {
        let desk = after(&[[0x4090_3C00 | PLACE | attribute, 0x8000_2200]]);
        let expected = match attribute {
            3 => text(Base::Pitch7_9, "17"),
            _ => text(Base::NoteNumber, "60"),
        };
        assert_eq!(shown(&desk, 60, 2), expected);
        // An attribute of a Note Off is not read.
        let off = [0x4080_3C00 | PLACE | attribute, 0x8000_2200];
        assert!(after(&[note_on(60), off]).shown(60, 2, 0).is_err());
    }
}

#[test]
fn a_note_on_sounds_with_any_velocity() {
    for velocity in [0, 1, 0x7FFF, 0x8000, 0xFFFF] {
        let desk = after(&[[note_on(60)[0], velocity << 16]]);
        assert_eq!(shown(&desk, 60, 2), text(Base::NoteNumber, "60"));
    }
}

#[test]
fn notes_end_by_note_off_and_by_controllers_120_and_123_alone() {
    for index in 0..128 {
        let desk = after(&[note_on(60), note_on(127), control(index)]);
        let sounds = index != 120 && index != 123;
        assert_eq!(desk.shown(60, 2, 0).is_ok(), sounds);
        assert_eq!(desk.shown(127, 2, 0).is_ok(), sounds);
    }
    let desk = after(&[note_on(60), note_on(61), note_off(60)]);
    assert!(desk.shown(60, 2, 0).is_err() && desk.shown(61, 2, 0).is_ok());
}

#[test]
fn the_bend_is_counted_from_its_middle_and_goes_on_through_silence() {
    let with = |value, units| shown(&after(&[note_on(60), bend(value)]), 60, units);
    let base = Base::NoteNumber;
    assert_eq!(with(0, 2), text(base, "58"));
    assert_eq!(with(0, 127), text(base, "-67"));
    assert_eq!(with(0x4000_0000, 1), text(base, "59.5"));
    assert_eq!(with(0x8000_0000, 127), text(base, "60"));
    assert_eq!(with(0x8000_0000, 0), text(base, "60"));
    assert_eq!(with(0xFFFF_FFFF, 0), text(base, "60"));
    assert_eq!(with(0xC000_0000, 127), text(base, "123.5"));
    let just_above = "60.0000000004656612873077392578125";
    assert_eq!(with(0x8000_0001, 1), text(base, just_above));
    let just_below = "59.9999999995343387126922607421875";
    assert_eq!(with(0x7FFF_FFFF, 1), text(base, just_below));
    let just_below_62 = "61.999999999068677425384521484375";
    assert_eq!(with(0xFFFF_FFFF, 2), text(base, just_below_62));
    let desk = after(&[bend(0), control(120), note_on(60), control(121)]);
    assert_eq!(shown(&desk, 60, 2), text(base, "58"));
}

#[test]
fn the_ends_of_every_base() {
    let with = |packets: &[[u32; 2]], note| shown(&after(packets), note, 127);
    let lowest = [bend(0), note_on(0)];
    assert_eq!(with(&lowest, 0), text(Base::NoteNumber, "-127"));
    let highest = [bend(u32::MAX), note_on(127)];
    let digits = "253.9999999408610165119171142578125";
    assert_eq!(with(&highest, 127), text(Base::NoteNumber, digits));
    let highest = [bend(u32::MAX), note_on(5), pitch_of_note(5, u32::MAX)];
    let digits = "254.9999999110586941242218017578125";
    assert_eq!(with(&highest, 5), text(Base::Pitch7_25, digits));
    let highest = [bend(u32::MAX), note_on_at(5, u16::MAX)];
    let digits = "254.9980468158610165119171142578125";
    assert_eq!(with(&highest, 5), text(Base::Pitch7_9, digits));
    let lowest = [bend(0), note_on_at(5, 0)];
    assert_eq!(with(&lowest, 5), text(Base::Pitch7_9, "-127"));
}

/// Five to the 31.
const FIVES: u128 = 4_656_612_873_077_392_578_125;

#[test]
fn a_decimal_is_exact_and_as_short_as_can_be() {
    for (pitch, digits) in [
        (0, "0"),
        (1 << 31, "1"),
        (-1 << 31, "-1"),
        (1 << 30, "0.5"),
        (-1 << 30, "-0.5"),
        (69 << 31 | 1 << 29, "69.25"),
        (1, "0.0000000004656612873077392578125"),
        (-1, "-0.0000000004656612873077392578125"),
        ((1 << 31) - 1, "0.9999999995343387126922607421875"),
        (100 << 31, "100"),
    ] {
        assert_eq!(exact_decimal(pitch), digits);
    }
    assert_eq!(FIVES, 5u128.pow(31));
    for n in 0..20_000 {
        let pitch = (n - 10_000) * 54_321_001 + n % 3;
        let text = exact_decimal(pitch);
        let (whole, fraction) = text.split_once('.').unwrap_or((&text, ""));
        assert!(!text.ends_with('.') && !fraction.ends_with('0') && fraction.len() <= 31);
        // With all 31 decimal places it is a whole number, tenfold for each of them.
        let digits = format!("{}{fraction:0<31}", whole.trim_start_matches('-'));
        let size: u128 = digits.parse().expect("digits");
        assert_eq!(size, u128::from(pitch.unsigned_abs()) * FIVES);
        assert_eq!(text.starts_with('-'), pitch < 0);
    }
}

#[test]
fn other_channels_groups_and_types_are_passed_over() {
    for word in [
        0x4390_3C00,
        0x439B_3C00,
        0x449A_3C00,
        0x4A93_3C00,
        0x409A_3C00,
    ] {
        assert!(after(&[[word, 0]]).shown(60, 2, 0).is_err());
    }
    let mut desk = after(&[]);
    desk.hear(&[0x239A_3C40]);
    desk.hear(&[0x539A_3C40, 0x439A_3C00, 0, 0]);
    desk.hear(&[0xA39A_3C40, 0]);
    assert!(desk.shown(60, 2, 0).is_err());
    for packet in [
        [0x4080_3C00, 0],
        [0x40B0_7800, 0],
        [0x40E0_0000, 0],
        [0x4000_3C03, 0],
    ] {
        let desk = after(&[note_on(60), packet]);
        assert_eq!(shown(&desk, 60, 2), text(Base::NoteNumber, "60"));
    }
}

#[test]
fn other_voices_are_not_read() {
    for status in [0x1, 0x2, 0x3, 0x4, 0x5, 0x6, 0xA, 0xC, 0xD, 0xF] {
        for index in [0, 1, 3] {
            let first = 0x4000_3C00 | PLACE | status << 20 | index;
            let desk = after(&[note_on(60), [first, 0x7878_0000]]);
            assert_eq!(shown(&desk, 60, 2), text(Base::NoteNumber, "60"));
        }
    }
    for index in (0..256).filter(|index| *index != 3) {
        let desk = after(&[note_on(60), [0x4000_3C00 | PLACE | index, 0]]);
        assert_eq!(shown(&desk, 60, 2), text(Base::NoteNumber, "60"));
    }
}

#[test]
fn packets_that_are_not_sound_change_nothing() {
    for packet in [
        [0x4080_BC00, 0],
        [0x4000_BC03, 0],
        [0x40B0_F800, 0],
        [0x40B0_FB00, 0],
        [0x4070_3C00, 0],
        [0x4090_BC03, 0],
    ] {
        let desk = after(&[note_on(60), [packet[0] | PLACE, packet[1]]]);
        assert_eq!(shown(&desk, 60, 2), text(Base::NoteNumber, "60"));
    }
}

#[test]
fn a_line_for_each_packet_that_changes_the_picture() {
    let stdout = lines(&[
        &note_on_at(69, 0x8A80),
        &bend(0xC000_0000),
        &note_on(60),
        &bend(0x8000_0000),
        &note_off(69),
        &note_off(60),
    ]);
    let expected = "1 69 7.9 69.25\n1 69 7.9 70.25\n2 60 note 61 69 7.9 70.25\n\
                    2 60 note 60 69 7.9 69.25\n1 60 note 60\n0\n";
    assert_eq!(stdout, expected);
}

#[test]
fn no_line_where_the_picture_stays() {
    // The bend, a pitch and an end with nothing sounding, and silence that is there already.
    assert_eq!(
        lines(&[
            &bend(0),
            &pitch_of_note(60, 1),
            &note_off(60),
            &control(120)
        ]),
        ""
    );
    let once = lines(&[
        &note_on(60),
        &note_on(60),
        &[0x0020_0001],
        &note_off(61),
        &bend(1 << 31),
    ]);
    assert_eq!(once, "1 60 note 60\n");
    let below = lines(&[
        &note_on_at(60, 0),
        &pitch_of_note(60, 7),
        &note_on_at(60, 0),
    ]);
    assert_eq!(below, "1 60 7.9 0\n");
    let of_another_note = lines(&[&note_on(60), &pitch_of_note(61, 7), &note_on(60)]);
    assert_eq!(of_another_note, "1 60 note 60\n");
}

#[test]
fn another_base_is_another_picture_with_the_same_pitch_too() {
    let stdout = lines(&[
        &note_on(60),
        &pitch_of_note(60, 60 << 25),
        &note_on_at(60, 60 << 9),
        &pitch_of_note(60, 61 << 25),
        &note_on(60),
        &control(123),
        &control(123),
    ]);
    let expected = "1 60 note 60\n1 60 7.25 60\n1 60 7.9 60\n1 60 7.25 61\n0\n";
    assert_eq!(stdout, expected);
}

#[test]
fn notes_stand_in_ascending_order_whatever_their_pitches() {
    let stdout = lines(&[&note_on_at(127, 0), &note_on(9), &note_on(10), &note_on(0)]);
    let last = stdout.lines().last();
    assert_eq!(last, Some("4 0 note 0 9 note 9 10 note 10 127 7.9 0"));
}

#[test]
fn a_bend_at_range_0_changes_no_picture() {
    let words = [note_on(60), bend(0), bend(u32::MAX)].concat();
    let bytes: Vec<u8> = words.iter().flat_map(|word| word.to_be_bytes()).collect();
    let display = desk(&bytes, &["3", "10", "0"]).expect("good arguments");
    assert_eq!(display.stdout, "1 60 note 60\n");
}

/// What the program says at the end of these words and of some bytes behind them.
fn told(words: &[u32], left_over: usize) -> String {
    let mut bytes: Vec<u8> = words.iter().flat_map(|word| word.to_be_bytes()).collect();
    bytes.resize(bytes.len() + left_over, 0x40);
    let display = desk(&bytes, &["3", "10", "2"]).expect("good arguments");
    display.stderr
}

#[test]
fn a_cut_end_is_told() {
    let cut = "desk: read 0 words; cut packet at the end\n";
    assert_eq!(told(&[], 0), "");
    assert_eq!(told(&[], 3), cut);
    assert_eq!(told(&note_on(60)[..1], 0), cut);
    assert_eq!(told(&note_on(60), 0), "");
    assert_eq!(told(&note_on(60), 1), cut.replace("0 words", "2 words"));
}

#[test]
fn refused_packets_of_every_type_and_channel_are_told() {
    let words = [
        &[0x6000_0000][..],
        &[0x2090_3C80],
        &[0xC000_0000, 0, 0],
        &[0x4390_8000, 0],
        &[0x40C0_0001, 0x80],
        &[0x0050_0000],
        &[0x20A0_0080],
    ]
    .concat();
    let counts = "refused: 4 x2, 6 x1, 7 at 1 x1, 7 at 2 x2, 7 at 3 x1";
    assert_eq!(told(&words, 0), format!("desk: read 11 words; {counts}\n"));
    let cut = [&words[..], &[0x5000_0000]].concat();
    let stderr = format!("desk: read 11 words; {counts}; cut packet at the end\n");
    assert_eq!(told(&cut, 2), stderr);
}

#[test]
fn the_program_takes_a_group_a_channel_and_units() {
    let bytes: Vec<u8> = note_on(60)
        .iter()
        .flat_map(|word| word.to_be_bytes())
        .collect();
    for good in [
        ["3", "10", "0"],
        ["03", "10", "00"],
        ["3", "10", "127"],
        ["3", "10", "002"],
    ] {
        let display = desk(&bytes, &good).expect("good arguments");
        assert_eq!(display.stdout, "1 60 note 60\n");
    }
    for other in [["10", "3", "2"], ["3", "11", "2"], ["2", "10", "2"]] {
        assert_eq!(desk(&bytes, &other).expect("good arguments").stdout, "");
    }
    for bad in [
        &[][..],
        &["3"],
        &["3", "10"],
        &["3", "10", "2", "0"],
        &["16", "10", "2"],
        &["3", "16", "2"],
        &["3", "10", "128"],
        &["3", "10", ""],
        &["3", "10", "+2"],
        &["3", "10", "-1"],
        &["3", "10", "2.5"],
        &["3", "10", "0x2"],
        &["3:10", "2", "2"],
    ] {
        assert_eq!(desk(&bytes, bad), None);
    }
}
