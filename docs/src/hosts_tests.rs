//! Tests of two hosts on one box.

use super::*;

const HOSTS: [u8; 5] = [0, 1, 2, 3, 255];

/// An owner list of 16 in which host 1 has the even groups and host 2 the odd ones.
fn shared() -> [u8; 16] {
    std::array::from_fn(|group| 1 + group as u8 % 2)
}

/// Whether a host has a group, by the sentences of the request.
fn has(host: u8, owners: &[u8], group: usize) -> bool {
    (host == 1 || host == 2) && group < owners.len() && owners[group] == host
}

fn up_of(host: u8, owners: &[u8], words: &[u32]) -> (u32, usize, Vec<u32>) {
    let mut table = fresh();
    let result = called(|out| host_up(host, owners, words, &mut table, out));
    assert!(result.0 <= TAKEN_IN || table == fresh());
    result
}

fn down_of(host: u8, owners: &[u8], words: &[u32]) -> (u32, usize, Vec<u32>) {
    called(|out| host_down(host, owners, words, out))
}

/// A good packet of a type in a group.
fn good(message_type: u32, group: u32) -> [u32; 4] {
    let rest = match message_type {
        0 => 0,
        1 => 0xF8_0000,
        2 | 4 => 0x90_3C40,
        3 => 0x12_0102,
        _ => 0x12_3456,
    };
    [message_type << 28 | group << 24 | rest, 0x0304_0506, 7, 8]
}

#[test]
fn a_group_is_open_to_the_host_that_the_list_names_and_to_nobody_else() {
    for host in 0..=255 {
        for number in 0..=255 {
            for group in [0, 7, 15] {
                // The owner asked for differs from all the others in the list.
                let mut owners = [if host == 1 { 2 } else { 1 }; 16];
                owners[group] = number;
                let words = good(2, group as u32);
                let expected = match (host, number) {
                    (1, 1) | (2, 2) => up_fresh(&words),
                    _ => nothing(13, 1),
                };
                assert_eq!(up_of(host, &owners, &words), expected);
            }
        }
    }
}

#[test]
fn groups_past_the_end_of_the_owners_are_nobodys_and_owners_past_the_16th_are_not_looked_at() {
    for length in 0..=40 {
        for host in HOSTS {
            let owners = vec![host; length];
            for group in 0..16 {
                let words = good(2, group as u32);
                let expected = match host {
                    1 | 2 if group < length => up_fresh(&words),
                    _ => nothing(13, 1),
                };
                assert_eq!(up_of(host, &owners, &words), expected);
            }
        }
    }
    let mut owners = vec![1; 16];
    owners.resize(40, 2);
    for group in 0..16 {
        assert_eq!(up_of(2, &owners, &good(1, group)), nothing(13, 1));
    }
}

#[test]
fn types_1_to_5_and_d_are_of_a_group_and_the_others_are_not() {
    for group in 0..16 {
        for message_type in 0..16 {
            let words = good(message_type, group);
            let packet_size = size(words[0]);
            let (up_plain, down_plain) = (up_fresh(&words), down_one(&words));
            assert_eq!(up_of(1, &[1; 16], &words), up_plain);
            assert_eq!(down_of(2, &[2; 16], &words), down_plain);
            let refusal = nothing(NOT_YOUR_GROUP, packet_size);
            let (up_expected, down_expected) = match message_type {
                1 | 3 | 5 | 0xD => (refusal.clone(), refusal),
                2 => (refusal, nothing(WRONG_PROTOCOL, 1)),
                4 => (nothing(WRONG_PROTOCOL, 2), refusal),
                _ => (up_plain, down_plain),
            };
            for (host, owners) in [(1, [2; 16]), (2, [1; 16]), (1, [0; 16]), (0, [0; 16])] {
                assert_eq!(up_of(host, &owners, &words), up_expected);
                assert_eq!(down_of(host, &owners, &words), down_expected);
            }
        }
    }
}

#[test]
fn of_a_packet_13_comes_after_5_and_before_6() {
    let unsound = [record(3, [200; 5]); 256];
    let one = |words: &[u32]| {
        let mut table = unsound;
        let up = host_up(1, &[2; 16], words, &mut table, &mut []);
        assert!(table == unsound);
        (up, host_down(1, &[2; 16], words, &mut []))
    };
    let both = |done| (done, done);
    assert_eq!(one(&[]), both(stopped(CUT)));
    for message_type in [3, 4, 5, 0xD] {
        let words = good(message_type, 9);
        for left in 1..size(words[0]) {
            assert_eq!(one(&words[..left]), both(stopped(CUT)));
        }
    }
    assert_eq!(one(&[0x6000_0000]), both(refused(RESERVED_TYPE, 1)));
    assert_eq!(
        one(&[0xE000_0000, 0, 0, 0]),
        both(refused(RESERVED_TYPE, 4))
    );
    let refusal = |size| refused(NOT_YOUR_GROUP, size);
    // Bad status and bad data of the voice that goes this way, and the wrong protocol of the other.
    for status in 0..16 {
        for data in [0, 0x8080] {
            let words = [0x2000_0000 | status << 20 | data];
            assert_eq!(one(&words), (refusal(1), refused(WRONG_PROTOCOL, 1)));
            let words = [0x4000_0000 | status << 20 | data, u32::MAX];
            assert_eq!(one(&words), (refused(WRONG_PROTOCOL, 2), refusal(2)));
        }
    }
    for word in [0x1000_0000, 0x10F4_0000, 0x10F2_8080] {
        assert_eq!(one(&[word]), both(refusal(1)));
    }
    for word in [0x3040_0000, 0x3007_0000, 0x3006_8080] {
        assert_eq!(one(&[word, 0]), both(refusal(2)));
    }
    assert_eq!(one(&[0x5000_0000, 0, 0, 0]), both(refusal(4)));
    // A utility message has no group.
    assert_eq!(one(&[0x0050_0000]), both(refused(BAD_STATUS, 1)));
    assert_eq!(one(&[0x0000_0000]), both(stopped(OUTPUT_SHORT)));
    assert_eq!(one(&[0xF000_0000, 0, 0, 0]), both(stopped(OUTPUT_SHORT)));
    // 10 comes before all of this.
    for length in [0, 255, 257] {
        let mut table = vec![empty(); length];
        for words in [&[][..], &[0x5000_0000], &[0x2090_3C40], &[0x6000_0000]] {
            let done = host_up(1, &[2; 16], words, &mut table, &mut []);
            assert_eq!(done, stopped(NOT_256_RECORDS));
            let done = host_run_up(1, &[1; 16], words, &mut table, &mut []);
            assert_eq!(done, stopped(NOT_256_RECORDS));
        }
    }
}

#[test]
fn in_its_own_groups_a_host_has_the_answers_of_the_plain_calls() {
    let unsound = record(3, [200; 5]);
    for table in [
        [empty(); 256],
        [unsound; 256],
        [record(ASSIGNABLE, [1; 5]); 256],
    ] {
        for first in [
            0x2070_0000,
            0x2090_3C80,
            0x2090_3C40,
            0x20C0_0500,
            0x20B0_0607,
        ] {
            for room in [0, 1, 2] {
                let (mut one, mut other) = (table, table);
                let (mut out, mut other_out) = ([UNTOUCHED; 2], [UNTOUCHED; 2]);
                let done = host_up(2, &[2], &[first], &mut one, &mut out[..room]);
                let plain = up(&[first], &mut other, &mut other_out[..room]);
                assert_eq!((done, out), (plain, other_out));
                assert!(one == other);
            }
        }
    }
    for first in [
        0x4060_0000,
        0x4070_0000,
        0x4080_8000,
        0x40C0_0001,
        0x4020_7F7F,
        0x4090_3C00,
    ] {
        for room in [0, 1, 3, 4] {
            let (mut out, mut other_out) = ([UNTOUCHED; 4], [UNTOUCHED; 4]);
            let done = host_down(1, &[1], &[first, 0x0102_0304], &mut out[..room]);
            let plain = down(&[first, 0x0102_0304], &mut other_out[..room]);
            assert_eq!((done, out), (plain, other_out));
        }
    }
}

#[test]
fn a_run_of_a_host_goes_on_after_13() {
    let stream = [
        0x21903C40, 0x20903C40, 0x31020102, 5, 0xD1000000, 1, 2, 3, 0xF1000000, 1, 2, 3,
        0x11F80000, 0x20B00001,
    ];
    let mut table = fresh();
    // Another's record may be as it will.
    table[0x10].kind = 9;
    let result = called(|out| host_run_up(1, &shared(), &stream, &mut table, out));
    let words = [0x40903C00, 0x80000000, 0xF1000000, 1, 2, 3];
    assert_eq!(result, sent(14, &words));
    assert_eq!((table[0].bank_high, table[0].keys), (1, keyed(&[60]).keys));
    let result = called(|out| host_run_up(2, &shared(), &stream, &mut table, out));
    assert_eq!(result, nothing(NOT_SOUND, 0));
    let stream = [0x41903C00, 0, 0x40903C00, 0, 0x20903C40, 0x50000000, 1, 2];
    let result = called(|out| host_run_down(2, &shared(), &stream, out));
    assert_eq!(result, (CUT, 5, vec![0x21903C01]));
    let result = called(|out| host_run_down(3, &shared(), &stream, out));
    assert_eq!(result, nothing(CUT, 5));
    let done = host_run_down(1, &shared(), &stream, &mut []);
    assert_eq!(
        done,
        Done {
            read: 2,
            ..stopped(OUTPUT_SHORT)
        }
    );
    assert_eq!(
        host_run_up(0, &[], &[], &mut fresh(), &mut []),
        refused(SENT, 0)
    );
    assert_eq!(host_run_down(0, &[], &[], &mut []), refused(SENT, 0));
}

#[test]
fn the_question_of_a_host_answers_13_after_10_and_24() {
    let table = [keyed(&[3, 63, 64]); 256];
    for host in HOSTS {
        for length in [0, 1, 8, 16, 20] {
            let owners: Vec<u8> = (0..length).map(|group| group % 3).collect();
            for (group, channel) in (0..20).flat_map(|g| (0..20).map(move |c| (g, c))) {
                let expected = match () {
                    _ if group > 15 || channel > 15 => not_shown(24),
                    _ if !has(host, &owners, usize::from(group)) => not_shown(13),
                    _ => shown(3, 3),
                };
                let keys = host_keys_down(host, &owners, &table, group, channel);
                assert_eq!(keys, expected);
                let keys = host_keys_down(host, &owners, &table[1..], group, channel);
                assert_eq!(keys, not_shown(10));
            }
        }
    }
}

#[test]
fn the_mark_of_a_host_answers_13_after_10_and_24_and_before_8() {
    let (sound, unsound) = (record(ASSIGNABLE, [1, 2, 3, 4, 5]), record(3, [200; 5]));
    for host in HOSTS {
        let owners = [1, 2, 0, 3, 255];
        for (group, channel) in (0..18).flat_map(|g| (0..18).map(move |c| (g, c))) {
            for before in [sound, unsound] {
                let mut table = [before; 256];
                let answer = host_mark_coarse(host, &owners, &mut table, group, channel, 7);
                let expected = match () {
                    _ if group > 15 || channel > 15 => 24,
                    _ if !has(host, &owners, usize::from(group)) => 13,
                    _ if before == unsound => 8,
                    _ => 0,
                };
                assert_eq!(answer, expected);
                let mut plain = [before; 256];
                if expected == 0 {
                    assert_eq!(mark_coarse(&mut plain, group, channel, 7), SET);
                }
                assert!(table == plain);
                let mut long = vec![before; 257];
                let answer = host_mark_coarse(host, &owners, &mut long, group, channel, 0);
                assert_eq!((answer, long), (10, vec![before; 257]));
            }
        }
    }
}

#[test]
fn a_group_that_changes_hands_has_16_empty_records_and_no_other_record_changes() {
    let used = Record {
        coarse: COARSE,
        ..keyed(&[0, 60, 127])
    };
    for group in 0..16 {
        for number in 0..=255 {
            for host in 0..3 {
                let mut owners = [7; 20];
                owners[group] = number;
                let (mut table, mut list) = ([used; 256], owners);
                assert_eq!(give_group(&mut list, &mut table, group as u8, host), GIVEN);
                let before = if number == 1 || number == 2 {
                    number
                } else {
                    NOBODY
                };
                let mut expected = [used; 256];
                if host != before {
                    owners[group] = host;
                    expected[16 * group..16 * group + 16].fill(empty());
                }
                assert_eq!(list, owners);
                assert!(table == expected);
            }
        }
    }
}

#[test]
fn the_giving_call_refuses_another_table_and_then_what_is_out_of_range() {
    let used = record(3, [200; 5]);
    for length in [0, 1, 5, 15, 16, 17, 20] {
        for group in (0..=20).chain([127, 128, 255]) {
            for host in (0..=5).chain([128, 255]) {
                let (mut owners, mut table) = (vec![1; length], [used; 256]);
                let fits = group < 16 && usize::from(group) < length && host < 3;
                let expected = if fits { 0 } else { 24 };
                assert_eq!(give_group(&mut owners, &mut table, group, host), expected);
                assert!(fits || (owners == vec![1; length] && table == [used; 256]));
                for records in [0, 255, 257] {
                    let (mut owners, mut table) = (vec![1; length], vec![used; records]);
                    let answer = give_group(&mut owners, &mut table, group, host);
                    assert_eq!(answer, NOT_256_RECORDS);
                    assert_eq!((owners, table), (vec![1; length], vec![used; records]));
                }
            }
        }
    }
}

/// What one host gets back for an event of a history.
#[derive(Debug, PartialEq)]
enum Got {
    Done(Done, Vec<u32>),
    Keys(Keys),
    Answer(u32),
}

/// One event of a history: the host that calls, and for what. A change of owners is by nobody.
#[derive(Clone)]
enum Event {
    Give(u8, u8),
    Up(u8, bool, Vec<u32>, usize),
    Down(u8, bool, Vec<u32>, usize),
    Ask(u8, u8, u8),
    Mark(u8, u8, u8, u8),
}

impl Event {
    fn host(&self) -> Option<u8> {
        match self {
            Event::Give(..) => None,
            Event::Up(host, ..)
            | Event::Down(host, ..)
            | Event::Ask(host, ..)
            | Event::Mark(host, ..) => Some(*host),
        }
    }

    fn happen(&self, owners: &mut [u8], table: &mut [Record]) -> Got {
        let report = |room: &usize, call: &mut dyn FnMut(&mut [u32]) -> Done| {
            let mut out = vec![UNTOUCHED; *room];
            let done = call(&mut out);
            Got::Done(done, out)
        };
        match self {
            Event::Give(group, host) => Got::Answer(give_group(owners, table, *group, *host)),
            Event::Up(host, runs, words, room) => report(room, &mut |out| match runs {
                true => host_run_up(*host, owners, words, table, out),
                false => host_up(*host, owners, words, table, out),
            }),
            Event::Down(host, runs, words, room) => report(room, &mut |out| match runs {
                true => host_run_down(*host, owners, words, out),
                false => host_down(*host, owners, words, out),
            }),
            Event::Ask(host, group, channel) => {
                Got::Keys(host_keys_down(*host, owners, table, *group, *channel))
            }
            Event::Mark(host, group, channel, coarse) => {
                let (group, channel) = (*group, *channel);
                let answer = host_mark_coarse(*host, owners, table, group, channel, *coarse);
                Got::Answer(answer)
            }
        }
    }
}

impl Thrown {
    fn byte(&mut self, from: &[u32]) -> u8 {
        self.of(from) as u8
    }

    /// An event of a host, on few groups and channels.
    fn event(&mut self, host: u8) -> Event {
        let (group, channel) = (self.byte(&[0, 1, 15, 16]), self.byte(&[0, 1, 15, 16]));
        let stream: Vec<u32> = self
            .stream()
            .iter()
            .map(|word| word ^ self.of(&[0, 0x0100_0000]))
            .collect();
        let (room, runs) = (self.room(stream.len()), self.number(2) == 0);
        match self.number(6) {
            0..=2 => Event::Up(host, runs, stream, room),
            3 => Event::Down(host, runs, went_up(&stream, &mut fresh()), room),
            4 => Event::Ask(host, group, channel),
            _ => Event::Mark(host, group, channel, self.byte(&[0, 1])),
        }
    }

    fn give(&mut self) -> Event {
        Event::Give(self.byte(&[0, 1, 15, 16]), self.byte(&[0, 1, 2, 1, 2, 3]))
    }

    fn any_sound_or_not(&mut self) -> Record {
        let (kind, numbers) = match self.number(4) {
            0 => NOT_SOUND_RECORDS[self.number(16) as usize],
            _ => SOUND_RECORDS[self.number(9) as usize],
        };
        Record {
            keys: [u64::from(self.number(1 << 31)), 5],
            ..record(kind, numbers)
        }
    }
}

/// A host's groups hold the same in both tables.
fn agree(host: u8, owners: &[u8], one: &[Record], other: &[Record]) -> bool {
    (0..16)
        .filter(|group| has(host, owners, *group))
        .all(|group| one[16 * group..][..16] == other[16 * group..][..16])
}

/// Two histories with the same changes of owners and the same events of one host, but with other
/// records in groups that are not its own and with other events of the other host in between.
#[test]
fn what_a_host_gets_does_not_depend_on_the_other_host() {
    let mut thrown = Thrown(8);
    let (mut seen, mut differ) = (0, 0);
    for _ in 0..400 {
        let host = thrown.byte(&[1, 2]);
        let length = thrown.of(&[16, 16, 2, 20]) as usize;
        let mut owners: Vec<u8> = (0..length).map(|_| thrown.byte(&[0, 1, 2, 7])).collect();
        let mut one: Vec<Record> = (0..256).map(|_| thrown.any_sound_or_not()).collect();
        let mut other: Vec<Record> = (0..256).map(|_| thrown.any_sound_or_not()).collect();
        for group in (0..16).filter(|group| has(host, &owners, *group)) {
            other[16 * group..][..16].copy_from_slice(&one[16 * group..][..16]);
        }
        for _ in 0..20 {
            let event = match thrown.number(6) {
                0 => thrown.give(),
                _ => thrown.event(host),
            };
            for table in [&mut one, &mut other] {
                for _ in 0..thrown.number(3) {
                    thrown.event(3 - host).happen(&mut owners, table);
                }
            }
            let mut list = owners.clone();
            let got = event.happen(&mut list, &mut one);
            assert_eq!(got, event.happen(&mut owners, &mut other));
            assert_eq!(list, owners);
            assert!(agree(host, &owners, &one, &other));
            seen += usize::from(event.host().is_some());
            differ += usize::from(one != other);
        }
    }
    assert!(seen > 5_000 && differ > 5_000);
}

/// Whatever the old host did, the new one finds what it would find in an empty group.
#[test]
fn nothing_of_the_old_host_can_be_seen_by_the_new_one() {
    let mut thrown = Thrown(9);
    for _ in 0..300 {
        let (mut owners, mut used) = ([1; 16], thrown.marked_table());
        for _ in 0..5 {
            thrown.event(1).happen(&mut owners, &mut used);
        }
        let mut never_used = fresh();
        let mut list = owners;
        for group in 0..16 {
            assert_eq!(give_group(&mut owners, &mut used, group, 2), GIVEN);
            assert_eq!(give_group(&mut list, &mut never_used, group, 2), GIVEN);
        }
        for _ in 0..5 {
            let event = thrown.event(2);
            let got = event.happen(&mut owners, &mut used);
            assert_eq!(got, event.happen(&mut list, &mut never_used));
        }
        assert!(used == never_used);
    }
}

#[test]
fn a_run_of_a_host_is_its_calls_one_after_another() {
    let mut thrown = Thrown(10);
    for _ in 0..500 {
        let (start, stream) = (thrown.marked_table(), thrown.stream());
        let owners = [thrown.byte(&[0, 1, 2]), 2, 1];
        let (mut table, mut place, mut words) = (start, 0, vec![]);
        loop {
            let rest = &stream[place..];
            let (answer, read, sent) = called(|out| host_up(1, &owners, rest, &mut table, out));
            words.extend(sent);
            place += read;
            if answer == CUT {
                break;
            }
        }
        let (mut other, mut out) = (start, vec![0; 2 * stream.len()]);
        let done = host_run_up(1, &owners, &stream, &mut other, &mut out);
        assert_eq!((done.read, &out[..done.written]), (place, &words[..]));
        assert!(table == other);
    }
}

#[test]
fn what_a_host_sent_up_and_down_goes_up_again_as_it_did_under_one_owner_list() {
    let mut thrown = Thrown(11);
    let mut refused = 0;
    for _ in 0..2_000 {
        let (start, stream) = (thrown.marked_table(), thrown.stream());
        let owners: Vec<u8> = (0..16).map(|_| thrown.byte(&[0, 1, 1, 2])).collect();
        let up_for_1 = |words: &[u32]| {
            let mut out = vec![0; 2 * words.len()];
            let done = host_run_up(1, &owners, words, &mut start.clone(), &mut out);
            out.truncate(done.written);
            out
        };
        let down_for_1 = |words: &[u32]| {
            let mut out = vec![0; 2 * words.len()];
            let done = host_run_down(1, &owners, words, &mut out);
            assert_eq!(done.read, words.len());
            out.truncate(done.written);
            out
        };
        let sent_up = up_for_1(&stream);
        let normal = down_for_1(&sent_up);
        assert_eq!(up_for_1(&normal), sent_up);
        assert_eq!(down_for_1(&up_for_1(&normal)), normal);
        // Nothing that was sent up is refused on its way down.
        assert_eq!(went_down(&sent_up), normal);
        refused += usize::from(went_up(&stream, &mut start.clone()) != sent_up);
    }
    assert!(refused > 500);
}
