//! One pupil's packets out of a stream, for a replay: read from request M-108 and from the build
//! specification's packet sizes and answers.

use crate::{decimal, filter, size, stopped, Done, ABOVE_15, CUT, OUTPUT_SHORT, SENT};

/// Hands back the MIDI 1.0 voices of a channel of a group, whatever is in them, and steps over all
/// other packets.
pub fn only(words: &[u32], group: u8, channel: u8, out: &mut [u32]) -> Done {
    if group > 15 || channel > 15 {
        return stopped(ABOVE_15);
    }
    let mut done = stopped(SENT);
    while let Some(rest @ [first, ..]) = words.get(done.read..) {
        if is_voice_of(*first, group, channel) {
            let Some(place) = out.get_mut(done.written) else {
                done.answer = OUTPUT_SHORT;
                break;
            };
            *place = *first;
            done.written += 1;
            done.read += 1;
        } else if is_voice(*first) {
            done.read += 1;
        } else if size(*first) <= rest.len() {
            done.read += size(*first);
        } else {
            done.answer = CUT;
            break;
        }
    }
    done
}

fn is_voice(first: u32) -> bool {
    first >> 28 == 2
}

fn is_voice_of(first: u32, group: u8, channel: u8) -> bool {
    let own = u32::from_be_bytes([0x20 | group, channel, 0, 0]);
    first & 0xFF0F_0000 == own
}

/// The standard output of the program for this standard input. There is none if the arguments are
/// not a group and a channel.
pub fn only_filter(bytes: &[u8], arguments: &[&str]) -> Option<Vec<u8>> {
    let [group, channel] = arguments else {
        return None;
    };
    let (group, channel) = (decimal(group)?, decimal(channel)?);
    (group <= 15 && channel <= 15)
        .then(|| filter(bytes, |words, out| only(words, group, channel, out)))
}

#[cfg(test)]
mod tests {
    use super::*;
    use crate::{empty, run_up, up, Record};

    /// What is handed back, with room for eight words.
    fn handed(words: &[u32], group: u8, channel: u8) -> (u32, usize, Vec<u32>) {
        let mut out = [0xAAAA_AAAA; 8];
        let done = only(words, group, channel, &mut out);
        assert!(out[done.written..].iter().all(|word| *word == 0xAAAA_AAAA));
        assert_eq!(done.place, 0);
        (done.answer, done.read, out[..done.written].to_vec())
    }

    #[test]
    fn a_channel_of_a_group_is_handed_back_in_order() {
        let words = [
            0x2390_3C40,
            0x2391_3C40,
            0x2490_3C40,
            0x23B0_0001,
            0x2093_3C40,
            0x23C0_0500,
        ];
        let own = vec![0x2390_3C40, 0x23B0_0001, 0x23C0_0500];
        assert_eq!(handed(&words, 3, 0), (SENT, 6, own));
        assert_eq!(handed(&words, 3, 1), (SENT, 6, vec![0x2391_3C40]));
        assert_eq!(handed(&words, 0, 3), (SENT, 6, vec![0x2093_3C40]));
        assert_eq!(handed(&words, 15, 15), (SENT, 6, vec![]));
    }

    #[test]
    fn refused_packets_are_handed_back_unchanged() {
        let words = [
            0x2070_0000,
            0x20F0_0000,
            0x2090_3C80,
            0x20B0_FF00,
            0x20C0_00FF,
        ];
        assert_eq!(handed(&words, 0, 0), (SENT, 5, words.to_vec()));
    }

    #[test]
    fn other_types_are_stepped_over_with_all_their_words() {
        let voice = 0x2A9B_3C40;
        let words = [
            0x4A9B_3C00,
            voice,
            0xDA0B_0000,
            voice,
            voice,
            voice,
            0xBA0B_0000,
            voice,
            voice,
            voice,
        ];
        assert_eq!(handed(&words, 10, 11), (SENT, 10, vec![voice]));
    }

    #[test]
    fn a_cut_packet_stops_and_what_came_before_it_stands() {
        let words = [0x2090_3C40, 0x3000_0000];
        assert_eq!(handed(&words, 0, 0), (CUT, 1, vec![0x2090_3C40]));
        assert_eq!(handed(&[], 0, 0), (SENT, 0, vec![]));
        assert_eq!(handed(&[0x4090_3C00], 0, 0), (CUT, 0, vec![]));
    }

    #[test]
    fn room_is_asked_for_at_the_channels_own_packets_alone() {
        let words = [0x2091_3C40, 0x2090_3C40, 0x2091_3C40, 0x2090_3D40];
        for (room, answer, read) in [(0, OUTPUT_SHORT, 1), (1, OUTPUT_SHORT, 3), (2, SENT, 4)] {
            let mut out = vec![0; room];
            let done = only(&words, 0, 0, &mut out);
            assert_eq!((done.answer, done.read, done.written), (answer, read, room));
        }
    }

    #[test]
    fn a_group_or_a_channel_above_15_comes_first() {
        for (group, channel) in [(16, 0), (0, 16), (255, 255)] {
            assert_eq!(
                handed(&[0x4090_3C00], group, channel),
                (ABOVE_15, 0, vec![])
            );
        }
    }

    #[test]
    fn the_program_takes_a_group_and_a_channel() {
        let bytes = [0x21, 0x90, 0x3C, 0x40, 0x20, 0x91, 0x3C, 0x40, 0x21];
        let output = only_filter(&bytes, &["01", "0"]);
        assert_eq!(output, Some(bytes[..4].to_vec()));
        for arguments in [
            &[][..],
            &["1"],
            &["1", "16"],
            &["1", "0", "0"],
            &["1:0", "0"],
            &["", "0"],
        ] {
            assert_eq!(only_filter(&bytes, arguments), None);
        }
    }

    /// Packets of four channels that use the same controllers, refused ones among them.
    fn mixed(count: u32) -> Vec<u32> {
        const DATA: [u32; 11] = [
            0xB0_0001, 0xB0_2002, 0xC0_0500, 0xB0_6501, 0xB0_6402, 0xB0_0603, 0xB0_2604, 0x90_3C40,
            0x90_3C80, 0x70_0000, 0x80_3C40,
        ];
        let place = |n: u32| (n * n / 3 & 1) << 24 | (n * n / 7 & 1) << 16;
        (0..count)
            .flat_map(|n| match n % 9 {
                8 => vec![0x4090_3C00 | place(n), 0x2090_3C40],
                _ => vec![0x2000_0000 | place(n) | DATA[(n * n / 5 % 11) as usize] + n % 3],
            })
            .collect()
    }

    #[test]
    fn a_replay_is_fair() {
        let words = mixed(2000);
        for (group, channel) in [(0, 0), (0, 1), (1, 0), (1, 1)] {
            let mut table = [empty(); 256];
            let (mut heard, mut place) = (vec![], 0);
            while place < words.len() {
                let mut out = [0; 4];
                let done = up(&words[place..], &mut table, &mut out);
                if is_voice_of(words[place], group, channel) {
                    heard.extend(&out[..done.written]);
                }
                place += done.read;
            }
            let mut own = vec![0; words.len()];
            let handed = only(&words, group, channel, &mut own);
            let mut replayed: [Record; 256] = [empty(); 256];
            let mut out = vec![0; 2 * words.len()];
            let done = run_up(&own[..handed.written], &mut replayed, &mut out);
            let number = 16 * usize::from(group) + usize::from(channel);
            assert!(heard.len() > 100);
            assert_eq!(out[..done.written], heard);
            assert_eq!(replayed[number], table[number]);
        }
    }
}
