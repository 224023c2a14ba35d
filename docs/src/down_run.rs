//! The run down, which is the calls for its packets one after another. It is written for speed: a
//! packet that sends nothing is passed over, and nobody asks for its answer.

use crate::{
    check_four_words, check_one_word, check_two_words, down_voice, size, Done, Outlet, CUT,
    OUTPUT_SHORT, SENT,
};

/// Treats packet after packet, going down.
pub fn run_down(words: &[u32], out: &mut [u32]) -> Done {
    let mut run = Run {
        words,
        read: 0,
        out,
        written: 0,
    };
    let answer = run.go_to_the_end().err().unwrap_or(SENT);
    Done {
        answer,
        place: 0,
        read: run.read,
        written: run.written,
    }
}

/// How far a run has come.
struct Run<'a> {
    words: &'a [u32],
    read: usize,
    out: &'a mut [u32],
    written: usize,
}

impl Run<'_> {
    /// Takes all packets, up to one that is cut or has no room.
    #[inline(always)]
    fn go_to_the_end(&mut self) -> Result<(), u32> {
        while let Some(first) = self.words.get(self.read) {
            if first >> 28 == 4 {
                let second = self.words.get(self.read + 1).ok_or(CUT)?;
                down_voice(*first, *second, self)?;
                self.read += 2;
            } else {
                let packet = self.words[self.read..].get(..size(*first)).ok_or(CUT)?;
                self.other(packet)?;
                self.read += packet.len();
            }
        }
        Ok(())
    }

    /// Sends a packet that goes on unchanged; neither MIDI 1.0 voices nor what is refused does.
    #[inline(always)]
    fn other(&mut self, packet: &[u32]) -> Result<(), u32> {
        match *packet {
            [word] if check_one_word(word) == SENT => self.send([word]),
            [first, second] if check_two_words(first, second) == SENT => self.send([first, second]),
            [first, second, third, fourth] if check_four_words(first) == SENT => {
                self.send([first, second, third, fourth])
            }
            _ => Ok(()),
        }
    }
}

impl Outlet for Run<'_> {
    type Said = Result<(), u32>;

    /// Sends words, if there is room for them.
    #[inline(always)]
    fn send<const COUNT: usize>(&mut self, words: [u32; COUNT]) -> Result<(), u32> {
        let room = self.out.get_mut(self.written..).ok_or(OUTPUT_SHORT)?;
        let place = room.get_mut(..COUNT).ok_or(OUTPUT_SHORT)?;
        place.copy_from_slice(&words);
        self.written += COUNT;
        Ok(())
    }

    #[inline(always)]
    fn refuse(&mut self, _: u32, _: u32) -> Result<(), u32> {
        Ok(())
    }
}

#[cfg(test)]
mod tests {
    use super::*;
    use crate::down;

    const UNTOUCHED: u32 = 0xAAAA_AAAA;

    /// Single calls one after another, until one is cut or has no room.
    fn calls(words: &[u32], out: &mut [u32]) -> Done {
        let mut total = Done {
            answer: SENT,
            place: 0,
            read: 0,
            written: 0,
        };
        while total.read < words.len() && total.answer == SENT {
            let one = down(&words[total.read..], &mut out[total.written..]);
            total.read += one.read;
            total.written += one.written;
            if let CUT | OUTPUT_SHORT = one.answer {
                total.answer = one.answer;
            }
        }
        total
    }

    /// Fails unless a run does what its calls do, with room for none to all of its words.
    fn hold(words: &[u32]) {
        let most = calls(words, &mut vec![0; 2 * words.len()]).written;
        for room in 0..=most {
            let mut outs = [(); 2].map(|_| vec![UNTOUCHED; room]);
            let expected = calls(words, &mut outs[0]);
            assert_eq!(run_down(words, &mut outs[1]), expected, "{words:08X?}");
            assert_eq!(outs[0], outs[1], "{words:08X?}");
        }
    }

    #[test]
    fn a_run_over_thrown_words_is_its_calls() {
        let mut seed: u64 = 1;
        let mut word = || {
            seed = seed.wrapping_mul(6_364_136_223_846_793_005).wrapping_add(1);
            (seed >> 32) as u32
        };
        for count in 0..4_000 {
            let words = (0..count % 24).map(|_| match word() % 3 {
                0 => word(),
                1 => 0x4000_0000 | word() & 0x00FF_7F7F,
                _ => word() & 0x7F7F_7F7F,
            });
            hold(&words.collect::<Vec<_>>());
        }
    }

    #[test]
    fn a_run_over_a_packet_of_every_head_is_its_calls() {
        for head in 0..1 << 16 {
            for low in [0, 0x0001, 0x7F7F, 0x8000, 0x0080] {
                hold(&[head << 16 | low, 0x7F01_0203, 0x8000_0000, 4]);
            }
        }
        for low in 0..1 << 16 {
            for status in [0x2, 0x3, 0x9, 0xB, 0xC] {
                hold(&[0x4000_0000 | status << 20 | low, 0x0101_8000]);
            }
        }
    }
}
