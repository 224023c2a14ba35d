//! What a comparison has seen of one channel's packets alone.

use reading::{size, ABOVE_15, CUT, OUTPUT_SHORT, SENT};

/// How many packets of each sort stood before the end of what was read: the channel's own by status,
/// MIDI 1.0 voices that share its group or its channel alone, and other types with both.
pub struct Replays {
    own: [usize; 16],
    bad_data: usize,
    same_group: usize,
    same_channel: usize,
    other_types: [usize; 16],
    compared: usize,
}

impl Replays {
    pub fn new() -> Replays {
        Replays {
            own: [0; 16],
            bad_data: 0,
            same_group: 0,
            same_channel: 0,
            other_types: [0; 16],
            compared: 0,
        }
    }

    /// Counts the packets of the words that were read, for a group and a channel.
    pub fn count(&mut self, words: &[u32], [group, channel]: [u8; 2]) {
        let mut place = 0;
        while let Some(first) = words.get(place) {
            let [its_type, its_group] = [first >> 28, first >> 24 & 15];
            let [status, its_channel] = [first >> 20 & 15, first >> 16 & 15];
            let in_group = its_group == u32::from(group);
            let on_channel = its_channel == u32::from(channel);
            match (its_type, in_group, on_channel) {
                (2, true, true) => {
                    self.own[status as usize] += 1;
                    self.bad_data += usize::from(first & 0x8080 != 0);
                }
                (2, true, false) => self.same_group += 1,
                (2, false, true) => self.same_channel += 1,
                (_, true, true) => self.other_types[its_type as usize] += 1,
                _ => (),
            }
            place += size(*first);
        }
    }

    /// Counts a replay that sent what the whole stream sends for its channel.
    pub fn count_fair(&mut self) {
        self.compared += 1;
    }

    /// Prints the counts; false if a sort never came.
    pub fn summary(&self) -> bool {
        let (own, bad_data) = (self.own, self.bad_data);
        let beside = [self.same_group, self.same_channel];
        println!("handed back by status {own:?}, with bad data {bad_data}");
        println!("passed over of the group alone, of the channel alone: {beside:?}");
        println!("passed over by type {:?}", self.other_types);
        println!("{} replays sent what the whole stream sends", self.compared);
        let mut others = self.other_types.iter().enumerate();
        own.iter().chain(&beside).all(|count| *count > 0)
            && others.all(|(its_type, count)| its_type == 2 || *count > 0)
            && bad_data > 0
            && self.compared > 0
    }
}

/// The answers that can occur.
pub const ANSWERS: [usize; 4] = [
    SENT as usize,
    CUT as usize,
    OUTPUT_SHORT as usize,
    ABOVE_15 as usize,
];
