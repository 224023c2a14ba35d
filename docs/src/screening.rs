//! Packets one by one, and what each is refused for by itself, whichever way it would go.

use crate::{bad_data, check_packet, refused, size, Done, BAD_DATA};

/// The packet at the start of the words, if all of it is there.
pub fn whole_packet(words: &[u32]) -> Option<&[u32]> {
    words.get(..size(*words.first()?))
}

/// The answer for a whole packet: 4, 6 or 7, the last with its place, and 0 for a good packet. A
/// voice is held to the rules of its own protocol, so neither protocol is the wrong one.
pub fn screened(packet: &[u32]) -> Done {
    match check_packet(packet) {
        BAD_DATA => bad_data(packet),
        answer => refused(answer, packet.len()),
    }
}
