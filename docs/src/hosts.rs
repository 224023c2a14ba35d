//! Two hosts on one box: whose a group is, what one host may call for, and how a group changes hands.

use super::{
    down_packet, empty, keys_down, mark_coarse, no_keys, refused, run, run_up_unless, size,
    stopped, up_packet, whole_table, Done, Keys, Record, ABOVE_15, ANY_ROOM, LENT, NOT_256_RECORDS,
};

// Calls of a host have this one between 5 and 6, and after 24 where there is no packet.
pub const NOT_YOUR_GROUP: u32 = 13;

// The giving call has this one, and 10 and 24.
pub const GIVEN: u32 = 0;

/// Stands for a group's owner where that is neither host.
pub const NOBODY: u8 = 0;

/// Host 1, host 2 or nobody: whose a group is by the list of owners.
fn owner(owners: &[u8], group: u8) -> u8 {
    match owners.get(usize::from(group)) {
        Some(host @ (1 | 2)) => *host,
        _ => NOBODY,
    }
}

/// One of the two hosts, with the list of owners that holds while it calls.
#[derive(Clone, Copy)]
struct Guest<'a> {
    host: u8,
    owners: &'a [u8],
}

impl Guest<'_> {
    /// Other hosts than these two own nothing, not even what is nobody's.
    fn owns(self, group: u8) -> bool {
        matches!(self.host, 1 | 2) && owner(self.owners, group) == self.host
    }

    /// The groups of this host, which a run asks for once.
    fn groups(self) -> Groups {
        let own = (0..16).filter(|group| self.owns(*group));
        Groups(own.fold(0, |groups, group| groups | 1 << group))
    }

    /// Whether a call for a channel fails by its group alone.
    fn is_shut_out(self, records: usize, group: u8, channel: u8) -> bool {
        records == 256 && group < 16 && channel < 16 && !self.owns(group)
    }
}

/// A set of groups: bit g is 1 if group g is in it.
#[derive(Clone, Copy)]
struct Groups(u16);

impl Groups {
    fn has(self, group: u8) -> bool {
        self.0 >> group & 1 == 1
    }
}

/// The refusal of the packet at the start of the words, if it is whole, of a type that has a group,
/// not of the wrong protocol, and not for a group of the host.
#[inline(always)]
fn refusal(words: &[u32], voice_type: u32, owns: impl Fn(u8) -> bool) -> Option<Done> {
    let word = *words.first()?;
    let message_type = word >> 28;
    let has_group = matches!(message_type, 1 | 3 | 5 | 0xD) || message_type == voice_type;
    let stays_out = has_group && !owns((word >> 24 & 15) as u8) && size(word) <= words.len();
    stays_out.then(|| refused(NOT_YOUR_GROUP, size(word)))
}

/// Treats the packet at the start of a host's words, going up.
#[inline(always)]
pub fn host_up(
    host: u8,
    owners: &[u8],
    words: &[u32],
    table: &mut [Record],
    out: &mut [u32],
) -> Done {
    let guest = Guest { host, owners };
    match whole_table(table) {
        Some(table) => refusal(words, 2, |group| guest.owns(group))
            .unwrap_or_else(|| up_packet::<LENT, ANY_ROOM>(words, table, out)),
        None => stopped(NOT_256_RECORDS),
    }
}

/// Treats packet after packet of a host, going up.
pub fn host_run_up(
    host: u8,
    owners: &[u8],
    words: &[u32],
    table: &mut [Record],
    out: &mut [u32],
) -> Done {
    let groups = Guest { host, owners }.groups();
    run_up_unless::<ANY_ROOM>(words, table, out, |words| {
        refusal(words, 2, |group| groups.has(group))
    })
}

/// Treats the packet at the start of a host's words, going down.
#[inline(always)]
pub fn host_down(host: u8, owners: &[u8], words: &[u32], out: &mut [u32]) -> Done {
    let guest = Guest { host, owners };
    refusal(words, 4, |group| guest.owns(group)).unwrap_or_else(|| down_packet(words, out))
}

/// Treats packet after packet of a host, going down.
pub fn host_run_down(host: u8, owners: &[u8], words: &[u32], out: &mut [u32]) -> Done {
    let groups = Guest { host, owners }.groups();
    run(words, out, |words, out| {
        refusal(words, 4, |group| groups.has(group)).unwrap_or_else(|| down_packet(words, out))
    })
}

/// How many keys are down on a channel of a group that is the host's, and the lowest of them.
pub fn host_keys_down(host: u8, owners: &[u8], table: &[Record], group: u8, channel: u8) -> Keys {
    if (Guest { host, owners }).is_shut_out(table.len(), group, channel) {
        return no_keys(NOT_YOUR_GROUP);
    }
    keys_down(table, group, channel)
}

/// Marks a channel of a group that is the host's coarse, or takes its mark off where `coarse` is 0.
pub fn host_mark_coarse(
    host: u8,
    owners: &[u8],
    table: &mut [Record],
    group: u8,
    channel: u8,
    coarse: u8,
) -> u32 {
    if (Guest { host, owners }).is_shut_out(table.len(), group, channel) {
        return NOT_YOUR_GROUP;
    }
    mark_coarse(table, group, channel, coarse)
}

/// Gives a group to host 1, to host 2 or to nobody. If that changes its owner, its records start
/// empty.
pub fn give_group(owners: &mut [u8], table: &mut [Record], group: u8, host: u8) -> u32 {
    let Some(table) = whole_table(table) else {
        return NOT_256_RECORDS;
    };
    let place = usize::from(group);
    if group > 15 || place >= owners.len() || host > 2 {
        return ABOVE_15;
    }
    if owner(owners, group) != host {
        owners[place] = host;
        table[16 * place..][..16].fill(empty());
    }
    GIVEN
}
