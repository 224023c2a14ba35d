//! The two sides that are timed, the product's static library and the reading, as functions of the
//! header through the same signatures. They are called through pointers of which the compiler knows
//! nothing, so that neither side is compiled into what times it.

use reading::collector::Collected;
use reading::{as_c, Cable, Chain, Done, Identity, Imported, Keys, Maker, Record};
use std::hint::black_box;

/// Makes the sides from a list of the header's signatures, each with the functions that have it: the
/// reading's name, and the product's.
macro_rules! sides {
    ($($signature:ident $lent:tt -> $report:ty: $($name:ident $full_name:ident)*;)*) => {
        $(pub type $signature = unsafe extern "C" fn $lent -> $report;)*

        #[link(name = "quernbrae", kind = "static")]
        extern "C" {
            $($(fn $full_name $lent -> $report;)*)*
        }

        /// The functions of one side.
        #[derive(Clone, Copy)]
        pub struct Side {
            $($(pub $name: $signature,)*)*
        }

        pub fn product() -> Side {
            Side { $($($name: black_box($full_name as $signature),)*)* }
        }

        pub fn reading() -> Side {
            Side { $($($name: black_box(as_c::$name as $signature),)*)* }
        }
    };
}

sides! {
    GoUp(
        words: *const u32, words_len: usize,
        table: *mut Record, table_len: usize,
        out: *mut u32, out_len: usize
    ) -> Done:
        up quernbrae_up
        run_up quernbrae_run_up
        beginners_up quernbrae_beginners_up
        beginners_run_up quernbrae_beginners_run_up;
    Lesson(
        words: *const u32, words_len: usize,
        coarse: *const u16, coarse_len: usize,
        out: *mut u32, out_len: usize
    ) -> Done:
        lesson quernbrae_lesson;
    GoDown(words: *const u32, words_len: usize, out: *mut u32, out_len: usize) -> Done:
        down quernbrae_down
        run_down quernbrae_run_down;
    Only(
        words: *const u32, words_len: usize,
        group: u8, channel: u8,
        out: *mut u32, out_len: usize
    ) -> Done:
        only quernbrae_only;
    AskKeys(table: *const Record, table_len: usize, group: u8, channel: u8) -> Keys:
        keys_down quernbrae_keys_down;
    Mark(table: *mut Record, table_len: usize, group: u8, channel: u8, coarse: u8) -> u32:
        mark_coarse quernbrae_mark_coarse;
    HostGoUp(
        host: u8, owners: *const u8, owners_len: usize,
        words: *const u32, words_len: usize,
        table: *mut Record, table_len: usize,
        out: *mut u32, out_len: usize
    ) -> Done:
        host_up quernbrae_host_up
        host_run_up quernbrae_host_run_up;
    HostGoDown(
        host: u8, owners: *const u8, owners_len: usize,
        words: *const u32, words_len: usize,
        out: *mut u32, out_len: usize
    ) -> Done:
        host_down quernbrae_host_down
        host_run_down quernbrae_host_run_down;
    HostAskKeys(
        host: u8, owners: *const u8, owners_len: usize,
        table: *const Record, table_len: usize,
        group: u8, channel: u8
    ) -> Keys:
        host_keys_down quernbrae_host_keys_down;
    HostMark(
        host: u8, owners: *const u8, owners_len: usize,
        table: *mut Record, table_len: usize,
        group: u8, channel: u8, coarse: u8
    ) -> u32:
        host_mark_coarse quernbrae_host_mark_coarse;
    Give(
        owners: *mut u8, owners_len: usize,
        table: *mut Record, table_len: usize,
        group: u8, host: u8
    ) -> u32:
        give_group quernbrae_give_group;
    ComeIn(
        cable: Cable, group: u8,
        bytes: *const u8, bytes_len: usize,
        out: *mut u32, out_len: usize
    ) -> Imported:
        import quernbrae_import
        run_import quernbrae_run_import;
    GoOut(
        group: u8,
        words: *const u32, words_len: usize,
        out: *mut u8, out_len: usize
    ) -> Done:
        export quernbrae_export
        run_export quernbrae_run_export;
    IdentityNew(old: *const u8, old_len: usize) -> Identity:
        identity_new quernbrae_identity_new;
    IdentityOld(number: u16) -> Maker:
        identity_old quernbrae_identity_old;
    Empty() -> Record:
        empty quernbrae_empty;
    CableIdle() -> Cable:
        cable_idle quernbrae_cable_idle;
    Collect(
        chains: *mut Chain, chains_len: usize,
        buffer: *mut u8, buffer_len: usize,
        words: *const u32, words_len: usize
    ) -> Collected:
        collect quernbrae_collect
        run_collect quernbrae_run_collect;
    ChainClosed() -> Chain:
        chain_closed quernbrae_chain_closed;
}

/// The two lists of a host's calls: whose call it is, and who has which group.
#[derive(Clone, Copy)]
pub struct Guest<'a> {
    pub host: u8,
    pub owners: &'a [u8],
}

// Each of these lends slices to a call, so that every pointer is that of so many elements.

#[inline(always)]
pub fn go_up(call: GoUp, words: &[u32], table: &mut [Record], out: &mut [u32]) -> Done {
    let (table_len, out_len) = (table.len(), out.len());
    let (table, out) = (table.as_mut_ptr(), out.as_mut_ptr());
    unsafe { call(words.as_ptr(), words.len(), table, table_len, out, out_len) }
}

#[inline(always)]
pub fn go_down(call: GoDown, words: &[u32], out: &mut [u32]) -> Done {
    unsafe { call(words.as_ptr(), words.len(), out.as_mut_ptr(), out.len()) }
}

#[inline(always)]
pub fn lesson(call: Lesson, words: &[u32], coarse: &[u16], out: &mut [u32]) -> Done {
    let (coarse, coarse_len) = (coarse.as_ptr(), coarse.len());
    let (out, out_len) = (out.as_mut_ptr(), out.len());
    unsafe {
        call(
            words.as_ptr(),
            words.len(),
            coarse,
            coarse_len,
            out,
            out_len,
        )
    }
}

#[inline(always)]
pub fn only(call: Only, words: &[u32], group: u8, channel: u8, out: &mut [u32]) -> Done {
    let (out, out_len) = (out.as_mut_ptr(), out.len());
    unsafe { call(words.as_ptr(), words.len(), group, channel, out, out_len) }
}

#[inline(always)]
pub fn host_go_up(
    call: HostGoUp,
    guest: Guest,
    words: &[u32],
    table: &mut [Record],
    out: &mut [u32],
) -> Done {
    let (host, owners, owners_len) = (guest.host, guest.owners.as_ptr(), guest.owners.len());
    let (words, words_len) = (words.as_ptr(), words.len());
    let (table, table_len) = (table.as_mut_ptr(), table.len());
    let (out, out_len) = (out.as_mut_ptr(), out.len());
    unsafe {
        call(
            host, owners, owners_len, words, words_len, table, table_len, out, out_len,
        )
    }
}

#[inline(always)]
pub fn host_go_down(call: HostGoDown, guest: Guest, words: &[u32], out: &mut [u32]) -> Done {
    let (host, owners, owners_len) = (guest.host, guest.owners.as_ptr(), guest.owners.len());
    let (words, words_len) = (words.as_ptr(), words.len());
    unsafe {
        call(
            host,
            owners,
            owners_len,
            words,
            words_len,
            out.as_mut_ptr(),
            out.len(),
        )
    }
}

#[inline(always)]
pub fn come_in(call: ComeIn, cable: Cable, group: u8, bytes: &[u8], out: &mut [u32]) -> Imported {
    let (out, out_len) = (out.as_mut_ptr(), out.len());
    unsafe { call(cable, group, bytes.as_ptr(), bytes.len(), out, out_len) }
}

#[inline(always)]
pub fn go_out(call: GoOut, group: u8, words: &[u32], out: &mut [u8]) -> Done {
    let (out, out_len) = (out.as_mut_ptr(), out.len());
    unsafe { call(group, words.as_ptr(), words.len(), out, out_len) }
}

#[inline(always)]
pub fn ask_keys(call: AskKeys, table: &[Record], group: u8, channel: u8) -> Keys {
    unsafe { call(table.as_ptr(), table.len(), group, channel) }
}

#[inline(always)]
pub fn mark(call: Mark, table: &mut [Record], group: u8, channel: u8, coarse: u8) -> u32 {
    unsafe { call(table.as_mut_ptr(), table.len(), group, channel, coarse) }
}

#[inline(always)]
pub fn host_ask_keys(
    call: HostAskKeys,
    guest: Guest,
    table: &[Record],
    group: u8,
    channel: u8,
) -> Keys {
    let (host, owners, owners_len) = (guest.host, guest.owners.as_ptr(), guest.owners.len());
    let (table, table_len) = (table.as_ptr(), table.len());
    unsafe { call(host, owners, owners_len, table, table_len, group, channel) }
}

#[inline(always)]
pub fn host_mark(
    call: HostMark,
    guest: Guest,
    table: &mut [Record],
    group: u8,
    channel: u8,
    coarse: u8,
) -> u32 {
    let (host, owners, owners_len) = (guest.host, guest.owners.as_ptr(), guest.owners.len());
    let (table, table_len) = (table.as_mut_ptr(), table.len());
    unsafe {
        call(
            host, owners, owners_len, table, table_len, group, channel, coarse,
        )
    }
}

#[inline(always)]
pub fn give(call: Give, owners: &mut [u8], table: &mut [Record], group: u8, host: u8) -> u32 {
    let (owners, owners_len) = (owners.as_mut_ptr(), owners.len());
    let (table, table_len) = (table.as_mut_ptr(), table.len());
    unsafe { call(owners, owners_len, table, table_len, group, host) }
}

#[inline(always)]
pub fn identity_new(call: IdentityNew, old: &[u8]) -> Identity {
    unsafe { call(old.as_ptr(), old.len()) }
}

#[inline(always)]
pub fn identity_old(call: IdentityOld, number: u16) -> Maker {
    unsafe { call(number) }
}

/// What a call gives that is lent nothing.
#[inline(always)]
pub fn begin<T>(call: unsafe extern "C" fn() -> T) -> T {
    black_box(unsafe { call() })
}

#[inline(always)]
pub fn gather(call: Collect, chains: &mut [Chain], buffer: &mut [u8], words: &[u32]) -> Collected {
    let (chains, chains_len) = (chains.as_mut_ptr(), chains.len());
    let (buffer, buffer_len) = (buffer.as_mut_ptr(), buffer.len());
    let (words, words_len) = (words.as_ptr(), words.len());
    unsafe { call(chains, chains_len, buffer, buffer_len, words, words_len) }
}
