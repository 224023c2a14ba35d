//! The calls of the reading as C makes them: what is lent comes as a pointer and a length, and a
//! report goes back by value. So both sides can be timed through one signature.
//!
//! Every pointer here must be that of so many elements as the length behind it says, lent for the
//! call and to nobody else.

use crate::collector::{self, Collected};
use crate::{Cable, Chain, Done, Identity, Imported, Keys, Maker, Record};
use std::slice::{from_raw_parts, from_raw_parts_mut};

/// Calls that go up over a lent table.
macro_rules! going_up {
    ($($name:ident)*) => {$(
        pub unsafe extern "C" fn $name(
            words: *const u32,
            words_len: usize,
            table: *mut Record,
            table_len: usize,
            out: *mut u32,
            out_len: usize,
        ) -> Done {
            let words = from_raw_parts(words, words_len);
            let table = from_raw_parts_mut(table, table_len);
            crate::$name(words, table, from_raw_parts_mut(out, out_len))
        }
    )*};
}

going_up! { up run_up beginners_up beginners_run_up }

/// Calls that go down.
macro_rules! going_down {
    ($($name:ident)*) => {$(
        pub unsafe extern "C" fn $name(
            words: *const u32,
            words_len: usize,
            out: *mut u32,
            out_len: usize,
        ) -> Done {
            let words = from_raw_parts(words, words_len);
            crate::$name(words, from_raw_parts_mut(out, out_len))
        }
    )*};
}

going_down! { down run_down }

/// Calls of a host that go up over a lent table.
macro_rules! host_going_up {
    ($($name:ident)*) => {$(
        pub unsafe extern "C" fn $name(
            host: u8,
            owners: *const u8,
            owners_len: usize,
            words: *const u32,
            words_len: usize,
            table: *mut Record,
            table_len: usize,
            out: *mut u32,
            out_len: usize,
        ) -> Done {
            let owners = from_raw_parts(owners, owners_len);
            let words = from_raw_parts(words, words_len);
            let table = from_raw_parts_mut(table, table_len);
            crate::$name(host, owners, words, table, from_raw_parts_mut(out, out_len))
        }
    )*};
}

host_going_up! { host_up host_run_up }

/// Calls of a host that go down.
macro_rules! host_going_down {
    ($($name:ident)*) => {$(
        pub unsafe extern "C" fn $name(
            host: u8,
            owners: *const u8,
            owners_len: usize,
            words: *const u32,
            words_len: usize,
            out: *mut u32,
            out_len: usize,
        ) -> Done {
            let owners = from_raw_parts(owners, owners_len);
            let words = from_raw_parts(words, words_len);
            crate::$name(host, owners, words, from_raw_parts_mut(out, out_len))
        }
    )*};
}

host_going_down! { host_down host_run_down }

/// Calls that take bytes from a cable.
macro_rules! coming_in {
    ($($name:ident)*) => {$(
        pub unsafe extern "C" fn $name(
            cable: Cable,
            group: u8,
            bytes: *const u8,
            bytes_len: usize,
            out: *mut u32,
            out_len: usize,
        ) -> Imported {
            let bytes = from_raw_parts(bytes, bytes_len);
            crate::$name(cable, group, bytes, from_raw_parts_mut(out, out_len))
        }
    )*};
}

coming_in! { import run_import }

/// Calls that make bytes for a cable.
macro_rules! going_out {
    ($($name:ident)*) => {$(
        pub unsafe extern "C" fn $name(
            group: u8,
            words: *const u32,
            words_len: usize,
            out: *mut u8,
            out_len: usize,
        ) -> Done {
            let words = from_raw_parts(words, words_len);
            crate::$name(group, words, from_raw_parts_mut(out, out_len))
        }
    )*};
}

going_out! { export run_export }

pub unsafe extern "C" fn lesson(
    words: *const u32,
    words_len: usize,
    coarse: *const u16,
    coarse_len: usize,
    out: *mut u32,
    out_len: usize,
) -> Done {
    let words = from_raw_parts(words, words_len);
    let coarse = from_raw_parts(coarse, coarse_len);
    crate::lesson(words, coarse, from_raw_parts_mut(out, out_len))
}

pub unsafe extern "C" fn only(
    words: *const u32,
    words_len: usize,
    group: u8,
    channel: u8,
    out: *mut u32,
    out_len: usize,
) -> Done {
    let words = from_raw_parts(words, words_len);
    crate::only(words, group, channel, from_raw_parts_mut(out, out_len))
}

pub unsafe extern "C" fn keys_down(
    table: *const Record,
    table_len: usize,
    group: u8,
    channel: u8,
) -> Keys {
    crate::keys_down(from_raw_parts(table, table_len), group, channel)
}

pub unsafe extern "C" fn mark_coarse(
    table: *mut Record,
    table_len: usize,
    group: u8,
    channel: u8,
    coarse: u8,
) -> u32 {
    let table = from_raw_parts_mut(table, table_len);
    crate::mark_coarse(table, group, channel, coarse)
}

pub unsafe extern "C" fn host_keys_down(
    host: u8,
    owners: *const u8,
    owners_len: usize,
    table: *const Record,
    table_len: usize,
    group: u8,
    channel: u8,
) -> Keys {
    let owners = from_raw_parts(owners, owners_len);
    let table = from_raw_parts(table, table_len);
    crate::host_keys_down(host, owners, table, group, channel)
}

pub unsafe extern "C" fn host_mark_coarse(
    host: u8,
    owners: *const u8,
    owners_len: usize,
    table: *mut Record,
    table_len: usize,
    group: u8,
    channel: u8,
    coarse: u8,
) -> u32 {
    let owners = from_raw_parts(owners, owners_len);
    let table = from_raw_parts_mut(table, table_len);
    crate::host_mark_coarse(host, owners, table, group, channel, coarse)
}

pub unsafe extern "C" fn give_group(
    owners: *mut u8,
    owners_len: usize,
    table: *mut Record,
    table_len: usize,
    group: u8,
    host: u8,
) -> u32 {
    let owners = from_raw_parts_mut(owners, owners_len);
    let table = from_raw_parts_mut(table, table_len);
    crate::give_group(owners, table, group, host)
}

pub unsafe extern "C" fn identity_new(old: *const u8, old_len: usize) -> Identity {
    crate::identity_new(from_raw_parts(old, old_len))
}

pub unsafe extern "C" fn identity_old(number: u16) -> Maker {
    crate::identity_old(number)
}

pub unsafe extern "C" fn empty() -> Record {
    crate::empty()
}

pub unsafe extern "C" fn cable_idle() -> Cable {
    crate::cable_idle()
}

/// Calls that collect whole messages.
macro_rules! collecting {
    ($($name:ident)*) => {$(
        pub unsafe extern "C" fn $name(
            chains: *mut Chain,
            chains_len: usize,
            buffer: *mut u8,
            buffer_len: usize,
            words: *const u32,
            words_len: usize,
        ) -> Collected {
            let chains = from_raw_parts_mut(chains, chains_len);
            let buffer = from_raw_parts_mut(buffer, buffer_len);
            collector::$name(chains, buffer, from_raw_parts(words, words_len))
        }
    )*};
}

collecting! { collect run_collect }

pub unsafe extern "C" fn chain_closed() -> Chain {
    collector::CLOSED
}
