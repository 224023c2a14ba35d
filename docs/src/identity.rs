//! Maker identities: from the bytes of MIDI 1.0 to a number of 16 bits and back. Read from request
//! M-106, from the build specification's layouts and from M2-104-UM 1.1.1, section 7.10.

use crate::SENT;

#[cfg(test)]
#[path = "identity_tests.rs"]
mod tests;

// Both turns have this one and 0.
pub const NO_COUNTERPART: u32 = 14;

/// The number of an identity, or 0 where it has none.
#[repr(C)]
#[derive(Clone, Copy, Debug, PartialEq, Eq)]
pub struct Identity {
    pub answer: u32,
    pub number: u32,
}

/// The bytes of an identity, of which the first `count` count; there are none where it has no such
/// form.
#[repr(C)]
#[derive(Clone, Copy, Debug, PartialEq, Eq)]
pub struct Maker {
    pub answer: u32,
    pub count: u32,
    pub bytes: [u8; 4],
}

/// The number for the bytes of an identity.
pub fn identity_new(old: &[u8]) -> Identity {
    let number = match *old {
        [one @ 1..=127] => u16::from(one),
        [0, high @ 0..=127, low @ 0..=127] => 0x8000 | u16::from_be_bytes([high, low]),
        _ => {
            return Identity {
                answer: NO_COUNTERPART,
                number: 0,
            }
        }
    };
    Identity {
        answer: SENT,
        number: u32::from(number),
    }
}

/// The bytes for the number of an identity. The highest bit tells three bytes from one, and the rest
/// must be what such bytes can hold.
pub fn identity_old(number: u16) -> Maker {
    let (answer, count, bytes) = match number.to_be_bytes() {
        [0, one @ 1..=127] => (SENT, 1, [one, 0, 0, 0]),
        [high @ 128..=255, low @ 0..=127] => (SENT, 3, [0, high & 127, low, 0]),
        _ => (NO_COUNTERPART, 0, [0; 4]),
    };
    Maker {
        answer,
        count,
        bytes,
    }
}
