//! Tests of maker identities.

use super::*;

fn number(old: &[u8]) -> Option<u32> {
    let identity = identity_new(old);
    match identity.answer {
        SENT => Some(identity.number),
        answer => {
            assert_eq!((answer, identity.number), (14, 0));
            None
        }
    }
}

fn bytes(number: u16) -> Option<Vec<u8>> {
    let maker = identity_old(number);
    let (used, unused) = maker.bytes.split_at(maker.count as usize);
    assert!(unused.iter().all(|byte| *byte == 0));
    match maker.answer {
        SENT => Some(used.to_vec()),
        answer => {
            assert_eq!((answer, maker.count), (14, 0));
            None
        }
    }
}

#[test]
fn the_examples_of_the_documents() {
    assert_eq!(number(&[0x43]), Some(0x0043));
    assert_eq!(number(&[0, 0x20, 0x25]), Some(0xA025));
    assert_eq!(number(&[0, 0, 0x3B]), Some(0x803B));
    assert_eq!(number(&[0, 0x02, 0x13]), Some(0x8213));
    assert_eq!(bytes(0x0043), Some(vec![0x43]));
    assert_eq!(bytes(0xA025), Some(vec![0, 0x20, 0x25]));
    assert_eq!(bytes(0x803B), Some(vec![0, 0, 0x3B]));
    assert_eq!(bytes(0x8213), Some(vec![0, 0x02, 0x13]));
}

#[test]
fn numbers_without_old_form() {
    for number in 0..=u16::MAX {
        let high_bit = number & 0x8000 != 0;
        let without =
            number == 0 || !high_bit && number & 0x7F80 != 0 || high_bit && number & 0x0080 != 0;
        assert_eq!(bytes(number).is_none(), without, "{number:04X}");
    }
    let with = (0..=u16::MAX).filter(|number| bytes(*number).is_some());
    assert_eq!(with.count(), 127 + 128 * 128);
}

#[test]
fn old_forms_without_number() {
    assert_eq!(number(&[]), None);
    assert_eq!(number(&[0]), None);
    assert_eq!(number(&[127]), Some(127));
    assert_eq!(number(&[128]), None);
    assert_eq!(number(&[0, 1]), None);
    assert_eq!(number(&[1, 2]), None);
    assert_eq!(number(&[0, 0, 0]), Some(0x8000));
    assert_eq!(number(&[0, 127, 127]), Some(0xFF7F));
    assert_eq!(number(&[1, 0, 0]), None);
    assert_eq!(number(&[0, 128, 0]), None);
    assert_eq!(number(&[0, 0, 128]), None);
    assert_eq!(number(&[0, 1, 2, 0]), None);
}

#[test]
fn there_and_back_is_the_same() {
    for number_there in 0..=u16::MAX {
        if let Some(old) = bytes(number_there) {
            assert_eq!(number(&old), Some(u32::from(number_there)));
        }
    }
    for one in 1..=127 {
        let there = number(&[one]).expect("one byte has a number");
        assert_eq!(bytes(there as u16), Some(vec![one]));
    }
    for high in 0..=127 {
        for low in 0..=127 {
            let there = number(&[0, high, low]).expect("three bytes have a number");
            assert_eq!(bytes(there as u16), Some(vec![0, high, low]));
        }
    }
}
