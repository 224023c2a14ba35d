//! Tests of whole messages out of packets.

use super::*;

const UNTOUCHED: u8 = 0xEE;

/// Chains over a buffer, with a part of so many bytes for each.
struct Collector {
    chains: Chains,
    buffer: Vec<u8>,
}

impl Collector {
    fn new(part: usize) -> Collector {
        Collector {
            chains: chains_closed(),
            buffer: vec![UNTOUCHED; 32 * part],
        }
    }

    /// Takes one packet, which may change its own chain and its own part alone.
    fn take(&mut self, packet: &[u32]) -> u32 {
        let (before, bytes) = (self.chains, self.buffer.clone());
        let one = collect(before, &mut self.buffer, packet);
        let part = bytes.len() / 32;
        for chain in 0..32 {
            let place = chain * part..(chain + 1) * part;
            if chain == one.chain {
                assert_eq!(
                    (one.start, one.length),
                    (place.start, one.chains.all[chain].length)
                );
            } else {
                assert_eq!(one.chains.all[chain], before.all[chain]);
                assert_eq!(self.buffer[place.clone()], bytes[place]);
            }
        }
        assert!(one.answer <= TAKEN_IN || self.buffer == bytes);
        assert_eq!(one.place > 0, one.answer == BAD_DATA);
        assert_eq!(one.read, size(packet[0]));
        self.chains = one.chains;
        one.answer
    }

    /// The bytes of a chain by its length.
    fn bytes(&self, chain: usize) -> &[u8] {
        let start = chain * (self.buffer.len() / 32);
        &self.buffer[start..start + self.chains.all[chain].length]
    }
}

fn exclusive(group: u32, form: u32, payload: &[u8]) -> [u32; 2] {
    let mut bytes = [0xFF; 8];
    bytes[0] = 0x30 | group as u8;
    bytes[1] = (form << 4) as u8 | payload.len() as u8;
    bytes[2..2 + payload.len()].copy_from_slice(payload);
    let words = words_of(&bytes);
    [words[0], words[1]]
}

fn flex(group: u32, form: u32, shared: u32, payload: u8) -> [u32; 4] {
    let word = u32::from_be_bytes([payload; 4]);
    [
        0xD000_0000 | group << 24 | form << 22 | shared,
        word,
        word,
        word,
    ]
}

fn chain(length: usize, shared: u32, packets: u32) -> Chain {
    Chain {
        length,
        shared,
        packets,
    }
}

#[test]
fn a_message_of_one_packet_is_finished_at_once() {
    let mut collector = Collector::new(12);
    assert_eq!(collector.take(&exclusive(0, 0, &[0x7E, 0x7F, 6, 1])), 0);
    assert_eq!(collector.bytes(0), [0x7E, 0x7F, 6, 1]);
    assert_eq!(collector.chains.all[0], chain(4, 0, 0));
    assert_eq!(collector.take(&exclusive(15, 0, &[])), 0);
    assert_eq!(collector.chains.all[15], chain(0, 0, 0));
    assert_eq!(collector.take(&flex(15, 0, 0x10_0103, 5)), 0);
    assert_eq!(collector.bytes(31), [5; 12]);
    assert_eq!(collector.chains.all[31], chain(12, 0x10_0103, 0));
}

#[test]
fn a_chain_has_its_payloads_in_order_while_others_come_between() {
    let mut collector = Collector::new(36);
    assert_eq!(collector.take(&exclusive(3, 1, &[1, 2, 3])), 1);
    assert_eq!(collector.take(&flex(3, 1, 7, 9)), 1);
    assert_eq!(collector.take(&exclusive(4, 1, &[11])), 1);
    assert_eq!(collector.take(&exclusive(3, 2, &[])), 1);
    assert_eq!(collector.take(&exclusive(3, 2, &[4, 5, 6, 7, 8, 9])), 1);
    assert_eq!(collector.take(&flex(3, 2, 7, 8)), 1);
    assert_eq!(collector.take(&exclusive(4, 3, &[12])), 0);
    assert_eq!(collector.chains.all[3], chain(9, 0, 1));
    assert_eq!(collector.take(&exclusive(3, 3, &[10])), 0);
    assert_eq!(collector.take(&flex(3, 3, 7, 7)), 0);
    assert_eq!(collector.bytes(3), [1, 2, 3, 4, 5, 6, 7, 8, 9, 10]);
    assert_eq!(collector.bytes(4), [11, 12]);
    assert_eq!(collector.bytes(19), [[9; 12], [8; 12], [7; 12]].concat());
    // A new message starts where the finished one did.
    assert_eq!(collector.take(&exclusive(3, 1, &[0x55])), 1);
    assert_eq!(collector.bytes(3), [0x55]);
}

#[test]
fn packets_of_other_types_are_taken_and_belong_to_no_chain() {
    let mut collector = Collector::new(12);
    collector.take(&exclusive(0, 1, &[1]));
    let before = collector.chains;
    for packet in [
        [0x0000_0000, 0, 0, 0],
        [0x10F8_0000, 0, 0, 0],
        [0x2090_3C40, 0, 0, 0],
        [0x4090_3C00, 0, 0, 0],
        [0x5000_0000, 0, 0, 0],
        [0xF000_0000, 0, 0, 0],
    ] {
        let size = size(packet[0]);
        let one = collect(before, &mut collector.buffer, &packet);
        assert_eq!(one, beside(1, size, before));
        let one = collect(before, &mut collector.buffer, &packet[..size - 1]);
        assert_eq!(one, beside(3, 0, before));
    }
    for message_type in [6, 7, 8, 9, 10, 11, 12, 14] {
        let packet = [message_type << 28, 0, 0, 0];
        let one = collect(before, &mut collector.buffer, &packet);
        assert_eq!(one, beside(4, size(packet[0]), before));
    }
    for packet in [
        [0x0050_0000, 0],
        [0x10F4_0000, 0],
        [0x20F0_0000, 0],
        [0x4070_0000, 0],
        [0x3040_0000, 0],
    ] {
        let one = collect(before, &mut collector.buffer, &packet);
        assert_eq!(one, beside(6, size(packet[0]), before));
    }
}

#[test]
fn bad_data_of_every_checked_type_has_its_place() {
    let before = chains_closed();
    for (packet, place) in [
        ([0x10F2_0080, 0], 2),
        ([0x2090_3C80, 0], 2),
        ([0x20C0_8000, 0], 1),
        ([0x3007_0000, 0], 1),
        ([0x3003_0000, 0x8000_0000], 4),
        ([0x4020_0080, 0], 2),
        ([0x40C0_0001, 0x0000_0080], 3),
        ([0x40C0_0000, 0x8000_0000], 1),
    ] {
        let one = collect(before, &mut [], &packet);
        let expected = beside(7, size(packet[0]), before);
        assert_eq!(one, Collected { place, ..expected });
    }
    assert_eq!(
        collect(before, &mut [], &[0x40C0_0000, 0x0000_8080]).answer,
        1
    );
}

#[test]
fn what_is_out_of_turn_drops_an_open_chain_and_stays_out() {
    for begin in [COMPLETE, START] {
        let mut collector = Collector::new(24);
        collector.take(&exclusive(5, 1, &[1, 2]));
        assert_eq!(collector.take(&exclusive(5, begin, &[3])), 15);
        assert_eq!(collector.chains, chains_closed());
        assert_eq!(collector.buffer[5 * 24..5 * 24 + 3], [1, 2, UNTOUCHED]);
        collector.take(&flex(5, 1, 1, 1));
        assert_eq!(collector.take(&flex(5, begin, 1, 2)), 15);
        assert_eq!(collector.chains, chains_closed());
    }
    for go_on in [2, 3] {
        let mut collector = Collector::new(24);
        assert_eq!(collector.take(&exclusive(5, go_on, &[3])), 15);
        assert_eq!(collector.take(&flex(5, go_on, 0, 2)), 15);
        assert_eq!(collector.chains, chains_closed());
        // With none open nothing is dropped, so a finished message keeps its length.
        collector.take(&exclusive(5, 0, &[1, 2]));
        collector.take(&flex(5, 0, 4, 1));
        let finished = collector.chains;
        assert_eq!(collector.take(&exclusive(5, go_on, &[3])), 15);
        assert_eq!(collector.take(&flex(5, go_on, 4, 2)), 15);
        assert_eq!(collector.chains, finished);
    }
}

#[test]
fn every_shared_field_must_be_that_of_the_start() {
    for bit in 0..21 {
        for form in [2, 3] {
            // Address 1 and address 0 differ in the last of these bits.
            let mut collector = Collector::new(36);
            collector.take(&flex(9, 1, 0, 1));
            assert_eq!(collector.take(&flex(9, form, 1 << bit, 2)), 15);
            assert_eq!(collector.chains, chains_closed());
        }
    }
}

#[test]
fn addresses_2_and_3_are_refused_first_and_the_chain_stays() {
    for address in [0x20_0000, 0x30_0000] {
        for form in 0..4 {
            let mut collector = Collector::new(24);
            assert_eq!(collector.take(&flex(9, form, address, 1)), 17);
            collector.take(&flex(9, 1, 3, 1));
            let open = collector.chains;
            assert_eq!(collector.take(&flex(9, form, address | 3, 2)), 17);
            assert_eq!(collector.chains, open);
            assert_eq!(collector.take(&flex(9, 3, 3, 2)), 0);
        }
    }
}

#[test]
fn flex_data_has_32_packets_at_most() {
    let mut collector = Collector::new(12 * 40);
    for times in 0..2 {
        assert_eq!(collector.take(&flex(1, 1, 8, 0)), 1);
        for number in 1..31 {
            assert_eq!(collector.take(&flex(1, 2, 8, number)), 1);
        }
        // The 32nd may be the last or not.
        assert_eq!(collector.take(&flex(1, 3 - times, 8, 31)), times);
    }
    assert_eq!(collector.chains.all[17], chain(384, 8, 32));
    assert_eq!(collector.take(&flex(1, 3, 8, 32)), 16);
    assert_eq!(collector.chains.all[17], chain(0, 0, 0));
    // An exclusive may have more.
    collector.take(&exclusive(1, 1, &[1]));
    for _ in 0..50 {
        assert_eq!(collector.take(&exclusive(1, 2, &[2])), 1);
    }
    assert_eq!(collector.take(&exclusive(1, 3, &[3])), 0);
    assert_eq!(collector.bytes(1).len(), 52);
}

#[test]
fn what_does_not_fit_the_part_drops_the_chain() {
    for part in 0..8 {
        for count in 0..7 {
            let mut collector = Collector::new(part);
            let fits = if count <= part { 0 } else { 18 };
            let payload = &[1, 2, 3, 4, 5, 6][..count];
            assert_eq!(collector.take(&exclusive(15, 0, payload)), fits);
        }
    }
    let mut collector = Collector::new(12);
    collector.take(&exclusive(0, 1, &[1; 6]));
    collector.take(&exclusive(0, 2, &[2; 5]));
    assert_eq!(collector.take(&exclusive(0, 3, &[3; 2])), 18);
    assert_eq!(collector.chains.all[0], chain(0, 0, 0));
    assert_eq!(collector.buffer[6..12], [2, 2, 2, 2, 2, UNTOUCHED]);
    assert_eq!(collector.take(&flex(15, 1, 5, 1)), 1);
    assert_eq!(collector.take(&flex(15, 2, 5, 1)), 18);
    assert_eq!(collector.take(&flex(15, 3, 5, 1)), 15);
    for length in 0..384 {
        let one = collect(chains_closed(), &mut vec![0; length], &flex(0, 0, 0, 1));
        assert_eq!((one.answer, one.start), (18, 16 * (length / 32)));
    }
}

#[test]
fn the_rest_of_a_buffer_stays_unused() {
    for length in 0..100 {
        let mut buffer = vec![UNTOUCHED; length];
        let part = length / 32;
        let packet = exclusive(15, 0, &[7; 6][..part]);
        let one = collect(chains_closed(), &mut buffer, &packet);
        assert_eq!((one.answer, one.chain), (0, 15));
        assert_eq!((one.start, one.length), (15 * part, part));
        let sevens = buffer.iter().filter(|byte| **byte == 7).count();
        assert_eq!(sevens, part);
    }
}

#[test]
fn numbers_that_make_no_sense_never_lead_out_of_the_part() {
    let mut buffer = vec![UNTOUCHED; 32 * 24];
    let mut answer = |lent: Chain, packet: &[u32]| {
        let mut chains = chains_closed();
        chains.all[0] = lent;
        chains.all[16] = lent;
        collect(chains, &mut buffer, packet).answer
    };
    for length in [25, 1 << 20, usize::MAX - 3, usize::MAX] {
        assert_eq!(answer(chain(length, 0, 1), &exclusive(0, 2, &[])), 18);
        assert_eq!(answer(chain(length, 0, 9), &exclusive(0, 3, &[1; 6])), 18);
        assert_eq!(answer(chain(length, 0, 32), &exclusive(0, 3, &[1; 6])), 16);
        assert_eq!(answer(chain(length, 5, 32), &exclusive(0, 3, &[1; 6])), 15);
        assert_eq!(answer(chain(length, 5, 1), &flex(0, 3, 5, 1)), 18);
        assert_eq!(answer(chain(length, 5, 40), &flex(0, 3, 5, 1)), 16);
        assert_eq!(answer(chain(length, 5, u32::MAX), &flex(0, 2, 5, 1)), 16);
        assert_eq!(answer(chain(length, 5, 1), &flex(0, 1, 5, 1)), 15);
        assert_eq!(answer(chain(length, 5, 0), &flex(0, 2, 5, 1)), 15);
        assert_eq!(answer(chain(length, 5, 0), &flex(0, 1, 5, 1)), 1);
    }
    assert_eq!(answer(chain(12, 1 << 22, 1), &flex(0, 2, 0, 1)), 15);
    assert_eq!(answer(chain(12, 9, 1), &exclusive(0, 2, &[1])), 15);
    assert_eq!(answer(chain(12, 0, 31), &exclusive(0, 2, &[1])), 1);
}

fn text(packets: &[&[u32]]) -> String {
    let bytes = bytes_of(&packets.concat());
    String::from_utf8(whole(&bytes, &[]).expect("no arguments")).expect("ASCII")
}

#[test]
fn the_program_writes_a_line_for_each_finished_message_and_each_dropped_chain() {
    let mut packets: Vec<Vec<u32>> = vec![
        exclusive(0, 0, &[0x7E, 0x7F, 6, 1]).to_vec(),
        exclusive(12, 0, &[]).to_vec(),
        exclusive(3, 1, &[1]).to_vec(),
        vec![0x2090_3C40],
        exclusive(3, 1, &[2]).to_vec(),
        // Nothing is open, so no line comes of this.
        exclusive(3, 2, &[3]).to_vec(),
        flex(3, 1, 0, 0x48).to_vec(),
        flex(3, 0, 0x20_0000, 0x48).to_vec(),
        flex(3, 3, 0, 0x69).to_vec(),
        flex(2, 1, 0, 0).to_vec(),
        flex(2, 3, 1, 0).to_vec(),
    ];
    let expected = format!(
        "exclusive 0 7E 7F 06 01\nexclusive 12\n15 exclusive 3\nflex 3{}{}\n15 flex 2\n",
        " 48".repeat(12),
        " 69".repeat(12)
    );
    let whole_text = |packets: &[Vec<u32>]| {
        let slices: Vec<&[u32]> = packets.iter().map(Vec::as_slice).collect();
        text(&slices)
    };
    assert_eq!(whole_text(&packets), expected);
    packets.push(vec![0xD000_0000, 0, 0]);
    assert_eq!(whole_text(&packets), expected);
    assert_eq!(whole(&[], &["0"]), None);
}

#[test]
fn the_program_has_2048_bytes_for_a_message() {
    let start = exclusive(7, 1, &[1; 6]);
    let go_on = exclusive(7, 2, &[2; 6]);
    let mut packets: Vec<&[u32]> = vec![&start];
    packets.resize(341, &go_on);
    let (end, too_long) = (exclusive(7, 3, &[3; 2]), exclusive(7, 3, &[3; 3]));
    let (fits, long) = (
        [&packets[..], &[&end]].concat(),
        [&packets[..], &[&too_long]].concat(),
    );
    let bytes = format!("{}{} 03 03", " 01".repeat(6), " 02".repeat(340 * 6));
    assert_eq!(text(&fits), format!("exclusive 7{bytes}\n"));
    assert_eq!(text(&long), "18 exclusive 7\n");
    let flex_start = flex(0, 1, 0, 0);
    let flex_on = flex(0, 2, 0, 0);
    let mut packets: Vec<&[u32]> = vec![&flex_start];
    packets.resize(33, &flex_on);
    assert_eq!(text(&packets), "16 flex 0\n");
}
