//! Sweeps over the calls of two hosts on one box, and a count of what they met.

use crate::packets::{packet, record_number, Dice};
use crate::{
    any_record, group_and_channel, show_difference, throw_mark, throw_table, throw_words,
    Comparison, Function, Lent, Pool, EDGE_PLACES, LENGTHS, TABLE_SPACE,
};
use crate::{quernbrae_give_group, quernbrae_host_keys_down, quernbrae_host_mark_coarse};
use crate::{HostDown, HostRunDown, HostRunUp, HostUp};
use reading::{empty, Keys, NOT_YOUR_GROUP};

/// The longest list of owners that is lent.
pub const LONGEST_OWNERS: usize = 20;

/// Hosts, of which two own groups.
const HOSTS: [u8; 5] = [0, 1, 2, 3, 255];

/// Numbers of a list of owners, of which two are hosts.
const OWNERS: [u8; 8] = [0, 1, 2, 3, 127, 128, 254, 255];

/// The message types that have a group, in each direction but for the wrong protocol.
const GROUPED: [[u32; 5]; 2] = [[1, 2, 3, 5, 0xD], [1, 3, 4, 5, 0xD]];

/// What stands in the list of owners for the group of a packet, beside the host that sends it.
const RELATIONS: [&str; 4] = [
    "the same number",
    "the other host",
    "nobody's number",
    "nothing",
];

fn relation(host: u8, owners: &[u8], group: usize) -> usize {
    match owners.get(group) {
        Some(owner) if *owner == host => 0,
        Some(1 | 2) => 1,
        Some(_) => 2,
        None => 3,
    }
}

/// A host, and a list of owners of any length with any numbers.
pub fn throw_host(dice: &mut Dice, lent: &mut Lent) {
    let any = dice.word() as u8;
    lent.host = dice.pick(&[1, 1, 1, 2, 2, 2, 0, 3, 255, any]);
    for owner in &mut lent.owners {
        let any = dice.word() as u8;
        *owner = dice.pick(&[1, 1, 1, 2, 2, 2, 0, 3, 255, any]);
    }
    lent.owners_len = match dice.below(3) {
        0 => dice.below(LONGEST_OWNERS + 1),
        _ => 16,
    };
}

impl Lent {
    fn list(&self) -> &[u8] {
        &self.owners[..self.owners_len]
    }

    fn product_host_keys(&self, records: usize, [group, channel]: [u8; 2]) -> Keys {
        let (owners, table) = (self.list(), &self.table[..records]);
        // Pointers and lengths come from slices.
        unsafe {
            quernbrae_host_keys_down(
                self.host,
                owners.as_ptr(),
                owners.len(),
                table.as_ptr(),
                records,
                group,
                channel,
            )
        }
    }

    fn product_host_mark(&mut self, records: usize, place: [u8; 2], coarse: u8) -> u32 {
        let table = self.table[..records].as_mut_ptr();
        let owners = self.list();
        // Pointers and lengths come from slices.
        unsafe {
            quernbrae_host_mark_coarse(
                self.host,
                owners.as_ptr(),
                owners.len(),
                table,
                records,
                place[0],
                place[1],
                coarse,
            )
        }
    }

    fn product_gift(&mut self, records: usize, group: u8, host: u8) -> u32 {
        let table = &mut self.table[..records];
        let owners = &mut self.owners[..self.owners_len];
        // Pointers and lengths come from slices.
        unsafe {
            quernbrae_give_group(
                owners.as_mut_ptr(),
                owners.len(),
                table.as_mut_ptr(),
                records,
                group,
                host,
            )
        }
    }
}

/// Single calls of both sides that are not about words.
impl Comparison {
    /// Both sides start from the table and the owners of the case.
    fn copy_places(&mut self) {
        for side in [&mut self.product, &mut self.reading] {
            side.table.copy_from_slice(&self.case.table);
            side.host = self.case.host;
            side.owners = self.case.owners;
            side.owners_len = self.case.owners_len;
        }
    }

    /// What a call left is what the next case starts from.
    fn carry_on_with_owners(&mut self) {
        self.case.table.copy_from_slice(&self.reading.table);
        self.case.owners = self.reading.owners;
    }

    fn hold_places<T: PartialEq + std::fmt::Debug>(&self, what: &str, product: T, reading: T) {
        let sides = [&self.product, &self.reading];
        let same_memory = sides[0].table == sides[1].table && sides[0].owners == sides[1].owners;
        if product == reading && same_memory {
            return;
        }
        println!("DIFFERENCE in {what}");
        println!("host: {}, owners: {:?}", self.case.host, self.case.list());
        println!("product: {product:?}\nreading: {reading:?}");
        let [of_product, of_reading] = sides.map(|side| &side.table);
        show_difference("record", &self.case.table, of_product, of_reading);
        let [of_product, of_reading] = sides.map(|side| &side.owners);
        show_difference("owner", &self.case.owners, of_product, of_reading);
        std::process::exit(1);
    }

    fn host_ask(&mut self, records: usize, [group, channel]: [u8; 2]) {
        self.copy_places();
        let keys = self.product.product_host_keys(records, [group, channel]);
        let (host, table) = (self.reading.host, &self.reading.table[..records]);
        let expected = reading::host_keys_down(host, self.reading.list(), table, group, channel);
        let what = format!("question over {records} records, group {group}, channel {channel}");
        self.hold_places(&what, keys, expected);
        self.hosts.questions[expected.answer as usize] += 1;
    }

    fn host_mark(&mut self, records: usize, [group, channel]: [u8; 2], coarse: u8) {
        self.copy_places();
        let place = [group, channel];
        let answer = self.product.product_host_mark(records, place, coarse);
        let side = &mut self.reading;
        let (owners, table) = (&side.owners[..side.owners_len], &mut side.table[..records]);
        let expected = reading::host_mark_coarse(side.host, owners, table, group, channel, coarse);
        let what =
            format!("mark {coarse} over {records} records, group {group}, channel {channel}");
        self.hold_places(&what, answer, expected);
        self.hosts.marks[expected as usize] += 1;
        self.carry_on_with_owners();
    }

    fn give(&mut self, records: usize, group: u8, host: u8) {
        self.copy_places();
        let answer = self.product.product_gift(records, group, host);
        let side = &mut self.reading;
        let (owners, table) = (
            &mut side.owners[..side.owners_len],
            &mut side.table[..records],
        );
        let expected = reading::give_group(owners, table, group, host);
        let what = format!("gift over {records} records, group {group} to host {host}");
        self.hold_places(&what, answer, expected);
        self.hosts.gifts[expected as usize] += 1;
        if expected == reading::GIVEN {
            // Every number from 3 on is nobody's, as 0 is.
            let before = self.case.owners[usize::from(group)].min(3) % 3;
            self.hosts.hands[usize::from(before)][usize::from(host)] += 1;
        }
        self.carry_on_with_owners();
    }
}

/// Sweeps.
impl Comparison {
    /// Every value of bits 31 to 16 of the first word, in both directions, from any host under any
    /// list of owners and over records of any sort.
    pub fn every_packet_of_a_host(&mut self) {
        for head in 0..0x1_0000 {
            self.case.table.fill(any_record(&mut self.dice));
            throw_host(&mut self.dice, &mut self.case);
            let mut packet = [0; 4].map(|_: u32| self.dice.word());
            packet[0] = head << 16 | packet[0] & self.dice.pick(&[0x7F7F, 0xFFFF]);
            self.single(HostUp, packet);
            self.single(HostDown, packet);
        }
    }

    /// Every group with edges of owners and of the list's length, for each sort of host and with
    /// packets of each type; and every owner for every host.
    pub fn every_owner(&mut self) {
        self.case.table.fill(empty());
        for host in HOSTS {
            for group in 0..16 {
                for length in [0, group, group + 1, 15, 16, 17, LONGEST_OWNERS] {
                    for owner in OWNERS {
                        throw_host(&mut self.dice, &mut self.case);
                        self.case.host = host;
                        self.case.owners[group] = owner;
                        self.case.owners_len = length;
                        self.every_type_in(group);
                    }
                }
            }
        }
        for host in 0..=255 {
            for owner in 0..=255 {
                let group = self.dice.below(16);
                throw_host(&mut self.dice, &mut self.case);
                self.case.host = host;
                self.case.owners[group] = owner;
                self.case.owners_len = 16;
                self.single(HostUp, [0x2090_3C40 | (group as u32) << 24, 0, 0, 0]);
            }
        }
    }

    fn every_type_in(&mut self, group: usize) {
        for message_type in 0..16 {
            let mut words = packet(&mut self.dice, message_type);
            words[0] = words[0] & 0xF0FF_FFFF | (group as u32) << 24;
            self.single(HostUp, words);
            self.single(HostDown, words);
        }
    }

    /// Questions and marks of each sort of host under lists of any length: every channel, and edges
    /// of group and channel over tables of other lengths.
    pub fn every_channel_of_a_host(&mut self) {
        for host in HOSTS {
            for length in 0..=LONGEST_OWNERS {
                throw_host(&mut self.dice, &mut self.case);
                self.case.host = host;
                self.case.owners_len = length;
                self.case.table.fill_with(|| any_record(&mut self.dice));
                for number in 0..256 {
                    self.ask_and_mark(256, group_and_channel(number));
                }
                for records in LENGTHS {
                    let group = self.dice.pick(&EDGE_PLACES);
                    for channel in EDGE_PLACES {
                        self.ask_and_mark(records, [group, channel]);
                        self.ask_and_mark(records, [channel, group]);
                    }
                }
            }
        }
        self.case.table.fill(empty());
    }

    fn ask_and_mark(&mut self, records: usize, place: [u8; 2]) {
        self.host_ask(records, place);
        let coarse = throw_mark(&mut self.dice);
        self.host_mark(records, place, coarse);
    }

    /// Every group given from every owner to each host and to nobody; every number of a group with
    /// every number of a host; and edges of both under lists of any length and over tables of other
    /// lengths. The table has records of all sorts.
    pub fn every_gift(&mut self) {
        for owner in 0..=255 {
            for group in 0..16 {
                for host in 0..3 {
                    self.throw_places();
                    self.case.table.fill_with(|| any_record(&mut self.dice));
                    self.case.owners[usize::from(group)] = owner;
                    self.case.owners_len = 16;
                    self.give(256, group, host);
                }
            }
        }
        for group in 0..=255 {
            for host in 0..=255 {
                self.throw_places();
                self.case.owners_len = 16 + self.dice.below(LONGEST_OWNERS - 15);
                self.give(256, group, host);
            }
        }
        for length in 0..=LONGEST_OWNERS {
            for group in 0..=LONGEST_OWNERS as u8 {
                for host in HOSTS {
                    for records in [256, self.dice.pick(&LENGTHS)] {
                        self.throw_places();
                        self.case.owners_len = length;
                        self.give(records, group, host);
                    }
                }
            }
        }
        self.case.table.fill(empty());
    }

    fn throw_places(&mut self) {
        throw_host(&mut self.dice, &mut self.case);
        for _ in 0..16 {
            let place = self.dice.below(TABLE_SPACE);
            self.case.table[place] = any_record(&mut self.dice);
        }
    }

    /// Calls, runs, questions and marks of both hosts one after another, over one table and with
    /// changes of owners in between.
    pub fn history(&mut self, pool: &Pool) {
        throw_words(&mut self.dice, HostRunUp, &mut self.case);
        throw_table(&mut self.dice, pool, &mut self.case);
        throw_host(&mut self.dice, &mut self.case);
        for _ in 0..8 {
            self.case.host = self.dice.pick(&[1, 1, 1, 2, 2, 2, 0, 3, 255]);
            match self.dice.below(8) {
                0 => {
                    let group = self.dice.below(17) as u8;
                    let host = self.dice.pick(&[0, 1, 1, 2, 2, 3]);
                    self.give(256, group, host);
                }
                1 => {
                    let place = [(); 2].map(|_| self.dice.below(17) as u8);
                    self.ask_and_mark(256, place);
                }
                2 => self.event(HostDown),
                3 => self.event(HostRunDown),
                4 => self.event(HostUp),
                _ => self.event(HostRunUp),
            }
        }
    }

    fn event(&mut self, function: Function) {
        throw_words(&mut self.dice, function, &mut self.case);
        self.throw_room();
        self.compare(function);
        self.carry_on_with_owners();
        let number = self.case.own();
        self.host_ask(256, group_and_channel(number));
    }
}

/// What single calls of a host met.
pub struct Hosts {
    /// By direction, type, host and relation: how often a packet passed the gate, and how often not.
    met: [[[[[usize; 2]; RELATIONS.len()]; HOSTS.len()]; 16]; 2],
    /// By direction: what a refused packet would have been answered elsewhere.
    instead: [[usize; 24]; 2],
    questions: [usize; 25],
    marks: [usize; 25],
    gifts: [usize; 25],
    /// From nobody, host 1 or host 2 to one of these.
    hands: [[usize; 3]; 3],
}

impl Hosts {
    pub fn new() -> Hosts {
        Hosts {
            met: [[[[[0; 2]; RELATIONS.len()]; HOSTS.len()]; 16]; 2],
            instead: [[0; 24]; 2],
            questions: [0; 25],
            marks: [0; 25],
            gifts: [0; 25],
            hands: [[0; 3]; 3],
        }
    }

    pub fn count(&mut self, function: Function, answer: u32, case: &Lent) {
        let word = case.words[0];
        let direction = usize::from(!function.goes_up());
        let group = (word >> 24 & 15) as usize;
        let relation = relation(case.host, case.list(), group);
        let refused = answer == NOT_YOUR_GROUP;
        if let Some(host) = HOSTS.iter().position(|host| *host == case.host) {
            let message_type = (word >> 28) as usize;
            self.met[direction][message_type][host][relation][usize::from(refused)] += 1;
        }
        if refused {
            let instead = elsewhere(function, case).answer;
            self.instead[direction][instead as usize] += 1;
        }
    }

    /// Prints the least counts; false if something that can occur never came.
    pub fn summary(&self) -> bool {
        let mut complete = true;
        for (direction, name) in ["up", "down"].iter().enumerate() {
            for (place, relation) in RELATIONS.iter().enumerate() {
                let mut least = [usize::MAX; HOSTS.len()];
                for message_type in GROUPED[direction] {
                    for (host, least) in least.iter_mut().enumerate() {
                        let owns = place == 0 && matches!(HOSTS[host], 1 | 2);
                        let times = self.met[direction][message_type as usize][host][place];
                        *least = times[usize::from(!owns)].min(*least);
                    }
                }
                println!("{name}, {relation}: hosts {HOSTS:?} met each type at least {least:?}");
                complete &= least.iter().all(|count| *count > 0);
            }
            let answers: &[usize] = match direction {
                0 => &[0, 1, 6, 7, 8, 9],
                _ => &[0, 2, 6, 7, 9],
            };
            let counts: Vec<_> = answers
                .iter()
                .map(|n| self.instead[direction][*n])
                .collect();
            println!("{name}: 13 came before {answers:?}: {counts:?}");
            complete &= counts.iter().all(|count| *count > 0);
        }
        complete & self.summary_of_places()
    }

    fn summary_of_places(&self) -> bool {
        let rows: [(&str, &[usize; 25], &[usize]); 3] = [
            ("the question of a host", &self.questions, &[0, 10, 13, 24]),
            ("the mark of a host", &self.marks, &[0, 8, 10, 13, 24]),
            ("the gift of a group", &self.gifts, &[0, 10, 24]),
        ];
        let mut complete = self.hands.as_flattened().iter().all(|count| *count > 0);
        for (name, times, answers) in rows {
            let counts: Vec<_> = answers.iter().map(|n| times[*n]).collect();
            println!("{name} answered {answers:?}: {counts:?}");
            complete &= counts.iter().all(|count| *count > 0);
        }
        println!(
            "groups went from nobody, 1, 2 to nobody, 1, 2: {:?}",
            self.hands
        );
        complete
    }
}

/// What the packet of a case would be answered without hosts.
fn elsewhere(function: Function, case: &Lent) -> reading::Done {
    let words = &case.words[..case.words_len];
    let mut out = vec![0; case.room];
    if function.goes_up() {
        let mut table = [empty(); 256];
        let own = record_number(words[0]);
        table[own] = case.table[own];
        reading::up(words, &mut table, &mut out)
    } else {
        reading::down(words, &mut out)
    }
}
