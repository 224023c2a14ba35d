//! Translates a bank change, a program change and a note up, and back down, and asks which key is down.

#[repr(C)]
#[derive(Clone, Copy)]
struct Record {
    keys_low: u64,
    keys_high: u64,
    kind: u16,
    bank_high: u8,
    bank_low: u8,
    address_bank: u8,
    address_index: u8,
    data_high: u8,
    coarse: u8,
}

#[repr(C)]
struct Done {
    answer: u32,
    #[allow(dead_code)]
    place: u32,
    read: usize,
    written: usize,
}

#[repr(C)]
struct Keys {
    answer: u32,
    down: u32,
    lowest: u32,
}

extern "C" {
    fn quernbrae_empty() -> Record;
    fn quernbrae_run_up(w: *const u32, n: usize, t: *mut Record, m: usize, o: *mut u32, k: usize) -> Done;
    fn quernbrae_run_down(w: *const u32, n: usize, o: *mut u32, k: usize) -> Done;
    fn quernbrae_keys_down(t: *const Record, m: usize, group: u8, channel: u8) -> Keys;
}

/// A table of 256 empty records.
fn fresh_table() -> [Record; 256] {
    [unsafe { quernbrae_empty() }; 256]
}

/// A run up over the words; the slices give the lengths, so that nothing is left to check.
fn run_up(words: &[u32], table: &mut [Record], out: &mut [u32]) -> Done {
    unsafe {
        quernbrae_run_up(words.as_ptr(), words.len(), table.as_mut_ptr(), table.len(), out.as_mut_ptr(), out.len())
    }
}

fn run_down(words: &[u32], out: &mut [u32]) -> Done {
    unsafe { quernbrae_run_down(words.as_ptr(), words.len(), out.as_mut_ptr(), out.len()) }
}

/// How many keys are down on a channel of a group, and the lowest.
fn keys_down(table: &[Record], group: u8, channel: u8) -> Keys {
    unsafe { quernbrae_keys_down(table.as_ptr(), table.len(), group, channel) }
}

fn main() {
    let words = [0x20B00001, 0x20B02002, 0x20C00500, 0x20903C41];
    let (mut up, mut down) = ([0u32; 8], [0u32; 8]);
    let mut table = fresh_table();
    let u = run_up(&words, &mut table, &mut up);
    println!("up: answer {}, read {}, wrote {}: {:08X?}", u.answer, u.read, u.written, &up[..u.written]);
    println!("channel 0 now has bank high {}", table[0].bank_high);
    let d = run_down(&up[..u.written], &mut down);
    println!("down: answer {}, read {}, wrote {}: {:08X?}", d.answer, d.read, d.written, &down[..d.written]);
    let k = keys_down(&table, 0, 0);
    println!("keys: answer {}, {} down, the lowest {}", k.answer, k.down, k.lowest);
}
