//! Times every run and every call of the header, of the product's static library and of the reading,
//! over the same fixed input in one process, and holds what they do to each other each time.
//! Usage: timing [PART]; with a part only the rows that have it in their name

mod cable_traffic;
mod chain_traffic;
// Not every sort of packet is timed.
#[allow(dead_code)]
mod packets;
mod rows;
mod sides;
mod timed_cables;
mod timed_collector;
mod timed_questions;
mod timed_streams;
mod traffic;

use rows::Row;
use timed_streams::Streams;

/// All rows are timed in turn, this many times, and in every other turn the reading goes first.
const TURNS: usize = 12;

/// Prints nanoseconds of the product and of the reading, and their ratio.
fn print(rows: &[Row]) {
    println!("nanoseconds, the best of {TURNS} each; the sides did the same each time");
    println!("{:<56}product    Rust   ratio", "");
    for row in rows {
        let [product, reading] = row.nanoseconds();
        let ratio = product / reading;
        println!(
            "{:<54}{product:>9.2} {reading:>7.2} {ratio:>7.3}",
            row.name()
        );
    }
}

fn main() {
    let part = std::env::args().nth(1).unwrap_or_default();
    let sides = [sides::product(), sides::reading()];
    let streams = Streams::new();
    let cables = timed_cables::Cables::new();
    let messages = timed_collector::Messages::new();
    let questions = timed_questions::Questions::new();
    let mut rows = timed_streams::rows(&streams);
    rows.extend(timed_cables::rows(&cables));
    rows.extend(timed_collector::rows(&messages));
    rows.extend(timed_questions::rows(&questions));
    rows.retain(|row| row.name().contains(&part));
    for turn in 0..TURNS {
        for row in &mut rows {
            row.take_a_turn(sides, turn % 2);
        }
    }
    print(&rows);
}
