//! Writes a store with a commit log of 1 GiB, as a broker does, to measure the tool on: `gibibyte DIR`.

#![allow(dead_code, reason = "the tests use the rest of the writer")]

#[path = "../tests/common/broker.rs"]
mod broker;

use broker::{Broker, Message, MORNING};
use std::path::Path;

/// Records of some 890 bytes with three keys each, in eight queues, fill one segment.
const RECORDS: u64 = 1_200_000;

fn main() {
    let folder = std::env::args_os().nth(1).expect("gibibyte DIR");
    let mut broker = Broker::new(Path::new(&folder))
        .segment_size(1 << 30)
        .log_only();
    let body = [b'x'; 800];
    let mut last = None;
    for number in 0..RECORDS {
        last = Some(broker.put(Message {
            topic: ["SORTER_INDUCTION", "SORTER_DIVERT"][number as usize % 2],
            queue_id: number as u32 / 2 % 4,
            tags: ["divert", "missed", "trim"][number as usize % 3],
            keys: &format!("P{:07} C{:03}", number / 2, number % 96),
            uniq_key: &format!("0A14000B2A9F{number:08X}"),
            body: &body[..678 + number as usize % 100],
            store_time: MORNING + 20 * number,
            ..Message::default()
        }));
    }
    let last = last.expect("there are records");
    let bytes = last.position + u64::from(last.length);
    println!("{RECORDS} records, {bytes} bytes");
    broker.finish();
}
