//! Lister (readings A90 to A94) and document 01's example, byte for byte.

mod common;

use common::*;
use model::interface;
use model::lister::list;
use model::record::Message;

const HEADER: &str = "position length queue time\n";

fn text(segment: &[u8]) -> String {
    list(segment).text
}

#[test]
fn the_papers_example() {
    let mut segment = vec![0; 1_024];
    let record = Message {
        queue_id: 3,
        ..rec()
    };
    patch(&mut segment, 0, &raw(&record, 0));
    patch(&mut segment, 92, &blank(932));
    let listing = list(&segment);
    assert_eq!(
        listing.text.as_bytes(),
        b"position length queue time\n0 92 3 10000\n92 932 blank\nstop 0\n"
    );
    assert_eq!(listing.answer.number(), 0);
}

#[test]
fn a90_any_length_is_one_segment() {
    let mut segment = vec![0; 1_025];
    patch(&mut segment, 0, &raw(&rec(), 0));
    patch(&mut segment, 92, &blank(933));
    assert_eq!(
        text(&segment),
        "position length queue time\n0 92 0 10000\n92 933 blank\nstop 0\n"
    );
    // A record that ends 8 bytes before the segment's end leaves a blank of 8.
    let body = [0; 924];
    let mut segment = vec![0; 1_024];
    let long = Message {
        body: &body,
        ..rec()
    };
    patch(&mut segment, 0, &raw(&long, 0));
    assert_eq!(text(&segment), format!("{HEADER}0 1016 0 10000\nstop 10\n"));
    patch(&mut segment, 1_016, &blank(8));
    assert_eq!(
        text(&segment),
        format!("{HEADER}0 1016 0 10000\n1016 8 blank\nstop 0\n")
    );
}

#[test]
fn a90_stops_are_0_1_and_10() {
    for_seeds(300, |_, rng| {
        let length = rng.between(1_000, 1_200);
        let mut segment = rng.bytes(length);
        let mut place = 0;
        while place + 100 <= length as usize && !rng.one_in(6) {
            patch(&mut segment, place, &raw(&rec(), place as u64));
            place += 92;
        }
        if place + 8 <= length as usize && rng.one_in(2) {
            patch(&mut segment, place, &blank(length as u32 - place as u32));
        }
        assert!(matches!(list(&segment).answer.number(), 0 | 1 | 10));
    });
}

#[test]
fn a91_outside_the_lengths() {
    let stop_1 = "position length queue time\nstop 1\n";
    assert_eq!(text(&[]), stop_1);
    assert_eq!(text(&[0; 1_023]), stop_1);
    assert_eq!(text(&[0; 65_537]), stop_1);
    assert_eq!(text(&[0; 65_536]), format!("{HEADER}stop 10\n"));
}

#[test]
fn a92_the_time_is_the_store_time() {
    let record = Message {
        queue_id: 0x7FFF_FFFF,
        born_time: 5,
        store_time: TWO_48 - 1,
        ..rec()
    };
    let mut segment = vec![0; 1_024];
    patch(&mut segment, 0, &raw(&record, 0));
    assert_eq!(
        text(&segment),
        format!("{HEADER}0 92 2147483647 281474976710655\nstop 10\n")
    );
}

#[test]
fn a93_a_damaged_record_prints_no_line() {
    assert_eq!(text(&[0; 1_024]), "position length queue time\nstop 10\n");
}

#[test]
fn a94_full_soundness() {
    let mut segment = vec![0; 1_024];
    patch(&mut segment, 0, &raw(&rec(), 0));
    patch(&mut segment, 92, &raw(&rec(), 0));
    assert_eq!(text(&segment), format!("{HEADER}0 92 0 10000\nstop 10\n"));
}

#[test]
fn the_interface_writes_the_text_at_the_start() {
    let mut segment = vec![0; 1_024];
    patch(&mut segment, 0, &blank(1_024));
    let mut out = vec![0xEE; 65_536];
    let mut written = 7;
    assert_eq!(interface::list(&segment, &mut out, &mut written), 0);
    let expected = b"position length queue time\n0 1024 blank\nstop 0\n";
    assert_eq!(written, expected.len() as u64);
    assert_eq!(out[..expected.len()], expected[..]);
    assert!(out[expected.len()..].iter().all(|byte| *byte == 0xEE));

    let mut short = vec![0xEE; 65_535];
    for segment in [&segment[..], &[]] {
        written = 7;
        assert_eq!(interface::list(segment, &mut short, &mut written), 17);
        assert_eq!((written, &short), (0, &vec![0xEE; 65_535]));
    }
    assert_eq!(interface::list(&[], &mut out, &mut written), 1);
}

#[test]
fn the_longest_text_fits() {
    let mut segment = vec![0; 65_536];
    let record = Message {
        queue_id: 0x7FFF_FFFF,
        store_time: TWO_48 - 1,
        ..rec()
    };
    let mut place = 0;
    while place + 100 <= segment.len() {
        patch(&mut segment, place, &raw(&record, place as u64));
        place += 92;
    }
    let rest = segment.len() - place;
    patch(&mut segment, place, &blank(rest as u32));
    let listing = list(&segment);
    assert_eq!(listing.answer.number(), 0);
    assert_eq!(listing.text.lines().count(), 712 + 3);
    assert!(listing.text.len() < 65_536);
}
