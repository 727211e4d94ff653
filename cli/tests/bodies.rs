//! Body checksums: `check --bodies` tells each damaged body, and only those.

mod common;

use common::broker::*;
use common::*;

/// 90 records with bodies of all lengths, none the first; over several segments.
fn parcels(folder: &Folder) -> (std::path::PathBuf, Vec<Put>) {
    let mut broker = Broker::new(&folder.join("store")).segment_size(8192);
    let puts = (0..90u32).map(|number| {
        let body: Vec<u8> = (0..7 * number)
            .map(|byte| (byte * 31 + number) as u8)
            .collect();
        broker.put(Message {
            keys: "K",
            body: &body,
            ..Message::default()
        })
    });
    let puts = puts.collect();
    (broker.finish(), puts)
}

#[test]
fn bodies_of_a_broker_are_sound() {
    let folder = Folder::new("bodies-sound");
    let (store, _) = parcels(&folder);
    let check = tool("check", &store, &["--bodies"]);
    check.is(0, "nothing: the store is sound");
    check.shows("bodies   90 of 90 bodies as the checksums say, 28,035 bytes");
    let store = folder.join("demo");
    tool("demo", &store, &[]).is(0, "");
    tool("check", &store, &["--bodies"]).shows("438 of 438 bodies as the checksums say");
}

#[test]
fn a_damaged_body_is_told_with_both_sums() {
    let folder = Folder::new("bodies-damaged");
    let (store, puts) = parcels(&folder);
    // One bit of the last byte of a body, in each of two segments, and one checksum.
    let [second, last, sum] = [puts[2], puts[89], puts[50]];
    let place = |put: Put, at: u64| (put.position + at) as usize % 8192;
    let change = |put: Put, at: u64| {
        let path = segment(&store, put.position / 8192 * 8192);
        edit(&path, |bytes| bytes[place(put, at)] ^= 4);
    };
    change(second, 88 + 13);
    change(last, 88 + 7 * 89 - 1);
    change(sum, 11);
    // Nothing else tells it.
    tool("check", &store, &[]).is(0, "nothing: the store is sound");

    let check = tool("check", &store, &["--bodies"]);
    check.is(1, "87 of 90 bodies as the checksums say");
    let body: Vec<u8> = (0..14).map(|byte: u32| (byte * 31 + 2) as u8).collect();
    let mut changed = body.clone();
    changed[13] ^= 4;
    let (stored, computed) = (body_checksum(&body), body_checksum(&changed));
    check.shows(&format!(
        "! bodies   the body of the record at {} is damaged: checksum {stored}, by its bytes {computed}",
        second.position
    ));
    for put in [last, sum] {
        check.shows(&format!("the record at {} is damaged", put.position));
        let first = put.position / 8192 * 8192;
        check.shows(&format!(
            "get another copy of commitlog/{first:020}, which has damaged bodies"
        ));
    }
    assert!(!check.out.contains("swistopal rebuild"), "{}", check.out);

    let json = tool("check", &store, &["--bodies", "--json"])
        .is(1, "")
        .json();
    let findings = json.get("findings").list().iter();
    let bad: Vec<&Json> = findings
        .filter(|finding| finding.get("kind") == &Json::Text(String::from("body")))
        .collect();
    let positions: Vec<u64> = bad.iter().map(|one| one.get("position").number()).collect();
    assert_eq!(positions, [second.position, sum.position, last.position]);
    assert_eq!(bad[0].get("stored").number(), u64::from(stored));
    assert_eq!(bad[0].get("computed").number(), u64::from(computed));
}

/// The highest bit of the sum is not part of it.
#[test]
fn a_sum_has_31_bits() {
    let folder = Folder::new("bodies-bits");
    let mut broker = Broker::new(&folder.join("store"));
    // CRC-32 of this one has its highest bit.
    let put = broker.put(Message {
        body: b"123456789",
        ..Message::default()
    });
    let store = broker.finish();
    tool("check", &store, &["--bodies"]).is(0, "1 of 1 body as the checksums say");
    edit(&segment(&store, 0), |bytes| {
        bytes[put.position as usize + 8] |= 0x80
    });
    tool("check", &store, &["--bodies"]).is(1, "checksum 3421780262, by its bytes 1274296614");
}
