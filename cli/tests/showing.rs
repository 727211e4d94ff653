//! One record whole, and bodies that do not match their checksums.

mod common;

use common::broker::{self, Broker, Message, MORNING};
use common::*;
use std::path::{Path, PathBuf};
use std::process::Command;

/// The demo's divert of parcel 17.
const DIVERT: u64 = 8211;

fn show(store: &Path, position: u64, options: &[&str]) -> Run {
    let position = position.to_string();
    tool("show", store, &[&[&*position], options].concat())
}

fn raw(store: &Path, position: u64) -> Vec<u8> {
    let mut call = Command::new(TOOL);
    let call = call.arg("show").arg(store).arg(position.to_string());
    call.arg("--raw").output().unwrap().stdout
}

#[test]
fn a_record_is_shown_whole() {
    let folder = Folder::new("whole");
    let store = built(&folder, "store");
    let run = show(&store, DIVERT, &[]);
    assert_eq!(run.is(0, "").err, "");
    assert_eq!(
        run.out,
        "\
position      8211 to 8403, 192 bytes
topic         SORTER_DIVERT
queue         2
entry         6
stored        2026-03-02T05:58:46.746Z (1772431126746) at 10.20.0.11:10911
born          2026-03-02T05:58:46.743Z (1772431126743) at 10.20.0.11:10911
system flag   0: transaction none
flag          0
reconsumed    0 times
prepared at   0
tags          divert
keys          0A14000B2A9F0000002C P000017 CHUTE-126
checksum      02e697e2, as the body gives it
properties    65 bytes
  KEYS      P000017 CHUTE-126
  UNIQ_KEY  0A14000B2A9F0000002C
  TAGS      divert
body          23 bytes
  carrier 23 at chute 126
"
    );
    assert_eq!(raw(&store, DIVERT), b"carrier 23 at chute 126");
    let json = show(&store, DIVERT, &["--json"]).is(0, "").json();
    for (field, number) in [
        ("position", DIVERT),
        ("length", 192),
        ("queue", 2),
        ("entry", 6),
        ("time", 1_772_431_126_746),
        ("body_length", 23),
        ("body_checksum", 0x02e6_97e2),
        ("body_checksum_computed", 0x02e6_97e2),
    ] {
        assert_eq!(json.get(field).number(), number, "{field}");
    }
    let text = |field: &str| json.get(field).clone();
    assert_eq!(
        text("store_host"),
        Json::Text(String::from("10.20.0.11:10911"))
    );
    assert_eq!(
        text("unique_key"),
        Json::Text(String::from("0A14000B2A9F0000002C"))
    );
    assert_eq!(json.get("properties").list().len(), 3);
    // By the segment's file, too.
    assert_eq!(show(&segment(&store, 0), DIVERT, &[]).out, run.out);

    // Inside the record: it is shown, and told.
    for inside in [DIVERT + 1, DIVERT + 191] {
        let other = show(&store, inside, &[]);
        let said = format!("position {inside} is inside this record, which goes from 8211 to 8403");
        assert_eq!(other.is(0, &said).out, run.out);
    }
    show(&store, 65_490, &[]).is(
        2,
        "no record stands there but a blank, which goes from 65481 to its segment's end at 65536",
    );
    show(&store, 90_000, &[]).is(2, "nothing was written there");
    show(&store, 196_608, &[]).is(2, "the log's files go from 0 to 196608");
    show(&store, 0, &["--raw", "--json"]).is(2, "one of them is enough");
    bare(&["show", "x"]).is(2, "which position?");
    bare(&["show", "x", "y"]).is(2, "y: a number is needed");
    bare(&["show", "x", "1", "2"]).is(2, "2: one position is enough");
}

#[test]
fn damage_is_told_and_passed_over() {
    let folder = Folder::new("damage");
    let store = built(&folder, "store");
    edit(&segment(&store, 0), |bytes| bytes[6696 + 4] ^= 1);
    for position in [6696, 6700, 6887] {
        show(&store, position, &[]).is(
            1,
            "it is in a part of the log that cannot be read, from 6696 to 6888, 192 bytes: answer 10: the record is damaged",
        );
    }
    show(&store, 6503, &[]).is(0, "").shows("P000017 C023");
    show(&store, DIVERT, &[]).is(0, "the record was read behind damage");
    show(&store, DIVERT + 5, &["--json"])
        .is(0, "")
        .shows("\"behind_damage\":true");
    std::fs::remove_file(segment(&store, 0)).unwrap();
    std::fs::copy(segment(&store, 65_536), segment(&store, 0)).unwrap();
    show(&store, 65_536, &[]).is(0, "read behind damage");
}

#[test]
fn odd_fields_and_bodies_are_shown() {
    let folder = Folder::new("odd");
    let store = folder.join("store");
    let properties = b"a\x01b\x02\x01x\x02\x02TAGS\x01one\x02half\x02TAGS\x01two";
    made(&store, 0, 4096, 2, |position, number| {
        let mut bytes = record(position, b"T", (0, number), 1000, properties);
        bytes[16..20].fill(0xff);
        bytes[36..40].copy_from_slice(&5u32.to_be_bytes());
        bytes[40..48].fill(0xff);
        bytes[48..56].copy_from_slice(&[192, 168, 0, 7, 0, 0, 0x1f, 0x90]);
        bytes[72..76].fill(0xff);
        bytes[76..84].fill(0xff);
        let body: &[u8] = match number {
            0 => b"line 1\nline \xe2\x80\xae2",
            _ => b"\x00\x01\xffABC",
        };
        let total = (bytes.len() + body.len()) as u32;
        bytes[0..4].copy_from_slice(&total.to_be_bytes());
        bytes[84..88].copy_from_slice(&(body.len() as u32).to_be_bytes());
        bytes[8..12].copy_from_slice(&broker::body_checksum(body).to_be_bytes());
        bytes.splice(88..88, body.iter().copied());
        bytes
    });
    let first = show(&store, 0, &[]);
    first
        .is(0, "at 192.168.0.7:8080")
        .shows("(-1) at 192.168.0.7");
    first.shows("\nsystem flag   5: transaction prepared, the body is compressed\n");
    first
        .shows("\nflag          -1\n")
        .shows("\nprepared at   -1\n");
    first.shows("\nreconsumed    -1 times\n");
    first.shows("\n  a          b\n  (no pair)  \\x01x\n  TAGS       one  (a later one counts)\n  (no pair)  half\n  TAGS       two\n");
    first.shows("\nbody          16 bytes\n  line 1\n  line \\xe2\\x80\\xae2\n");
    let json = show(&store, 0, &["--json"]).is(0, "").json();
    assert_eq!(json.get("properties").list().len(), 5);
    assert_eq!(json.get("born_time"), &Json::Number(-1.0));
    let second = first
        .out
        .split(" to ")
        .nth(1)
        .unwrap()
        .split(',')
        .next()
        .unwrap();
    let second: u64 = second.parse().unwrap();
    show(&store, second, &[])
        .is(0, "6 bytes, no text")
        .shows("\n  00000000  00 01 ff 41 42 43                                ...ABC\n");
    assert_eq!(raw(&store, second), b"\x00\x01\xffABC");
}

/// Two records with one key; the body of the second was damaged on the disk.
fn with_a_bad_body(store: &Path) -> (PathBuf, u64) {
    let mut broker = Broker::new(store);
    let mut put = |body: &[u8]| {
        broker.put(Message {
            keys: "k",
            body,
            store_time: MORNING,
            ..Message::default()
        })
    };
    put(b"chute 9");
    let bad = put(b"chute 10").position;
    let store = broker.finish();
    edit(&segment(&store, 0), |bytes| bytes[bad as usize + 88] = b'C');
    (store, bad)
}

#[test]
fn a_body_that_does_not_match_its_checksum_is_told() {
    let folder = Folder::new("checksum");
    let (store, bad) = with_a_bad_body(&folder.join("store"));
    let (stored, computed) = (
        broker::body_checksum(b"chute 10"),
        broker::body_checksum(b"Chute 10"),
    );
    let differs = format!(
        "the body does not match its checksum: the record has {stored:08x}, the body gives {computed:08x}"
    );
    let calls: [(&str, &[&str]); 2] = [
        ("query", &["--topic", "T", "--key", "k"]),
        ("queue", &["--topic", "T", "--queue", "0"]),
    ];
    for (command, options) in calls {
        // Without the body nothing is said of it.
        tool(command, &store, options).is(0, "2 records");
        let with_body = [options, &["--body"]].concat();
        tool(command, &store, &with_body)
            .is(1, &format!("swistopal: the record at {bad}: {differs}"))
            .shows(&format!("\n    Chute 10\n    ! {differs}\n"));
        let json = tool(command, &store, &[&with_body[..], &["--json"]].concat());
        let json = json.is(1, "").json();
        let matches = |record: &Json| record.get("body_checksum_matches") == &Json::Truth(true);
        let records = json.get("records").list();
        assert_eq!(records.iter().filter(|record| matches(record)).count(), 1);
        assert_eq!(json.get("faults").list().len(), 1);
    }
    let shown =
        format!("checksum      {stored:08x}, but the body gives {computed:08x}: it is damaged");
    show(&store, bad, &[]).is(1, &differs).shows(&shown);
    show(&store, 0, &[]).is(0, "as the body gives it");
}
