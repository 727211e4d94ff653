//! One bad place hides nothing but itself: what stands behind damage is read, and marked.

mod common;

use common::*;
use std::fs::{self, OpenOptions};
use std::path::Path;

/// A record in the middle of the demo's first segment: the missed divert of parcel 17.
const MIDDLE: usize = 6696;
const DEMO_END: u64 = 83_658;

fn cut(path: &Path, length: u64) {
    let file = OpenOptions::new().write(true).open(path).unwrap();
    file.set_len(length).unwrap();
}

/// The lines of a listing that are records or blanks, without the mark, and how many of them have it.
fn entries(listing: &str) -> (Vec<String>, usize) {
    let lines = listing.lines().skip(1);
    let entries = lines.filter(|line| !line.starts_with("stop ") && !line.contains(" damage "));
    let entries: Vec<&str> = entries.collect();
    let marked = entries.iter().filter(|line| line.ends_with(MARK)).count();
    let plain = entries.iter().map(|line| line.replace(MARK, ""));
    (plain.collect(), marked)
}

const MARK: &str = " behind-damage";

fn listed(store: &Path) -> (Vec<String>, usize) {
    entries(&tool("list", store, &["--resync"]).is(1, "").out)
}

#[test]
fn one_bad_record_hides_no_other() {
    let folder = Folder::new("hides");
    let sound = built(&folder, "sound");
    let (all, marked) = entries(&tool("list", &sound, &["--resync"]).is(0, "stop 0").out);
    assert_eq!((all.len(), marked), (439, 0));
    let at = all
        .iter()
        .position(|line| line.starts_with("6696 "))
        .unwrap();
    // Each field that soundness depends on: magic, total, log position, store time, queue id, system flag, body length.
    for (place, value) in [
        (4, 0xdb),
        (2, 0x7f),
        (35, 1),
        (57, 1),
        (12, 0x80),
        (39, 16),
        (85, 9),
    ] {
        let store = folder.join(&format!("place-{place}"));
        copy(&sound, &store);
        edit(&segment(&store, 0), |bytes| bytes[MIDDLE + place] ^= value);
        let before = files(&store);
        let run = tool("list", &store, &["--resync"]);
        run.is(
            1,
            "from 6696 to 6888, 192 bytes: answer 10: the record is damaged",
        )
        .shows("\n6696 192 damage 10\n6888 ")
        .shows("\nstop 0\n");
        let (found, marked) = entries(&run.out);
        let mut expected = all.clone();
        expected.remove(at);
        assert_eq!(found, expected);
        assert_eq!(marked, 439 - 1 - at);
        assert_eq!(files(&store), before);
        // Without the option it ends there, as the lister does.
        tool("list", &store, &[])
            .is(1, "the log stops at 6696 with 10")
            .is(1, "--resync goes on behind 6696")
            .shows("\nstop 10\n");
        tool("list", &store, &["--topic", "NOPE"])
            .is(1, "the log from 0 to 6696 has no topic NOPE");
        let long = tool("list", &store, &["--resync", "--long"]);
        long.is(1, "").shows("(behind damage)");
        long.shows("\n6696 192 damage 10\n");
        let json = tool("list", &store, &["--resync", "--json"])
            .is(1, "")
            .json();
        assert_eq!(json.get("damaged_parts").number(), 1);
        assert_eq!(json.get("damaged_bytes").number(), 192);
        let objects = json.get("entries").list();
        assert_eq!(objects[at].get("damage"), &Json::Truth(true));
        assert_eq!(objects[at].get("position").number(), 6696);
        assert_eq!(objects[at].get("length").number(), 192);
        assert_eq!(objects[at].get("answer").number(), 10);
        let mark = |number: usize| objects[number].get("behind_damage").clone();
        assert_eq!(mark(at - 1), Json::Truth(false));
        assert_eq!(mark(at + 1), Json::Truth(true));
    }
}

#[test]
fn zeros_and_garbage_are_passed_over() {
    let folder = Folder::new("garbage");
    let sound = built(&folder, "sound");
    let (all, _) = entries(&tool("list", &sound, &[]).out);
    let without = |from: u64, to: u64| -> Vec<String> {
        let position = |line: &String| line.split(' ').next().unwrap().parse::<u64>().unwrap();
        let kept = all
            .iter()
            .filter(|line| !(from..to).contains(&position(line)));
        kept.cloned().collect()
    };
    type Harm = fn(&mut [u8]);
    let harms: [(&str, Harm); 4] = [
        ("zeros", |bytes| bytes.fill(0)),
        ("ones", |bytes| bytes.fill(0xff)),
        // Every place looks like a record's or a blank's start.
        ("magic", |bytes| {
            for part in bytes.chunks_exact_mut(4) {
                part.copy_from_slice(&MESSAGE);
            }
        }),
        ("blank", |bytes| {
            for part in bytes.chunks_exact_mut(4) {
                part.copy_from_slice(&[0xcb, 0xd4, 0x31, 0x94]);
            }
        }),
    ];
    for (name, harm) in harms {
        let store = folder.join(name);
        copy(&sound, &store);
        edit(&segment(&store, 0), |bytes| {
            harm(&mut bytes[MIDDLE..MIDDLE + 4096])
        });
        let (found, marked) = listed(&store);
        assert_eq!(found, without(6696, (MIDDLE + 4096) as u64), "{name}");
        assert!(marked > 350, "{name}: {marked}");
    }
    // The rest of a segment, with its blank: the next segment is read.
    let store = folder.join("rest");
    copy(&sound, &store);
    edit(&segment(&store, 0), |bytes| bytes[MIDDLE..].fill(0));
    assert_eq!(listed(&store).0, without(6696, 65_536));
    tool("list", &store, &["--resync"]).shows("\n6696 58840 damage zeros\n65536 ");
    // A blank of a wrong length.
    let store = folder.join("wrong");
    copy(&sound, &store);
    edit(&segment(&store, 0), |bytes| bytes[65_484] = 54);
    assert_eq!(listed(&store).0, without(65_481, 65_536));
    // The last record: nothing follows but zeros.
    let store = folder.join("last");
    copy(&sound, &store);
    edit(&segment(&store, 65_536), |bytes| {
        bytes[83_484 - 65_536 + 4] ^= 1
    });
    assert_eq!(listed(&store), (without(83_484, DEMO_END), 0));
    tool("list", &store, &["--resync"]).shows("\n83484 174 damage 10\nstop 0\n");
}

/// A copy of a record in another's body is none: its position is another one. Nor is a blank before sound records.
#[test]
fn what_only_looks_like_a_record_is_none() {
    let folder = Folder::new("looks");
    let store = folder.join("store");
    let inner = record(0, b"T", (0, 0), 1000, b"");
    made(&store, 0, 4096, 4, |position, number| {
        let mut bytes = record(position, b"T", (0, number), 1000, b"");
        if number == 1 {
            // The second record's body: a copy of the first record, then a blank up to the segment's end.
            let place = position as usize + 88 + inner.len();
            let blank = [
                &(4096 - place as u32).to_be_bytes()[..],
                &[0xcb, 0xd4, 0x31, 0x94],
            ]
            .concat();
            let body = [&inner[..], &blank].concat();
            let total = (bytes.len() + body.len()) as u32;
            bytes[0..4].copy_from_slice(&total.to_be_bytes());
            bytes[84..88].copy_from_slice(&(body.len() as u32).to_be_bytes());
            bytes.splice(88..88, body);
        }
        bytes
    });
    let (all, _) = entries(&tool("list", &store, &[]).is(0, "").out);
    assert_eq!(all.len(), 4);
    edit(&segment(&store, 0), |bytes| bytes[92 + 12] |= 0x80);
    let (found, marked) = listed(&store);
    assert_eq!(found, [&all[..1], &all[2..]].concat());
    assert_eq!(marked, 2);
}

/// The demo's log in five segments of 16 KiB, and what a listing has of each.
fn in_small_segments(store: &Path) -> Vec<Vec<String>> {
    for number in 0..5u64 {
        let first = number * 16_384;
        let name = format!("KEYS\x01s{number}");
        made(store, first, 16_384, 20, |position, entry| {
            record(
                position,
                b"T",
                (0, number * 20 + entry),
                1000 + number,
                name.as_bytes(),
            )
        });
        edit(&segment(store, first), |bytes| {
            let used = 20 * (91 + 1 + name.len());
            bytes[used..used + 4].copy_from_slice(&(16_384 - used as u32).to_be_bytes());
            bytes[used + 4..used + 8].copy_from_slice(&[0xcb, 0xd4, 0x31, 0x94]);
        });
    }
    let (all, _) = entries(&tool("list", store, &[]).is(0, "").out);
    assert_eq!(all.len(), 5 * 21);
    all.chunks(21).map(<[String]>::to_vec).collect()
}

#[test]
fn missing_short_and_long_segments_hide_no_other() {
    let folder = Folder::new("segments");
    let whole = folder.join("whole");
    let all = in_small_segments(&whole);
    let harmed = |name: &str, harm: &dyn Fn(&Path)| {
        let store = folder.join(name);
        copy(&whole, &store);
        harm(&store);
        store
    };
    let remove = |first: u64| move |store: &Path| fs::remove_file(segment(store, first)).unwrap();

    let store = harmed("missing", &remove(16_384));
    assert_eq!(
        listed(&store),
        ([&all[..1], &all[2..]].concat().concat(), 63)
    );
    tool("list", &store, &["--resync"])
        .is(1, "the segment at 16384 is missing before it")
        .shows("\n16384 16384 damage missing\n32768 ");
    // From behind the hole: that is what was asked for.
    let run = tool("list", &store, &["--from", "32768"]);
    assert_eq!(
        entries(&run.is(1, "is missing before it").out),
        (all[2..].concat(), 63)
    );
    edit(&segment(&store, 49_152), |bytes| bytes[4] ^= 1);
    let run = tool("list", &store, &["--from", "32768"]);
    run.is(1, "the log stops at 49152 with 10: the record is damaged");
    assert_eq!(entries(&run.out).0, all[2]);
    tool("list", &store, &["--from", "20000"]).is(
        2,
        "it is inside a part that cannot be read, from 16384 to 32768, 16,384 bytes: no file that can be read has them",
    );
    let two = harmed("two", &|store| {
        remove(16_384)(store);
        remove(49_152)(store);
    });
    let kept = [&all[0][..], &all[2], &all[4]].concat();
    assert_eq!(listed(&two), (kept, 42));
    // The first ones: those that follow start the log, as after a removal by the broker.
    let store = harmed("first", &remove(0));
    let run = tool("list", &store, &["--resync"]);
    assert_eq!(entries(&run.is(0, "").out), (all[1..].concat(), 0));

    let store = harmed("short", &|store| cut(&segment(store, 16_384), 990));
    let (found, marked) = listed(&store);
    let kept = [&all[0][..], &all[1][..10], &all[2..].concat()].concat();
    assert_eq!((found, marked), (kept, 63));
    tool("list", &store, &["--resync"]).is(1, "990 bytes of 16,384; it is cut short");
    // Not all of a record is there.
    let store = harmed("torn", &|store| cut(&segment(store, 16_384), 989));
    let (found, _) = listed(&store);
    assert_eq!(
        found,
        [&all[0][..], &all[1][..9], &all[2..].concat()].concat()
    );
    let store = harmed("empty", &|store| cut(&segment(store, 16_384), 0));
    assert_eq!(listed(&store).0, [&all[..1], &all[2..]].concat().concat());

    let store = harmed("long", &|store| cut(&segment(store, 16_384), 16_385));
    assert_eq!(listed(&store), (all.concat(), 84));
    tool("list", &store, &["--resync"]).is(
        1,
        "16,385 bytes, though a segment has 16,384; those behind are not read",
    );
    let store = harmed("long-first", &|store| cut(&segment(store, 0), 16_385));
    assert_eq!(listed(&store), (all.concat(), 105));

    // What cannot be read is not missing; nor is it waited for.
    for (name, sentence) in [
        ("folder", "a folder stands in a segment's place"),
        ("pipe", "a pipe stands in a segment's place"),
        ("loop", "it is there, but cannot be read: Too many levels"),
    ] {
        let store = harmed(name, &|store| {
            let path = segment(store, 16_384);
            fs::remove_file(&path).unwrap();
            match name {
                "folder" => fs::create_dir(path).unwrap(),
                "loop" => std::os::unix::fs::symlink(&path, &path).unwrap(),
                _ => {
                    let mut make = std::process::Command::new("mkfifo");
                    assert!(make.arg(path).status().unwrap().success());
                }
            }
        });
        assert_eq!(listed(&store).0, [&all[..1], &all[2..]].concat().concat());
        let run = tool("list", &store, &["--resync"]);
        run.is(1, &format!("00000000000000016384: {sentence}"));
        assert!(!run.err.contains("is missing"), "{}", run.err);
        // Without the option the log ends before it.
        let run = tool("list", &store, &[]);
        assert_eq!(entries(&run.is(1, sentence).out).0, all[0]);
    }
}

#[test]
fn a_store_that_cannot_be_read_is_not_missing() {
    let folder = Folder::new("unreadable");
    let around = |path: &Path| std::os::unix::fs::symlink(path, path).unwrap();
    let store = folder.join("store");
    around(&store);
    for command in ["list", "check", "rebuild"] {
        let run = tool(command, &store, &[]);
        run.is(1, "cannot read ")
            .is(1, "Too many levels of symbolic links");
    }
    fs::remove_file(&store).unwrap();
    fs::create_dir(&store).unwrap();
    around(&store.join("commitlog"));
    tool("list", &store, &[]).is(1, "store/commitlog: Too many levels of symbolic links");
    fs::remove_file(store.join("commitlog")).unwrap();
    fs::create_dir(store.join("commitlog")).unwrap();
    around(&segment(&store, 0));
    tool("list", &store, &["--resync"])
        .is(1, "no segment can be read: ")
        .is(
            1,
            "00000000000000000000: it is there, but cannot be read: Too many levels",
        );
    let pipe = folder.join("pipe");
    let made = std::process::Command::new("mkfifo").arg(&pipe).status();
    assert!(made.unwrap().success());
    tool("list", &pipe, &[]).is(2, "pipe: it is a pipe, no folder");
}

/// The positions that a query or a queue shows, and which of them are marked.
fn found(run: &Run) -> (Vec<u64>, Vec<u64>) {
    let json = run.json();
    let records = json.get("records").list();
    let positions = |marked: bool| {
        let records = records.iter();
        let records =
            records.filter(|record| !marked || record.get("behind_damage") == &Json::Truth(true));
        records
            .map(|record| record.get("position").number())
            .collect::<Vec<u64>>()
    };
    (positions(false), positions(true))
}

const PARCEL: [&str; 5] = ["--topic", "SORTER_DIVERT", "--key", "P000017", "--json"];
const QUEUE: [&str; 5] = ["--topic", "SORTER_DIVERT", "--queue", "2", "--json"];

#[test]
fn queries_and_queues_go_on_behind_damage() {
    let folder = Folder::new("searched");
    let sound = built(&folder, "sound");
    assert_eq!(
        found(&tool("query", &sound, &PARCEL)),
        (vec![8211, 6696], vec![])
    );
    let (queue, _) = found(tool("queue", &sound, &QUEUE).is(0, ""));
    let at = queue.iter().position(|position| *position == 6696).unwrap();

    let damaged = folder.join("damaged");
    copy(&sound, &damaged);
    edit(&segment(&damaged, 0), |bytes| bytes[MIDDLE + 4] ^= 1);
    let run = tool("query", &damaged, &PARCEL);
    assert_eq!(
        found(run.is(1, "it names position 6696")),
        (vec![8211], vec![8211])
    );
    tool("query", &damaged, &PARCEL[..4])
        .is(1, "1 record read behind damage")
        .shows("(behind damage)");
    let (shown, marked) =
        found(tool("queue", &damaged, &QUEUE).is(1, "an entry names position 6696"));
    assert_eq!(shown, [&queue[..at], &queue[at + 1..]].concat());
    assert_eq!(marked, queue[at + 1..]);
    // Damage that the question itself does not meet.
    let other = folder.join("other");
    copy(&sound, &other);
    edit(&segment(&other, 0), |bytes| bytes[4] ^= 1);
    let run = tool("query", &other, &PARCEL);
    assert_eq!(found(run.is(0, "")), (vec![8211, 6696], vec![8211, 6696]));
    let before = folder.join("before");
    copy(&sound, &before);
    edit(&segment(&before, 0), |bytes| bytes[8403 + 4] ^= 1);
    let run = tool("query", &before, &PARCEL);
    assert_eq!(found(run.is(0, "")), (vec![8211, 6696], vec![]));

    // An index that ends before the damage, and none at all.
    let lagging = folder.join("lagging");
    tool("demo", &lagging, &[]).is(0, "");
    let options = [&SMALL[..], &["--end", "6696"]].concat();
    tool("rebuild", &lagging, &options).is(0, "stop      0");
    edit(&segment(&lagging, 0), |bytes| bytes[MIDDLE + 4] ^= 1);
    let said = "the log cannot be read from 6696 to 6888";
    let run = tool("query", &lagging, &PARCEL);
    assert_eq!(found(run.is(1, said)), (vec![8211], vec![8211]));
    fs::remove_dir_all(lagging.join("index")).unwrap();
    let run = tool("query", &lagging, &[&PARCEL[..], &["--scan"]].concat());
    assert_eq!(found(run.is(1, said)), (vec![8211], vec![8211]));
    // One that cannot be opened: the log is looked through.
    fs::create_dir(lagging.join("index")).unwrap();
    fs::write(lagging.join("index/20260302055800842"), [0; 83]).unwrap();
    let run = tool("query", &lagging, &PARCEL);
    assert_eq!(
        found(run.is(1, "83 bytes are no index")),
        (vec![8211], vec![8211])
    );
}

#[test]
fn queries_and_queues_go_on_behind_a_missing_segment() {
    let folder = Folder::new("gone");
    let store = folder.join("store");
    in_small_segments(&store);
    tool("rebuild", &store, &SMALL).is(0, "stop      0");
    let ask = |key: &'static str| ["--topic", "T", "--key", key, "--json"];
    let (all, _) = found(&tool("query", &store, &ask("s3")));
    assert_eq!(all.len(), 20);
    fs::remove_file(segment(&store, 16_384)).unwrap();
    let run = tool("query", &store, &ask("s3"));
    let missing = "the segment at 16384 is missing before it";
    assert_eq!(found(run.is(1, missing)), (all.clone(), all.clone()));
    let run = tool("query", &store, &ask("s0"));
    assert_eq!(found(run.is(1, missing)).1, []);
    tool("query", &store, &ask("s1")).is(
        1,
        "it names position 16384, which no file of the log has that can be read",
    );
    let queue = ["--topic", "T", "--queue", "0", "--json"];
    let (shown, marked) = found(tool("queue", &store, &queue).is(1, missing));
    assert_eq!((shown.len(), marked.len()), (80, 60));
    // The index ends before the hole: what is behind it is found too.
    let lagging = folder.join("lagging");
    in_small_segments(&lagging);
    let options = [&SMALL[..], &["--end", "16384"]].concat();
    tool("rebuild", &lagging, &options).is(0, "stop      0");
    fs::remove_file(segment(&lagging, 16_384)).unwrap();
    let run = tool("query", &lagging, &ask("s3"));
    assert_eq!(found(run.is(1, missing)), (all.clone(), all));
}

/// The same numbers each time.
struct Chance(u64);

impl Chance {
    fn below(&mut self, limit: usize) -> usize {
        self.0 ^= self.0 << 13;
        self.0 ^= self.0 >> 7;
        self.0 ^= self.0 << 17;
        (self.0 % limit as u64) as usize
    }
}

const SEGMENT: usize = 16_384;
const SEGMENTS: usize = 6;

/// Segments full of records, some of which have copies of others in their bodies; first and last byte of each record.
fn full_of_records(chance: &mut Chance) -> (Vec<Vec<u8>>, Vec<(usize, usize)>) {
    let (mut segments, mut records) = (Vec::new(), Vec::new());
    for number in 0..SEGMENTS {
        let mut bytes: Vec<u8> = Vec::new();
        loop {
            let position = number * SEGMENT + bytes.len();
            let mut one = record(
                position as u64,
                b"T",
                (0, records.len() as u64),
                1000,
                b"KEYS\x01k",
            );
            let body = match chance.below(3) {
                0 => one.clone(),
                1 => bytes[bytes.len() / 2..].iter().copied().take(300).collect(),
                _ => vec![chance.below(256) as u8; chance.below(300)],
            };
            let total = one.len() + body.len();
            one[0..4].copy_from_slice(&(total as u32).to_be_bytes());
            one[84..88].copy_from_slice(&(body.len() as u32).to_be_bytes());
            one.splice(88..88, body);
            let left = SEGMENT - bytes.len();
            if total + 8 > left {
                bytes.extend((left as u32).to_be_bytes());
                bytes.extend([0xcb, 0xd4, 0x31, 0x94]);
                bytes.resize(SEGMENT, 0);
                break;
            }
            records.push((position, position + total));
            bytes.extend(one);
        }
        segments.push(bytes);
    }
    (segments, records)
}

/// Changes one place in one of several ways.
fn harm(segments: &mut [Vec<u8>], chance: &mut Chance) {
    let (one, other) = (chance.below(SEGMENTS), chance.below(SEGMENTS));
    let length = segments[one].len();
    if length == 0 {
        return;
    }
    let at = chance.below(length);
    let end = length.min(at + 1 + chance.below(600));
    let from = &segments[other];
    let copied: Vec<u8> = from
        .iter()
        .copied()
        .cycle()
        .skip(chance.below(5000))
        .take(end - at)
        .collect();
    let part = &mut segments[one][at..end];
    match chance.below(6) {
        0 => part[0] ^= 1 << chance.below(8),
        1 => part.fill(0),
        2 => part
            .iter_mut()
            .for_each(|byte| *byte = chance.below(256) as u8),
        3 if copied.len() == part.len() => part.copy_from_slice(&copied),
        4 => segments[one].truncate(at),
        _ if one > 0 => segments[one].clear(),
        _ => part[0] ^= 0xff,
    }
}

/// Whatever the damage is: every record that it does not touch is listed, and nothing that was never written.
#[test]
fn no_damage_hides_what_it_does_not_touch() {
    let folder = Folder::new("chance");
    let mut chance = Chance(20_261_116);
    let (sound, records) = full_of_records(&mut chance);
    assert!(records.len() > 200);
    for round in 0..120 {
        let mut harmed = sound.clone();
        for _ in 0..=chance.below(6) {
            harm(&mut harmed, &mut chance);
        }
        let store = folder.join(&format!("round-{round}"));
        fs::create_dir_all(store.join("commitlog")).unwrap();
        for (number, bytes) in harmed
            .iter()
            .enumerate()
            .filter(|(_, bytes)| !bytes.is_empty())
        {
            fs::write(segment(&store, (number * SEGMENT) as u64), bytes).unwrap();
        }
        let run = tool("list", &store, &["--resync", "--segment-size", "16384"]);
        let (lines, _) = entries(&run.out);
        let listed: Vec<usize> = lines
            .iter()
            .filter(|line| !line.ends_with(" blank"))
            .map(|line| line.split(' ').next().unwrap().parse().unwrap())
            .collect();
        let untouched = |&&(from, to): &&(usize, usize)| {
            let part = |segments: &[Vec<u8>]| {
                let place = from % SEGMENT..to - from / SEGMENT * SEGMENT;
                segments[from / SEGMENT].get(place).map(<[u8]>::to_vec)
            };
            part(&harmed) == part(&sound)
        };
        for (from, _) in records.iter().filter(untouched) {
            assert!(
                listed.contains(from),
                "round {round}: {from} is hidden\n{}",
                run.out
            );
        }
        for position in &listed {
            let written = records.iter().any(|(from, _)| from == position);
            assert!(written, "round {round}: {position} was never written");
        }
        fs::remove_dir_all(store).unwrap();
    }
}
