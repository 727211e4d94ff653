//! Topics, keys and tags in any language: given and shown as text, found in a broker's own index, rebuilt to its own bytes.
//! Text that is no UTF-8 is refused where it is given, and told as what it is where a record has it.

mod common;

use common::broker::*;
use common::*;
use std::ffi::OsStr;
use std::fs;
use std::os::unix::ffi::OsStrExt;
use std::path::{Path, PathBuf};
use std::process::Command;

/// Topic, tag, keys and unique key.
const TEXTS: [(&str, &str, &str, &str); 8] = [
    ("SORTER", "divert", "P000017 CHUTE-126", "0A14000B"),
    (
        "Förderstraße",
        "fehlgeleitet-ß",
        "Müller-7 Größe-XL",
        "Düsseldorf-1",
    ),
    ("Répartition", "été", "clé-à-œil Noël", "Évry-2"),
    ("Διαλογή", "αριστερά", "Αθήνα-Ω δέμα", "Θεσσαλονίκη-3"),
    ("分拣", "左", "包裹七 北京", "上海-4"),
    ("仕分け📦", "🚚", "😀 箱😀箱", "👷-5"),
    // One letter in two ways: these are two keys.
    ("T", "e\u{301}", "e\u{301} \u{e9}", "a\u{308}"),
    // The last of each length of a character, and no character before or behind them.
    (
        "\u{7f}\u{7ff}\u{ffff}\u{10ffff}",
        "\u{d7ff}\u{e000}",
        "\u{feff}k \u{fffd}",
        "\u{80}\u{800}\u{10000}",
    ),
];

/// A broker's store, twice each of the texts; and where they went.
fn spoken(store: &Path) -> Vec<[Put; 2]> {
    let mut broker = Broker::new(store).segment_size(8192).queue_entries(1000);
    let mut put = |turn: u64| {
        let puts = TEXTS.iter().zip(0..);
        let puts = puts.map(|((topic, tags, keys, uniq_key), number)| {
            broker.put(Message {
                topic,
                tags,
                keys,
                uniq_key: &format!("{uniq_key}-{turn}"),
                properties: &[("Straße", "Köln")],
                body: "Größe é 東京".as_bytes(),
                store_time: MORNING + 10_000 * turn + 1000 * number,
                ..Message::default()
            })
        });
        puts.collect::<Vec<Put>>()
    };
    let (first, second) = (put(0), put(1));
    broker.finish();
    first.into_iter().zip(second).map(|(a, b)| [a, b]).collect()
}

fn positions(run: &Run) -> Vec<u64> {
    let json = run.is(0, "").json();
    let records = json.get("records").list().iter();
    records
        .map(|record| record.get("position").number())
        .collect()
}

fn query(store: &Path, options: &[&str]) -> Vec<u64> {
    positions(&tool("query", store, &[options, &["--json"]].concat()))
}

#[test]
fn a_brokers_own_index_is_asked_in_any_language() {
    let folder = Folder::new("spoken-query");
    let store = folder.join("store");
    let puts = spoken(&store);
    tool("check", &store, &[]).is(0, "nothing: the store is sound");
    tool(
        "query",
        &store,
        &["--topic", "Förderstraße", "--key", "Müller-7"],
    )
    .is(0, "2 records of topic Förderstraße with key Müller-7")
    .is(0, "2 items of the index read")
    .shows("fehlgeleitet-ß / Düsseldorf-1-1 Müller-7 Größe-XL");
    for ((topic, tags, keys, uniq_key), puts) in TEXTS.iter().zip(&puts) {
        let [first, second] = puts.map(|put| put.position);
        for key in keys.split(' ') {
            let ask = ["--topic", topic, "--key", key];
            assert_eq!(query(&store, &ask), [second, first], "{key}");
            assert_eq!(query(&store, &ask[2..]), [second, first], "{key}");
            let scan = [&ask[..], &["--scan"]].concat();
            assert_eq!(query(&store, &scan), [second, first], "{key}");
        }
        let unique = format!("{uniq_key}-1");
        assert_eq!(query(&store, &["--unique-key", &unique]), [second]);
        let queue = ["--topic", topic, "--queue", "0", "--tag", tags, "--json"];
        assert_eq!(positions(&tool("queue", &store, &queue)), [first, second]);
        let list = tool("list", &store, &["--topic", topic, "--jsonl"]);
        assert_eq!(list.is(0, "").out.lines().count(), 3);
    }
    // Without an accent, or with another one, it is another key.
    for key in ["Muller-7", "Mu\u{308}ller-7", "müller-7", "MÃ¼ller-7"] {
        let options = ["--topic", "Förderstraße", "--key", key];
        assert!(query(&store, &options).is_empty(), "{key}");
    }
    let queue = ["--topic", "Répartition", "--queue", "0", "--tag", "ete"];
    tool("queue", &store, &queue).is(0, "0 records of queue Répartition/0");
    tool("query", &store, &["--topic", "Repartition", "--key", "x"]).is(
        0,
        "consumequeue has no topic Repartition; its topics are: Förderstraße, Répartition, SORTER, T",
    );
}

#[test]
fn a_rebuild_gives_a_brokers_own_bytes() {
    let folder = Folder::new("spoken-rebuild");
    let store = folder.join("store");
    spoken(&store);
    let results = |store: &Path| ["consumequeue", "index"].map(|name| files(&store.join(name)));
    let of_broker = results(&store);
    assert_eq!(of_broker.each_ref().map(|files| files.len()), [8, 1]);
    let into = folder.join("Büro");
    let sizes = ["--entries", "1000", "--slots", "500", "--items", "2000"];
    let rebuild = [&sizes[..], &["--into", into.to_str().unwrap()]].concat();
    tool("rebuild", &store, &rebuild)
        .is(0, "stop      0")
        .shows("queue     Förderstraße/0: 2 entries\n")
        .shows("queue     仕分け📦/0: 2 entries\n");
    assert!(results(&into) == of_broker);
    // Batch by batch, with a plan on the disk, and only some of the queues.
    let list = folder.join("queues");
    let lines = TEXTS.map(|(topic, ..)| format!("{} 0\n", topic.replace('\u{7f}', "\\x7f")));
    fs::write(&list, lines.concat()).unwrap();
    let again = folder.join("again");
    let rebuild = [&sizes[..], &["--into", again.to_str().unwrap()]].concat();
    let named = [&rebuild[..], &["--queues", list.to_str().unwrap()]].concat();
    for (steps, said) in [("5", "9: the budget is spent"), ("5", "9:"), ("100", "0:")] {
        let options = [&named[..], &["--budget", steps, "--batch", "2"]].concat();
        tool("rebuild", &store, &options).is(0, &format!("stop      {said}"));
    }
    assert!(results(&again) == of_broker);
}

#[test]
fn text_is_shown_as_it_is() {
    let folder = Folder::new("spoken-shown");
    let store = folder.join("store");
    let puts = spoken(&store);
    let long = tool("list", &store, &["--long"]);
    for line in [
        "Förderstraße / fehlgeleitet-ß / Düsseldorf-1-0 Müller-7 Größe-XL\n",
        "Répartition / été / Évry-2-0 clé-à-œil Noël\n",
        "Διαλογή / αριστερά / Θεσσαλονίκη-3-0 Αθήνα-Ω δέμα\n",
        "分拣 / 左 / 上海-4-0 包裹七 北京\n",
        "仕分け📦 / 🚚 / 👷-5-0 😀 箱😀箱\n",
        // What cannot be seen, and what turns the direction, is escaped.
        "\\x7f\u{7ff}\u{ffff}\u{10ffff} / \u{d7ff}\u{e000} / \\xc2\\x80\u{800}\u{10000}-0 \\xef\\xbb\\xbfk \u{fffd}\n",
    ] {
        long.is(0, "").shows(line);
    }
    let json = tool("list", &store, &["--json"]).is(0, "").json();
    let entries = json.get("entries").list();
    for ((topic, tags, keys, uniq_key), entry) in TEXTS.iter().zip(entries) {
        let text = |text: &str| Json::Text(String::from(text));
        assert_eq!(entry.get("topic"), &text(topic));
        assert_eq!(entry.get("tags"), &text(tags));
        let words = keys.split(' ').map(text);
        let all = [text(&format!("{uniq_key}-0"))].into_iter().chain(words);
        assert_eq!(entry.get("keys").list(), all.collect::<Vec<Json>>());
    }
    let german = puts[1][0].position.to_string();
    bare(&["show", store.to_str().unwrap(), &german])
        .is(0, "topic         Förderstraße\n")
        .shows("tags          fehlgeleitet-ß\n")
        .shows("  UNIQ_KEY  Düsseldorf-1-0\n  KEYS      Müller-7 Größe-XL\n")
        .shows("  Straße    Köln\n")
        .shows("  Größe é 東京\n");
    let page = folder.join("page.html");
    tool("report", &store, &["--html", page.to_str().unwrap()])
        .is(0, "12.5 %      0  Förderstraße\n")
        .shows("  仕分け📦\n");
    let page = fs::read_to_string(page).unwrap();
    for (topic, ..) in &TEXTS[..6] {
        assert!(page.contains(&format!("<th scope=\"row\">{topic}</th>")));
        assert!(page.contains(&format!(">{topic}/0</text>")), "{topic}");
    }
    // Names with marks and wide characters are aligned as a terminal shows them.
    let aligned = folder.join("aligned");
    made(&aligned, 0, 4096, 1, |position, _| {
        let properties = "e\u{301}\u{1}1\u{2}東京\u{1}2\u{2}abcd\u{1}3".as_bytes();
        record(position, b"T", (0, 0), 1000, properties)
    });
    bare(&["show", aligned.to_str().unwrap(), "0"])
        .is(0, "  e\u{301}     1\n  東京  2\n  abcd  3\n");
}

fn with_bytes(command: &str, store: &Path, words: &[&[u8]]) -> Run {
    let mut call = Command::new(TOOL);
    call.arg(command).arg(store);
    call.args(words.iter().map(|word| OsStr::from_bytes(word)));
    let output = call.output().unwrap();
    Run {
        status: output.status.code().unwrap(),
        out: String::from_utf8(output.stdout).unwrap(),
        err: String::from_utf8(output.stderr).unwrap(),
    }
}

#[test]
fn arguments_that_are_no_utf8_are_refused() {
    let folder = Folder::new("spoken-refused");
    let store = built(&folder, "store");
    let before = files(&store);
    let refused = |command: &str, words: &[&[u8]], said: &str| {
        let run = with_bytes(command, &store, words);
        run.is(2, said);
        assert_eq!(run.out, "");
        assert_eq!(run.err.lines().count(), 1, "{}", run.err);
    };
    // As a terminal of ISO 8859-1 sends it.
    refused(
        "query",
        &[b"--key", b"M\xfcller-7"],
        "--key M\\xfcller-7: it is no UTF-8, which topics, keys and tags are: at byte 1, the first one being 0, stands \
         fc 6c 6c 65, where no character starts\n",
    );
    for (text, at, what) in [
        (&b"\xc0\x80"[..], 0, "c0 80, where no character starts"),
        (
            b"ab\xed\xa0\xbd\xed\xb8\x80",
            2,
            "ed a0 bd ed, where no character starts",
        ),
        (
            b"\xc3\xa9\xf4\x90\x80\x80",
            2,
            "f4 90 80 80, where no character starts",
        ),
        (b"k\xe2\x82", 1, "e2 82, a character that is cut short"),
        (
            b"\xf0\x9f\x98",
            0,
            "f0 9f 98, a character that is cut short",
        ),
        (b"a\x80", 1, "80, where no character starts"),
    ] {
        let said = format!("at byte {at}, the first one being 0, stands {what}\n");
        let given = |name: &str| [name.as_bytes(), text].concat();
        refused("query", &[&given("--key=")], &said);
        refused("query", &[&given("--unique-key=")], &said);
        refused("query", &[b"--key=k", &given("--topic=")], &said);
        refused("list", &[b"--topic", text], &said);
        refused("queue", &[b"--queue=0", &given("--topic=")], &said);
        let queue: [&[u8]; 2] = [b"--topic=SORTER_TRIM", b"--queue=0"];
        refused("queue", &[&queue[..], &[&given("--tag=")]].concat(), &said);
    }
    // A list of queues is a file of text.
    let list = folder.join("queues");
    fs::write(&list, b"SORTER_TRIM 0\nF\xf6rder 1\n").unwrap();
    for command in ["report", "rebuild", "check"] {
        let path = list.as_os_str().as_bytes();
        let said = "queues, line 2: it is no UTF-8, which topics are: at byte 1, the first one being 0, stands f6 72 64 65, \
                    where no character starts\n";
        refused(command, &[b"--queues", path], said);
    }
    assert!(files(&store) == before);
    // A folder's name may be any; it is no topic to ask the index for.
    let odd = store
        .join("consumequeue")
        .join(OsStr::from_bytes(b"\xff/0"));
    fs::create_dir_all(odd).unwrap();
    tool("query", &store, &["--key", "P000017"]).is(0, "3 records with key P000017 in 3 topics");
}

/// A record of one segment: what it has as topic and properties.
type Text<'a> = (&'a [u8], &'a [u8]);

/// A store with a sound record, the given one, and two sound ones behind it; the position of each.
fn store_with(store: &Path, (topic, properties): Text) -> [u64; 4] {
    let mut positions = Vec::new();
    made(store, 8192, 8192, 4, |position, number| {
        positions.push(position);
        let (topic, properties) = match number {
            1 => (topic, properties),
            _ => (&b"T"[..], &b"KEYS\x01k"[..]),
        };
        record(position, topic, (0, number), MORNING, properties)
    });
    positions.try_into().unwrap()
}

/// Text that makes a record unsound: which part of it, at which byte of the record, and what stands there.
const UNSOUND: [(Text, &str, u64, &str); 12] = [
    (
        (b"T\xfc", b""),
        "topic",
        90,
        "fc, where no character starts",
    ),
    (
        (b"\xe2\x82", b""),
        "topic",
        89,
        "e2 82, a character that is cut short",
    ),
    (
        (b"T", b"TAGS\x01\xff"),
        "TAGS",
        97,
        "ff, where no character starts",
    ),
    (
        (b"T", b"KEYS\x01a \xc0\x80 b"),
        "KEYS",
        99,
        "c0 80 20 62, where no character starts",
    ),
    (
        (b"T", b"UNIQ_KEY\x01\xed\xa0\x80"),
        "UNIQ_KEY",
        101,
        "ed a0 80, where no character starts",
    ),
    (
        (b"T", b"KEYS\x01\xf4\x90\x80\x80"),
        "KEYS",
        97,
        "f4 90 80 80, where no character starts",
    ),
    (
        (b"T", b"KEYS\x01\xc3\x02TAGS\x01\xa9"),
        "KEYS",
        97,
        "c3, a character that is cut short",
    ),
    (
        (b"T", b"KEYS\x01k\x02TAGS\x01\xa9"),
        "TAGS",
        104,
        "a9, where no character starts",
    ),
    // The last pair of a name counts.
    (
        (b"T", b"TAGS\x01a\x02TAGS\x01b\xff"),
        "TAGS",
        105,
        "ff, where no character starts",
    ),
    // Of several the first is told.
    (
        (b"\xff", b"TAGS\x01\xfe"),
        "topic",
        89,
        "ff, where no character starts",
    ),
    (
        (b"T", b"UNIQ_KEY\x01\x80\x02TAGS\x01\xfe"),
        "UNIQ_KEY",
        101,
        "80, where no character starts",
    ),
    (
        (b"\xc3\xa9", b"WAIT\x01\xff\x02TAGS\x01\xc3\xa9\xc3"),
        "TAGS",
        107,
        "c3, a character that is cut short",
    ),
];

#[test]
fn text_that_makes_a_record_unsound_is_told_everywhere() {
    let folder = Folder::new("spoken-unsound");
    for (number, (text, part, byte, what)) in UNSOUND.into_iter().enumerate() {
        let store = folder.join(&format!("store-{number}"));
        let [_, bad, next, _] = store_with(&store, text);
        let before = files(&store);
        let place = store.to_str().unwrap();
        let flaw = format!(
            "the record is damaged; its {part} is no UTF-8: at byte {byte} of the record, position {}, stands {what}",
            bad + byte
        );
        let stops = format!("stops at {bad} with 10: {flaw}");
        let check = tool("check", &store, &[]);
        check.is(
            1,
            &format!("! log      it {stops}; it can be read again from {next} on\n"),
        );
        check.shows(
            "get another copy of commitlog/00000000000000008192; if that has the same bytes, a client has sent them so; until then",
        );
        // Only the part before it is named to be made, where nothing is in its place.
        assert!(!check.out.contains("--force") && !check.out.contains("--shorten"));
        let json = tool("check", &store, &["--json"]).is(1, "").json();
        let found = json.get("findings").list().iter();
        let mut found = found.filter(|finding| finding.get("kind") == &Json::Text("damage".into()));
        let finding = found.next().unwrap();
        assert_eq!(finding.get("answer").number(), 10);
        assert_eq!(finding.get("goes_on").number(), next);
        let text = finding.get("no_utf8");
        assert_eq!(text.get("part"), &Json::Text(String::from(part)));
        assert_eq!(text.get("byte").number(), byte);
        assert_eq!(text.get("position").number(), bad + byte);
        let hex: String = what.split(',').next().unwrap().replace(' ', "");
        assert_eq!(text.get("hex"), &Json::Text(hex));

        let said = format!("the log {stops}\n");
        tool("list", &store, &[]).is(1, &said).shows("stop 10\n");
        tool("report", &store, &[])
            .is(1, &said)
            .shows("records           1\n");
        for command in ["list", "report"] {
            let json = tool(command, &store, &["--json"]).is(1, "").json();
            assert_eq!(json.get("sentence"), &Json::Text(flaw.clone()));
        }
        let passed = format!(
            "from {bad} to {next}, {} bytes: answer 10: {flaw}",
            next - bad
        );
        let resync = tool("list", &store, &["--resync"]);
        resync.is(1, &format!("passed over: {passed}\n"));
        resync.shows(&format!("\n{bad} {} damage 10\n{next} ", next - bad));
        let json = tool("list", &store, &["--resync", "--json"])
            .is(1, "")
            .json();
        let skipped = &json.get("entries").list()[1];
        assert_eq!(skipped.get("no_utf8"), text);
        bare(&["show", place, &bad.to_string()]).is(1, &passed);
        bare(&["show", place, &next.to_string()]).is(0, "the record was read behind damage");
        tool("query", &store, &["--topic", "T", "--key", "k", "--scan"])
            .is(1, &format!("the log cannot be read {passed}"))
            .is(1, "3 records of topic T with key k");
        tool("rebuild", &store, &SMALL)
            .is(1, &format!("the log {stops}; nothing was put in place"));
        let left = files(&store);
        assert_eq!(left, before);
    }
}

/// What no rule looks at may be any bytes; so may what is not all that is wrong.
#[test]
fn text_that_does_not_count_is_not_judged() {
    let folder = Folder::new("spoken-free");
    for (number, properties) in [
        &b"WAIT\x01\xff"[..],
        b"\xffKEYS\x01\xff\x02KEYS\xff\x01\xfe",
        b"\xef\xbb\xbfKEYS\x01\xff",
        b"KEYS\x01\xff\x02KEYS\x01a",
        b"TAGS\x01\xff\x01\x02TAGS\x01\x02\xff",
        b"KEYS\x01\xef\xbf\xbf\x00",
    ]
    .into_iter()
    .enumerate()
    {
        let store = folder.join(&format!("store-{number}"));
        store_with(&store, (b"T", properties));
        tool("list", &store, &[]).is(0, "stop 0");
        tool("rebuild", &store, &SMALL).is(0, "stop      0");
        tool("check", &store, &[]).is(0, "nothing: the store is sound");
        // The same bytes as a property that is shown.
        tool("list", &store, &["--long", "--topic", "T"]).is(0, "");
        bare(&["show", store.to_str().unwrap(), "8290"]).is(0, "properties");
    }
    for (number, damage) in [
        (56, 1u8),
        (12, 0x80),
        (36 + 3, 0x10),
        (28, 1),
        (3, 1),
        (4, 1),
    ]
    .into_iter()
    .enumerate()
    {
        let store = folder.join(&format!("both-{number}"));
        let [_, bad, ..] = store_with(&store, (b"T", b"TAGS\x01\xff"));
        edit(&segment(&store, 8192), |bytes| {
            bytes[(bad - 8192) as usize + damage.0] ^= damage.1
        });
        let check = tool("check", &store, &[]);
        check.is(
            1,
            &format!("stops at {bad} with 10: the record is damaged; "),
        );
        assert!(!check.out.contains("UTF-8"), "{}", check.out);
    }
}

/// Queues and index of a broker name the record: it is told with them, and all others are found.
#[test]
fn a_record_that_an_index_names_is_told() {
    let folder = Folder::new("spoken-named");
    let store = folder.join("store");
    let puts = spoken(&store);
    let bad = puts[1][0].position;
    edit(&segment(&store, 0), |bytes| {
        let from = bad as usize;
        let at = bytes[from..]
            .windows(7)
            .position(|key| key == "Müller".as_bytes());
        // The second byte of the ü.
        bytes[from + at.unwrap() + 2] = b'l';
    });
    let ask = ["--topic", "Förderstraße", "--key", "Müller-7"];
    let named = format!("it names position {bad}, where reading the log answers 10: the record is damaged; its KEYS is no UTF-8: ");
    let run = tool("query", &store, &ask);
    run.is(1, &named)
        .is(1, "c3 6c 6c 6c, where no character starts")
        .is(1, "1 record of topic Förderstraße with key Müller-7");
    let queue = ["--topic", "Förderstraße", "--queue", "0"];
    let named = format!("an entry names position {bad}, where reading the log answers 10: the record is damaged; its KEYS is no UTF-8: ");
    tool("queue", &store, &queue)
        .is(1, &named)
        .is(1, "1 record of queue Förderstraße/0");
    let check = tool("check", &store, &[]);
    check
        .is(1, "rebuild only after that")
        .shows("its KEYS is no UTF-8");
    assert!(!check.out.contains("swistopal rebuild"), "{}", check.out);
    tool("rebuild", &store, &["--force"]).is(1, "nothing was put in place");
}

/// A version that hashed bytes has left other codes and hashes: each is told, and a rebuild makes them anew.
#[test]
fn hashes_of_bytes_are_told_and_made_anew() {
    let folder = Folder::new("spoken-bytes");
    let store = folder.join("store");
    spoken(&store);
    let of_broker = files(&store);
    let queue = store.join("consumequeue/Répartition/0/00000000000000000000");
    let by_bytes = |bytes: &[u8]| {
        let hash = bytes.iter().fold(0i32, |hash, byte| {
            hash.wrapping_mul(31).wrapping_add(i32::from(*byte))
        });
        i64::from(hash)
    };
    let (old, new) = (by_bytes("été".as_bytes()), i64::from(java_hash("été")));
    edit(&queue, |bytes| {
        bytes[12..20].copy_from_slice(&old.to_be_bytes())
    });
    let check = tool("check", &store, &[]);
    check
        .is(1, "Répartition/0: entry 0 differs from the log's")
        .shows(&format!("code {old}; by the log"))
        .shows(&format!("code {new}\n"))
        .shows("make queues and index from the log: swistopal rebuild");
    let sizes = ["--entries", "1000", "--slots", "500", "--items", "2000"];
    tool("rebuild", &store, &[&sizes[..], &["--force"]].concat()).is(0, "stop      0");
    tool("check", &store, &[]).is(0, "nothing: the store is sound");
    remove_kept(&store);
    assert!(files(&store) == of_broker);
}

/// The words that `check` names hold for a shell whatever the language of a folder is.
#[test]
fn commands_are_quoted_for_a_shell() {
    let folder = Folder::new("spoken-shell");
    let store: PathBuf = folder.join("Büro Ωμέγα 東京 📦");
    let mut broker = Broker::new(&store).log_only();
    broker.put(Message {
        topic: "Förderstraße",
        keys: "Müller-7",
        ..Message::default()
    });
    broker.finish();
    let check = tool("check", &store, &[]);
    let line = check
        .out
        .lines()
        .find(|line| line.contains("swistopal rebuild"));
    let (_, call) = line.unwrap().split_once(": swistopal ").unwrap();
    assert!(call.contains("Büro Ωμέγα 東京 📦'"), "{call}");
    shell(&format!("swistopal {call}")).is(0, "stop      0");
    tool("query", &store, &["--key", "Müller-7"]).is(0, "1 record with key Müller-7");
}
