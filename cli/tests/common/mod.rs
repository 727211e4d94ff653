//! What the tests share: a folder of their own, the tool's runs, a checker of JSON, stores to damage.
#![allow(dead_code, reason = "each test uses a part")]

pub mod broker;
pub mod sites;

use std::collections::BTreeMap;
use std::fs;
use std::path::{Path, PathBuf};
use std::process::{Command, Output};

pub const TOOL: &str = env!("CARGO_BIN_EXE_swistopal");
/// Sizes that keep files small.
pub const SMALL: [&str; 6] = ["--entries", "300", "--slots", "97", "--items", "3000"];
pub const MESSAGE: [u8; 4] = [0xda, 0xa3, 0x20, 0xa7];

/// A new folder that goes away with its owner.
pub struct Folder(pub PathBuf);

impl Folder {
    pub fn new(name: &str) -> Folder {
        let name = format!("swistopal-{name}-{}", std::process::id());
        let path = std::env::temp_dir().join(name);
        let _ = fs::remove_dir_all(&path);
        fs::create_dir_all(&path).unwrap();
        Folder(path)
    }

    pub fn join(&self, name: &str) -> PathBuf {
        self.0.join(name)
    }
}

impl Drop for Folder {
    fn drop(&mut self) {
        let _ = fs::remove_dir_all(&self.0);
    }
}

/// How a run ended.
pub struct Run {
    pub status: i32,
    pub out: String,
    pub err: String,
}

pub fn tool(command: &str, place: &Path, options: &[&str]) -> Run {
    let mut call = Command::new(TOOL);
    call.arg(command).arg(place).args(options);
    of(call.output().unwrap())
}

pub fn bare(words: &[&str]) -> Run {
    of(Command::new(TOOL).args(words).output().unwrap())
}

/// What a shell makes of a command that the tool names.
pub fn shell(command: &str) -> Run {
    let folder = Path::new(TOOL).parent().expect("the tool is in a folder");
    let mut paths = vec![folder.to_path_buf()];
    paths.extend(std::env::split_paths(&std::env::var_os("PATH").unwrap()));
    let mut call = Command::new("bash");
    call.args(["-c", command]);
    call.env("PATH", std::env::join_paths(paths).unwrap());
    of(call.output().unwrap())
}

fn of(output: Output) -> Run {
    Run {
        status: output.status.code().expect("the tool ends by itself"),
        out: String::from_utf8(output.stdout).expect("results are UTF-8"),
        err: String::from_utf8(output.stderr).expect("sentences are UTF-8"),
    }
}

impl Run {
    /// The exit status, and a part of what was said; whatever is said on standard error is a sentence of the tool.
    #[track_caller]
    pub fn is(&self, status: i32, said: &str) -> &Run {
        let Run { out, err, .. } = self;
        assert_eq!(self.status, status, "out: {out}\nerr: {err}");
        assert!(
            err.contains(said) || out.contains(said),
            "{said:?} not in\nout: {out}\nerr: {err}"
        );
        assert!(
            err.lines().all(|line| line.starts_with("swistopal: ")),
            "{err}"
        );
        self
    }

    #[track_caller]
    pub fn shows(&self, part: &str) -> &Run {
        assert!(self.out.contains(part), "{part:?} not in {}", self.out);
        self
    }

    #[track_caller]
    pub fn json(&self) -> Json {
        Json::parse(&self.out)
    }
}

/// A store with queues and index of small sizes.
pub fn built(folder: &Folder, name: &str) -> PathBuf {
    let store = folder.join(name);
    tool("demo", &store, &[]).is(0, "438 records");
    tool("rebuild", &store, &SMALL).is(0, "stop      0");
    store
}

pub fn copy(from: &Path, to: &Path) {
    fs::create_dir_all(to).unwrap();
    for entry in fs::read_dir(from).unwrap() {
        let entry = entry.unwrap();
        let target = to.join(entry.file_name());
        if entry.path().is_dir() {
            copy(&entry.path(), &target);
        } else {
            fs::copy(entry.path(), target).unwrap();
        }
    }
}

/// Every file below a folder with its bytes.
pub fn files(folder: &Path) -> BTreeMap<PathBuf, Vec<u8>> {
    fn add(base: &Path, folder: &Path, found: &mut BTreeMap<PathBuf, Vec<u8>>) {
        for entry in fs::read_dir(folder).unwrap() {
            let path = entry.unwrap().path();
            if path.is_dir() {
                add(base, &path, found);
            } else {
                let name = path.strip_prefix(base).unwrap().to_path_buf();
                found.insert(name, fs::read(&path).unwrap());
            }
        }
    }
    let mut found = BTreeMap::new();
    add(folder, folder, &mut found);
    found
}

pub fn segment(store: &Path, first: u64) -> PathBuf {
    store.join("commitlog").join(format!("{first:020}"))
}

/// What rebuilds have kept of a result: its folders with a time in their names.
pub fn kept(store: &Path, result: &str) -> Vec<PathBuf> {
    let entries = fs::read_dir(store).unwrap();
    let mut found: Vec<PathBuf> = entries.map(|entry| entry.unwrap().path()).collect();
    found.retain(|path| {
        let name = path.file_name().unwrap().to_str().unwrap();
        let time = name
            .strip_prefix(result)
            .and_then(|rest| rest.strip_prefix('.'));
        time.is_some_and(|time| time.len() >= 20 && time.contains("T") && time.contains("Z"))
    });
    found.sort();
    found
}

/// As whoever owns the store removes it.
pub fn remove_kept(store: &Path) {
    for result in ["consumequeue", "index"] {
        for folder in kept(store, result) {
            fs::remove_dir_all(folder).unwrap();
        }
    }
}

pub fn queue_file(store: &Path, topic: &str, queue: u32) -> PathBuf {
    let folder = store.join("consumequeue").join(topic);
    folder.join(queue.to_string()).join("00000000000000000000")
}

pub fn index_file(store: &Path) -> PathBuf {
    let mut entries = fs::read_dir(store.join("index")).unwrap();
    entries.next().unwrap().unwrap().path()
}

/// Changes a file's bytes.
pub fn edit(path: &Path, change: impl FnOnce(&mut Vec<u8>)) {
    let mut bytes = fs::read(path).unwrap();
    change(&mut bytes);
    fs::write(path, bytes).unwrap();
}

/// Changes a rebuild's journal and gives it its sum again.
pub fn edit_journal(store: &Path, change: impl FnOnce(&mut Vec<u8>)) {
    edit(&store.join("swistopal.rebuild/journal"), |bytes| {
        bytes.truncate(bytes.len() - 8);
        change(bytes);
        let mut sum = 0xcbf2_9ce4_8422_2325u64;
        let mut add = |word: u64| {
            sum = (sum ^ word).wrapping_mul(0x9e37_79b9_7f4a_7c15);
            sum ^= sum >> 32;
        };
        for word in bytes.chunks_exact(8) {
            add(u64::from_be_bytes(word.try_into().unwrap()));
        }
        let mut last = [0; 8];
        let rest = bytes.chunks_exact(8).remainder();
        last[..rest.len()].copy_from_slice(rest);
        add(u64::from_be_bytes(last));
        add(bytes.len() as u64);
        bytes.extend(sum.to_be_bytes());
    });
}

/// A record by hand, written from the record's layout.
pub fn record(
    position: u64,
    topic: &[u8],
    queue: (u32, u64),
    time: u64,
    properties: &[u8],
) -> Vec<u8> {
    let mut bytes = vec![0; 88];
    let total = 91 + topic.len() + properties.len();
    bytes[0..4].copy_from_slice(&(total as u32).to_be_bytes());
    bytes[4..8].copy_from_slice(&MESSAGE);
    bytes[12..16].copy_from_slice(&queue.0.to_be_bytes());
    bytes[20..28].copy_from_slice(&queue.1.to_be_bytes());
    bytes[28..36].copy_from_slice(&position.to_be_bytes());
    bytes[56..64].copy_from_slice(&time.to_be_bytes());
    bytes.push(topic.len() as u8);
    bytes.extend(topic);
    bytes.extend((properties.len() as u16).to_be_bytes());
    bytes.extend(properties);
    bytes
}

/// A store with one segment that starts at `first`, filled by `make(position, number)` and then zeros.
pub fn made(
    store: &Path,
    first: u64,
    size: usize,
    count: u64,
    mut make: impl FnMut(u64, u64) -> Vec<u8>,
) {
    let mut log = Vec::new();
    for number in 0..count {
        let position = first + log.len() as u64;
        log.extend(make(position, number));
    }
    assert!(log.len() + 8 <= size);
    log.resize(size, 0);
    fs::create_dir_all(store.join("commitlog")).unwrap();
    fs::write(segment(store, first), log).unwrap();
}

/// Just enough of a JSON reader to refuse what is not JSON.
#[derive(Debug, Clone, PartialEq)]
pub enum Json {
    Null,
    Truth(bool),
    Number(f64),
    Text(String),
    List(Vec<Json>),
    Object(Vec<(String, Json)>),
}

impl Json {
    #[track_caller]
    pub fn parse(text: &str) -> Json {
        let mut reader = Reader { rest: text };
        let value = reader.value();
        reader.space();
        assert_eq!(reader.rest, "", "something follows the object");
        value
    }

    #[track_caller]
    pub fn get(&self, name: &str) -> &Json {
        let Json::Object(fields) = self else {
            panic!("no object: {self:?}");
        };
        let found = fields.iter().find(|(field, _)| field == name);
        &found.unwrap_or_else(|| panic!("no {name} in {self:?}")).1
    }

    /// The names of an object's fields.
    #[track_caller]
    pub fn names(&self) -> Vec<&str> {
        match self {
            Json::Object(fields) => fields.iter().map(|(name, _)| name.as_str()).collect(),
            other => panic!("no object: {other:?}"),
        }
    }

    #[track_caller]
    pub fn list(&self) -> &[Json] {
        match self {
            Json::List(values) => values,
            other => panic!("no list: {other:?}"),
        }
    }

    #[track_caller]
    pub fn number(&self) -> u64 {
        match self {
            Json::Number(number) => *number as u64,
            other => panic!("no number: {other:?}"),
        }
    }
}

struct Reader<'a> {
    rest: &'a str,
}

impl Reader<'_> {
    fn space(&mut self) {
        self.rest = self.rest.trim_start_matches([' ', '\n', '\r', '\t']);
    }

    fn takes(&mut self, word: &str) -> bool {
        self.space();
        match self.rest.strip_prefix(word) {
            Some(rest) => {
                self.rest = rest;
                true
            }
            None => false,
        }
    }

    fn needs(&mut self, word: &str) {
        let taken = self.takes(word);
        assert!(taken, "{word} expected at {:.40}", self.rest);
    }

    fn value(&mut self) -> Json {
        for (word, value) in [
            ("null", Json::Null),
            ("true", Json::Truth(true)),
            ("false", Json::Truth(false)),
        ] {
            if self.takes(word) {
                return value;
            }
        }
        if self.takes("[") {
            return Json::List(self.several("]", Reader::value));
        }
        if self.takes("{") {
            return Json::Object(self.several("}", |reader| {
                reader.needs("\"");
                let name = reader.string();
                reader.needs(":");
                (name, reader.value())
            }));
        }
        if self.takes("\"") {
            return Json::Text(self.string());
        }
        let end = self.rest.find(|c: char| !"+-.0123456789eE".contains(c));
        let (digits, rest) = self.rest.split_at(end.unwrap_or(self.rest.len()));
        self.rest = rest;
        let leading = digits.len() > 1 && digits.starts_with('0') && !digits.starts_with("0.");
        assert!(!leading, "{digits}: no number of JSON");
        Json::Number(digits.parse().expect("a number"))
    }

    fn several<T>(&mut self, end: &str, one: impl Fn(&mut Self) -> T) -> Vec<T> {
        let mut values = Vec::new();
        if self.takes(end) {
            return values;
        }
        loop {
            values.push(one(self));
            if self.takes(end) {
                return values;
            }
            self.needs(",");
        }
    }

    fn string(&mut self) -> String {
        let mut text = String::new();
        let mut characters = self.rest.chars();
        loop {
            match characters.next().expect("the string ends") {
                '"' => break,
                '\\' => match characters.next().expect("an escape") {
                    'u' => {
                        let digits: String = characters.by_ref().take(4).collect();
                        let code = u32::from_str_radix(&digits, 16).expect("four digits");
                        text.push(char::from_u32(code).expect("a character"));
                    }
                    escaped @ ('"' | '\\' | '/') => text.push(escaped),
                    other => panic!("\\{other} is no escape that the tool writes"),
                },
                control if control < ' ' => panic!("a control character in a string"),
                character => text.push(character),
            }
        }
        self.rest = characters.as_str();
        text
    }
}
