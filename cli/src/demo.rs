//! `swistopal demo`: a small store of a parcel sorter, the same one each time.

use crate::args::Args;
use crate::crc;
use crate::failure::{fault, usage, At, Failure, Outcome};
use crate::shell;
use crate::text::{counted, grouped, shown_path};
use crate::{note, out};
use std::fs;
use std::io::Write;
use std::os::unix::ffi::OsStrExt;
use swistopal::{append, Appended, Fields, LogPosition, Message, QueueOffset, Sizes};

const SEGMENT: usize = 65_536;
const SEGMENTS: usize = 3;
const PARCELS: u64 = 200;
/// Monday, 2 March 2026, early shift, in milliseconds.
const SHIFT_START: u64 = 1_772_431_080_000;
/// 10.20.0.11 with its port, as RocketMQ writes a host.
const CONTROLLER: [u8; 8] = [10, 20, 0, 11, 0, 0, 0x2a, 0x9f];

const INDUCTION: &str = "SORTER_INDUCTION";
const DIVERT: &str = "SORTER_DIVERT";
const TRIM: &str = "SORTER_TRIM";

pub fn run(args: &Args) -> Result<Outcome, Failure> {
    let store = args.place();
    let occupied = match fs::read_dir(store) {
        Ok(mut entries) => entries.next().is_some(),
        Err(_) => store.exists(),
    };
    if occupied {
        return usage(format!(
            "{}: it is there already; demo makes a new folder",
            shown_path(store)
        ));
    }
    let mut sorter = Sorter::new();
    sorter.run_shift()?;

    let folder = store.join("commitlog");
    fs::create_dir_all(&folder).at("create", &folder)?;
    for (number, segment) in sorter.log.chunks(SEGMENT).enumerate() {
        let path = folder.join(format!("{:020}", number * SEGMENT));
        fs::write(&path, segment).at("write", &path)?;
    }
    let place = shown_path(store);
    let mut out = out();
    writeln!(
        out,
        "{place}: {} in {} of {} bytes, {}",
        counted(sorter.records, "record", "records"),
        counted(SEGMENTS as u64, "segment", "segments"),
        grouped(SEGMENT as u64),
        counted(sorter.queues.len() as u64, "queue", "queues"),
    )?;
    out.flush()?;
    let word = shell::place(store.as_os_str().as_bytes());
    note(&format!("next: swistopal rebuild {word}"));
    note(&format!(
        "then: swistopal query {word} --topic {DIVERT} --key P000017"
    ));
    Ok(Outcome::Sound)
}

struct Sorter {
    log: Vec<u8>,
    end: LogPosition,
    clock: u64,
    records: u64,
    queues: Vec<((&'static str, u32), u64)>,
    chance: u64,
}

impl Sorter {
    fn new() -> Sorter {
        Sorter {
            log: vec![0; SEGMENT * SEGMENTS],
            end: LogPosition(0),
            clock: SHIFT_START,
            records: 0,
            queues: Vec::new(),
            chance: 20_260_302,
        }
    }

    /// Each parcel is inducted and diverted; some miss their chute and come round again; belts are trimmed now and then.
    fn run_shift(&mut self) -> Result<(), Failure> {
        let mut missed = Vec::new();
        for parcel in 1..=PARCELS {
            let carrier = parcel * 7 % 96;
            let chute = self.pick(180);
            let weight = 120 + self.pick(9000);
            let lane = (parcel % 2) as u32;
            self.event(
                INDUCTION,
                lane,
                "induct",
                &format!("P{parcel:06} C{carrier:03}"),
                &format!("lane {lane}, carrier {carrier}, {weight} g"),
            )?;
            if parcel % 11 == 6 {
                missed.push((parcel, carrier, chute));
                self.divert("missed", parcel, carrier, chute)?;
            } else {
                self.divert("divert", parcel, carrier, chute)?;
            }
            if parcel % 10 == 0 {
                let belt = 1 + parcel / 10 % 4;
                let millimetres = 1 + self.pick(9);
                self.event(
                    TRIM,
                    0,
                    "trim",
                    &format!("BELT-{belt}"),
                    &format!("belt {belt}, {millimetres} mm forward"),
                )?;
            }
            if parcel % 4 == 0 {
                if let Some((parcel, carrier, chute)) = missed.pop() {
                    self.divert("divert", parcel, carrier, chute)?;
                }
            }
        }
        Ok(())
    }

    fn divert(&mut self, tag: &str, parcel: u64, carrier: u64, chute: u64) -> Result<(), Failure> {
        self.event(
            DIVERT,
            (chute % 4) as u32,
            tag,
            &format!("P{parcel:06} CHUTE-{chute}"),
            &format!("carrier {carrier} at chute {chute}"),
        )
    }

    fn event(
        &mut self,
        topic: &'static str,
        queue_id: u32,
        tag: &str,
        keys: &str,
        body: &str,
    ) -> Result<(), Failure> {
        self.clock += 150 + self.pick(1700);
        self.records += 1;
        let properties = format!(
            "KEYS\x01{keys}\x02UNIQ_KEY\x010A14000B2A9F{:08X}\x02TAGS\x01{tag}\x02",
            self.records
        );
        let message = Message {
            fields: Fields {
                body_crc: crc::of_body(body.as_bytes()),
                queue_id: queue_id.into(),
                queue_offset: QueueOffset(self.next_offset(topic, queue_id)),
                born_time: self.clock - 3,
                store_time: self.clock,
                ..Fields::default()
            },
            born_host: &CONTROLLER,
            store_host: &CONTROLLER,
            body: body.as_bytes(),
            topic: topic.as_bytes(),
            properties: properties.as_bytes(),
        };
        let sizes = Sizes {
            segment_size: SEGMENT as u64,
            first_position: LogPosition(0),
            ..Sizes::default()
        };
        loop {
            match append(&mut self.log, &sizes, &message, &mut self.end) {
                Ok(Appended::Record) => return Ok(()),
                Ok(Appended::Blank) => {}
                Err(refusal) => return fault(format!("the demo does not fit: {refusal}")),
            }
        }
    }

    fn next_offset(&mut self, topic: &'static str, id: u32) -> u64 {
        let queue = (topic, id);
        match self.queues.iter_mut().find(|(known, _)| *known == queue) {
            Some((_, count)) => {
                *count += 1;
                *count
            }
            None => {
                self.queues.push((queue, 0));
                0
            }
        }
    }

    /// The same numbers each time.
    fn pick(&mut self, below: u64) -> u64 {
        self.chance ^= self.chance << 13;
        self.chance ^= self.chance >> 7;
        self.chance ^= self.chance << 17;
        self.chance % below
    }
}
