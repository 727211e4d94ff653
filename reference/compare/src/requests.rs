//! Append requests that no record can keep, and those with bytes that are not UTF-8 for a text: each fault alone, in a
//! request that is good without it, at every kind of place. The header has them as 5, after 1 and 2 and before 6 and 7.

use model::interface::Sizes;

use crate::judge::Check;
use crate::lent::Twin;
use crate::messages::{Draft, TOPICS};
use crate::operations::{Bench, Operation};
use crate::random::Random;
use crate::store::{Plan, Store};
use crate::texts::faulty_text;
use crate::variation::Variation;

/// 2^32: the least number that 4 bytes do not keep.
const ABOVE_4_BYTES: u64 = 1 << 32;

/// A fault: what is wrong, and of which number, host or text.
#[derive(Clone, Copy)]
pub struct Fault {
    kind: Kind,
    part: usize,
}

#[derive(Clone, Copy)]
enum Kind {
    JustAbove,
    Huge,
    Empty,
    Short,
    Long,
    Text,
}

const NUMBERS: [&str; 5] = [
    "body_crc",
    "queue_id",
    "flag",
    "system_flag",
    "reconsume_times",
];
const HOSTS: [&str; 2] = ["born_host", "store_host"];
const TEXTS: [&str; 4] = ["topic", "TAGS", "KEYS", "UNIQ_KEY"];

impl Fault {
    pub const ALL: [Fault; 20] = {
        let mut all = [Fault {
            kind: Kind::JustAbove,
            part: 0,
        }; 20];
        let mut i = 0;
        while i < 20 {
            let (kind, part) = match i {
                0..5 => (Kind::JustAbove, i),
                5..10 => (Kind::Huge, i - 5),
                10..12 => (Kind::Empty, i - 10),
                12..14 => (Kind::Short, i - 12),
                14..16 => (Kind::Long, i - 14),
                _ => (Kind::Text, i - 16),
            };
            all[i] = Fault { kind, part };
            i += 1;
        }
        all
    };

    pub fn name(self) -> String {
        match self.kind {
            Kind::JustAbove => format!("{} of 2^32", NUMBERS[self.part]),
            Kind::Huge => format!("{} of 2^63 and more", NUMBERS[self.part]),
            Kind::Empty => format!("{} of no bytes", HOSTS[self.part]),
            Kind::Short => format!("{} of less than 8 bytes", HOSTS[self.part]),
            Kind::Long => format!("{} of more than 8 bytes", HOSTS[self.part]),
            Kind::Text => format!("{} that is not UTF-8", TEXTS[self.part]),
        }
    }

    /// Puts the fault into a good draft. The low 4 bytes of a number and the first 8 of a longer host would do, so that
    /// it shows where they are cut.
    pub fn put(self, draft: &mut Draft, random: &Random) {
        match self.kind {
            Kind::JustAbove => *self.number(draft) = ABOVE_4_BYTES,
            Kind::Huge => {
                let high = random.pick(&[
                    1 << 63,
                    u64::MAX << 32,
                    1 << 63 | 1 << 32,
                    1 << 63 | random.next() << 32,
                ]);
                *self.number(draft) |= high;
            }
            Kind::Empty => self.host(draft).clear(),
            Kind::Short => self
                .host(draft)
                .truncate(random.pick(&[1, 4, 6, 7, 7]) as usize),
            Kind::Long => {
                let length = random.pick(&[9, 9, 10, 16, 20, 256, 264, 65_536 + 8]);
                let more = random.bytes(length - 8);
                self.host(draft).extend(more);
            }
            Kind::Text => {
                let bytes = faulty_text(random, random.pick(&[1, 2, 9, 40, 120]));
                if self.part == 0 {
                    draft.topic = bytes;
                } else {
                    draft.properties = [TEXTS[self.part].as_bytes(), b"\x01", &bytes].concat();
                }
            }
        }
    }

    fn number(self, draft: &mut Draft) -> &mut u64 {
        match self.part {
            0 => &mut draft.body_crc,
            1 => &mut draft.queue_id,
            2 => &mut draft.flag,
            3 => &mut draft.system_flag,
            _ => &mut draft.reconsume_times,
        }
    }

    fn host(self, draft: &mut Draft) -> &mut Vec<u8> {
        match self.part {
            0 => &mut draft.born_host,
            _ => &mut draft.store_host,
        }
    }
}

/// Where a request is made, and what it is answered without the fault and with it.
#[derive(Clone, Copy)]
pub struct Site {
    kind: SiteKind,
    pub name: &'static str,
    pub without: u32,
    pub with: u32,
}

#[derive(Clone, Copy)]
enum SiteKind {
    Fits,
    DoesNotFit,
    DoesNotFitTheLog,
    LogsEnd,
    BadPosition,
    BadSizes,
}

pub const SITES: [Site; 6] = [
    Site {
        kind: SiteKind::Fits,
        name: "where it fits",
        without: 0,
        with: 5,
    },
    Site {
        kind: SiteKind::DoesNotFit,
        name: "where it does not fit the segment",
        without: 7,
        with: 5,
    },
    Site {
        kind: SiteKind::DoesNotFitTheLog,
        name: "where it does not fit the last segment",
        without: 6,
        with: 5,
    },
    Site {
        kind: SiteKind::LogsEnd,
        name: "at the log's end",
        without: 6,
        with: 5,
    },
    Site {
        kind: SiteKind::BadPosition,
        name: "at a bad position",
        without: 2,
        with: 2,
    },
    Site {
        kind: SiteKind::BadSizes,
        name: "with bad sizes",
        without: 1,
        with: 1,
    },
];

/// How often each fault alone was refused, by where the request was made.
#[derive(Clone, Default)]
pub struct RequestCounts {
    pub refused: [[u64; SITES.len()]; Fault::ALL.len()],
}

impl RequestCounts {
    pub fn add(&mut self, other: &RequestCounts) {
        for (row, other_row) in self.refused.iter_mut().zip(&other.refused) {
            for (count, other_count) in row.iter_mut().zip(other_row) {
                *count += other_count;
            }
        }
    }

    /// Faults and sites that came to no request.
    pub fn missed(&self) -> Vec<String> {
        let mut missed = Vec::new();
        for (fault, row) in Fault::ALL.iter().zip(&self.refused) {
            for (site, count) in SITES.iter().zip(row) {
                if *count == 0 {
                    missed.push(format!("{} {}", fault.name(), site.name));
                }
            }
        }
        missed
    }

    pub fn least(&self) -> u64 {
        let counts = self.refused.iter().flatten();
        counts.copied().min().unwrap_or(0)
    }
}

/// A log, its sizes and a write position, as a site has them.
struct Ground {
    log: Twin<u8>,
    sizes: Sizes,
    position: u64,
}

/// The ground of a site for a record of so many bytes.
fn ground(random: &Random, store: &Store, site: SiteKind, total: u64) -> Ground {
    let mut other = Variation::of(store, 0);
    let s = other.sizes.segment_size;
    let b = other.sizes.first_position;
    let log_end = store.log_end();
    // Room for a blank, but not for the record and what follows it.
    let too_little = random.between(8, total + 7);
    let position = match site {
        SiteKind::Fits => b,
        SiteKind::DoesNotFit => b + s - too_little,
        SiteKind::DoesNotFitTheLog => log_end - too_little,
        SiteKind::LogsEnd => log_end,
        SiteKind::BadPosition => random.pick(&[
            log_end + 1,
            u64::MAX,
            b.wrapping_sub(1),
            b + s - random.between(1, 7),
            log_end - random.between(1, 7),
        ]),
        SiteKind::BadSizes => {
            other.spoil_log(random);
            random.pick(&[b, log_end, other.sizes.first_position, u64::MAX])
        }
    };
    Ground {
        log: other.log,
        sizes: other.sizes,
        position,
    }
}

/// Each fault in a good request at one site, first without it.
pub fn requests(bench: &mut Bench, random: &Random) -> Check<()> {
    let plan = Plan {
        roomy: true,
        ..Plan::default()
    };
    let mut store = Store::empty(random, plan);
    while store.log.len() as u64 == store.sizes.segment_size {
        store = Store::empty(random, plan);
    }
    for (number, fault) in Fault::ALL.iter().enumerate() {
        let place = random.below(SITES.len() as u64) as usize;
        let site = SITES[place];
        let mut draft = good_draft(random, &store);
        let mut ground = ground(random, &store, site.kind, draft.total());
        let position = ground.position;
        let mut answer_of = |bench: &mut Bench, draft: &Draft| {
            let mut write_position = position;
            let message = draft.message();
            bench.append(
                &mut ground.log,
                &ground.sizes,
                &message,
                &mut write_position,
            )
        };
        let without = answer_of(bench, &draft)?;
        let call = format!("append of a good request {}", site.name);
        bench.expect(Operation::Append, &call, "answer", without, site.without)?;
        fault.put(&mut draft, random);
        let with = answer_of(bench, &draft)?;
        let call = format!("append {} with a {}", site.name, fault.name());
        bench.expect(Operation::Append, &call, "answer", with, site.with)?;
        bench.counts.requests.refused[number][place] += 1;
    }
    hosts_together(bench, random, &mut store)
}

/// Hosts of 16 bytes together, of which none has 8.
fn hosts_together(bench: &mut Bench, random: &Random, store: &mut Store) -> Check<()> {
    let mut draft = good_draft(random, store);
    let hosts = [draft.born_host, draft.store_host].concat();
    let (born_host, store_host) = hosts.split_at(random.pick(&[0, 4, 7, 9, 12, 16]));
    draft.born_host = born_host.to_vec();
    draft.store_host = store_host.to_vec();
    let mut position = store.sizes.first_position;
    let message = draft.message();
    let answer = bench.append(&mut store.log, &store.sizes, &message, &mut position)?;
    let call = "append with hosts of 16 bytes together";
    bench.expect(Operation::Append, call, "answer", answer, 5)
}

/// A request that a record can keep, at the edges of what it can.
fn good_draft(random: &Random, store: &Store) -> Draft {
    let (_, queue_id) = random.pick(&store.rows);
    let mut draft = Draft {
        queue_id: random.pick(&[u64::from(queue_id), 0, (1 << 31) - 1]),
        system_flag: random.pick(&[0, 4, 8, 12, 0xFFFF_FFCF, 0x8000_0000]),
        ..Draft::least(random.pick(&TOPICS))
    };
    draft.scatter(random);
    let body_length = random.below(50);
    draft.body = random.bytes(body_length);
    draft
}
