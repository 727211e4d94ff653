//! The report through the C interface and through the model, and how the figures of neighbouring stretches add up.

use model::interface::{self, Figures, Sizes};

use crate::archive;
use crate::judge::{shown, Check, Judge, ARCHIVE_AND_MODEL};
use crate::lent::{Lent, Twin};
use crate::operations::{Bench, LookedAt, Operation, OLD, SIZES};

/// The members of the struct of figures, in the header's order.
const FIGURES: [&str; 27] = [
    "records",
    "blanks",
    "body_bytes",
    "smallest",
    "largest",
    "rows[0]",
    "rows[1]",
    "rows[2]",
    "rows[3]",
    "rows[4]",
    "rows[5]",
    "rows[6]",
    "rows[7]",
    "rows[8]",
    "rows[9]",
    "rows[10]",
    "rows[11]",
    "rows[12]",
    "rows[13]",
    "rows[14]",
    "rows[15]",
    "unlisted",
    "none",
    "prepared",
    "commit",
    "rollback",
    "items",
];
const RECORDS: usize = 0;
const SMALLEST: usize = 3;
const LARGEST: usize = 4;

// A struct is lent as its numbers.
const _: () = assert!(size_of::<archive::Figures>() == 8 * FIGURES.len());

/// The stops of a report.
const STOPS: [u32; 3] = [0, 8, 10];

/// A stretch of log to be reported.
#[derive(Clone, Copy)]
pub struct Stretch<'a> {
    pub log: &'a Twin<u8>,
    pub sizes: Sizes,
    pub directory: &'a Twin<u8>,
    pub position: u64,
    pub readable_end: u64,
}

/// What the archive reports of a stretch.
#[derive(Clone, Copy)]
pub struct Reported {
    pub answer: u32,
    figures: [u64; 27],
}

/// How often neighbouring stretches that both hold a record added up, by the stop of the second one.
#[derive(Clone, Default)]
pub struct NeighbourCounts {
    stops: [u64; STOPS.len()],
}

impl NeighbourCounts {
    pub fn add(&mut self, other: &NeighbourCounts) {
        for (count, other_count) in self.stops.iter_mut().zip(&other.stops) {
            *count += other_count;
        }
    }

    pub fn said(&self) -> String {
        let mut line = "neighbouring stretches, both with records:".to_string();
        for (stop, count) in STOPS.iter().zip(self.stops) {
            line.push_str(&format!(" {stop}:{count}"));
        }
        line
    }

    /// Stops that no neighbouring stretches came to.
    pub fn missed(&self) -> Vec<String> {
        let stops = STOPS.iter().zip(self.stops);
        stops
            .filter(|(_, count)| *count == 0)
            .map(|(stop, _)| format!("neighbouring stretches {stop}"))
            .collect()
    }
}

impl Stretch<'_> {
    fn said(&self, sizes: &Sizes) -> String {
        format!(
            "report from {} to {}, {sizes:?}, log of {} bytes, directory {}",
            self.position,
            self.readable_end,
            self.log.len(),
            shown(self.directory.get())
        )
    }

    /// The archive's answer; its figures are written to those that are lent.
    fn by_archive(&self, sizes: &Lent<u64>, figures: &mut Lent<u64>) -> u32 {
        // SAFETY: every pointer comes with its length, none is null, a struct is its numbers, and no two buffers overlap.
        unsafe {
            archive::swistopal_report(
                self.log.archive.pointer(),
                self.log.archive.len(),
                sizes.pointer().cast(),
                self.position,
                self.readable_end,
                self.directory.archive.pointer(),
                self.directory.archive.len(),
                figures.pointer_mut().cast(),
            )
        }
    }

    /// The model's answer; its figures are written to those that are lent.
    fn by_model(&self, sizes: &Sizes, figures: &mut Figures) -> u32 {
        interface::report(
            &self.log.model,
            sizes,
            self.position,
            self.readable_end,
            &self.directory.model,
            figures,
        )
    }
}

impl Bench {
    pub fn report(&mut self, stretch: &Stretch) -> Check<Reported> {
        self.number += 1;
        let sizes = self.sizes(&stretch.sizes, LookedAt::Log);
        let describe = || stretch.said(&sizes);
        let judge = Judge {
            operation: Operation::Report,
            number: self.number,
            sides: ARCHIVE_AND_MODEL,
            call: &describe,
        };
        let lent_sizes = Lent::new(&sizes.numbers());
        let mut archive_figures = Lent::new(&[OLD; 27]);
        let archive = stretch.by_archive(&lent_sizes, &mut archive_figures);
        let mut figures = old_figures();
        let model = judge.model(|| stretch.by_model(&sizes, &mut figures))?;
        self.answered(&judge, archive, model)?;
        judge.same_members("figures", &FIGURES, &archive_figures, &figures.numbers())?;
        judge.same_members("sizes", &SIZES, &lent_sizes, &sizes.numbers())?;
        judge.same_cells("log", &stretch.log.archive, &stretch.log.model)?;
        let directory = stretch.directory;
        judge.same_cells("directory", &directory.archive, &directory.model)?;
        let figures = archive_figures.content();
        Ok(Reported {
            answer: archive,
            figures: figures.try_into().expect("27 numbers"),
        })
    }

    /// On the archive alone: a report up to `middle`, if it stops with 0, and one from there on add up to the whole one.
    pub fn report_twice(&mut self, whole: &Stretch, middle: u64) -> Check<()> {
        let both = self.report(whole)?;
        let first = self.report(&Stretch {
            readable_end: middle,
            ..*whole
        })?;
        if first.answer != 0 {
            return Ok(());
        }
        let second = self.report(&Stretch {
            position: middle,
            ..*whole
        })?;
        let (position, readable_end) = (whole.position, whole.readable_end);
        let call = format!(
            "report from {position} to {readable_end}, and those of it up to {middle} and from there on"
        );
        self.expect(
            Operation::Report,
            &call,
            "answer",
            both.answer,
            second.answer,
        )?;
        let sum = added(&first.figures, &second.figures);
        for (name, (figure, sum)) in FIGURES.iter().zip(both.figures.into_iter().zip(sum)) {
            self.expect(Operation::Report, &call, name, figure, sum)?;
        }
        if first.figures[RECORDS] > 0 && second.figures[RECORDS] > 0 {
            let stop = STOPS.iter().position(|stop| *stop == both.answer);
            self.counts.neighbours.stops[stop.expect("no refusal")] += 1;
        }
        Ok(())
    }
}

/// What the figures of two neighbouring stretches come to: smallest and largest of those with a record, all else in sum.
fn added(first: &[u64; 27], second: &[u64; 27]) -> [u64; 27] {
    let mut sum = *first;
    for (figure, more) in sum.iter_mut().zip(second) {
        *figure += more;
    }
    let with_record = || [first, second].into_iter().filter(|part| part[RECORDS] > 0);
    let smallest = with_record().map(|part| part[SMALLEST]).min();
    let largest = with_record().map(|part| part[LARGEST]).max();
    sum[SMALLEST] = smallest.unwrap_or(0);
    sum[LARGEST] = largest.unwrap_or(0);
    sum
}

/// What the figures hold before a report, in the model: as the archive is lent them.
fn old_figures() -> Figures {
    Figures {
        records: OLD,
        blanks: OLD,
        body_bytes: OLD,
        smallest: OLD,
        largest: OLD,
        rows: [OLD; 16],
        unlisted: OLD,
        none: OLD,
        prepared: OLD,
        commit: OLD,
        rollback: OLD,
        items: OLD,
    }
}
