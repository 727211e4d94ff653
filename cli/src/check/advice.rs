//! What to do next. Nothing that is named here shortens or replaces what may find more than the log gives.

use super::compared::{Compared, Found, Others};
use super::made::Made;
use super::reach::Rest;
use super::report::Report;
use super::results::Results;
use super::survey::Survey;
use crate::args::Args;
use crate::files::Unfit;
use crate::log::{Cause, Log, Skipped};
use crate::shell;
use crate::text::shown_path;
use crate::work;
use std::ffi::OsStr;
use std::os::unix::ffi::OsStrExt;
use swistopal::{Answer, LogPosition};

/// The store as a rebuild finds it.
pub struct Site<'a> {
    pub args: &'a Args,
    pub log: &'a Log,
    pub survey: &'a Survey,
    in_the_way: bool,
}

/// What stands against a rebuild that replaces what is there.
#[derive(Default)]
pub struct Standing {
    /// Entries or items that no record of the log gives.
    pub more_than_the_log: bool,
    /// Among them some that the log should have.
    pub newer_than_the_log: bool,
    /// Records of queues that were not listed.
    pub unlisted: bool,
    /// Something that cannot be read.
    pub unreadable: bool,
    /// A topic that cannot be a folder's name.
    pub impossible: bool,
    /// The first record that is out of step.
    pub out_of_step: Option<u64>,
    /// Where the first entry or item is missing.
    pub missing_from: Option<u64>,
    /// Something else is wrong than that entries or items are missing.
    pub wrong: bool,
}

impl Standing {
    pub fn of(compared: &Compared, results: &Results) -> Standing {
        let mut standing = Standing::default();
        let mut more = false;
        let mut take = |rest: &Rest, missing: Option<u64>, wrong: bool| {
            let more = rest.older + rest.not_read + rest.behind + rest.strays.count;
            standing.more_than_the_log |= more > 0;
            standing.newer_than_the_log |= rest.behind + rest.strays.count > 0;
            standing.wrong |= wrong || rest.behind + rest.strays.count > 0;
            let from = standing.missing_from.into_iter().chain(missing);
            standing.missing_from = from.min();
        };
        let sides = &compared.sides;
        for side in &sides.list {
            let missing = side.missing.first.map(|(_, position)| position);
            let wrong =
                side.differing.count > 0 || !side.refused.is_empty() || !side.holes.is_empty();
            take(&side.rest, missing, wrong || side.impossible.is_some());
        }
        if let Found::Merged { merge, rest } = &compared.index {
            for merged in &merge.files {
                take(&merged.rest, None, merged.differing.count > 0);
            }
            let mut repeated = merge.files.iter().map(|merged| merged.repeated);
            more |= repeated.any(|count| count > 0);
            let differ = matches!(rest, Others::Differ(_));
            take(&Rest::default(), merge.missing.first, differ);
        }
        if let Found::Absent { first, .. } = compared.index {
            take(&Rest::default(), Some(first), false);
        }
        standing.impossible = sides.list.iter().any(|side| side.impossible.is_some());
        standing.wrong |= !results.refused.is_empty();
        standing.more_than_the_log |= more;
        standing.unlisted = sides.unlisted > 0;
        let files = sides.list.iter().flat_map(|side| &side.refused);
        let mut files = files.chain(&results.refused);
        standing.unreadable =
            results.unreadable.is_some() || files.any(|file| file.unfit == Unfit::Unreadable);
        let jumps = sides.list.iter().filter_map(|side| side.out_of_step.first);
        standing.out_of_step = jumps.map(|jump| jump.position).min();
        standing
    }
}

impl<'a> Site<'a> {
    pub fn new(args: &'a Args, log: &'a Log, survey: &'a Survey) -> Site<'a> {
        Site {
            args,
            log,
            survey,
            in_the_way: work::results_in_the_way(args.place()).is_some(),
        }
    }

    fn damaged(&self) -> bool {
        self.survey.is_damaged() || !self.log.faults.is_empty()
    }

    /// Where the log can be read without passing over anything.
    pub fn sound_end(&self) -> LogPosition {
        let first = self.survey.skipped.first();
        let end = first.map_or(self.survey.end.position, |skipped| skipped.from);
        end.min(self.log.end())
    }

    /// Of which segments another copy is needed.
    pub fn copies(&self, report: &mut Report) {
        let end = self.sound_end().0;
        let until = format!("until then a rebuild goes up to {end}");
        let damage = self.survey.skipped.iter();
        let mut files = Vec::new();
        for skipped in damage.filter(|skipped| skipped.is_damage()) {
            if self.ends_inside_a_record(skipped) {
                report.advise(format!("name an --end where a record ends, as {end}"));
            } else if skipped.why != Cause::NoFile {
                let (name, path) = self.segment(skipped.from);
                // A broker takes the properties of a batch as its client sends them.
                let same = match skipped.why {
                    Cause::Text(_) => "; if that has the same bytes, a client has sent them so",
                    _ => "",
                };
                report.advise(format!("get another copy of {name}{same}; {until}"));
                files.push(path);
                self.further_copies(skipped, report);
            }
        }
        // A fault begins with its file.
        let named = |fault: &String| files.iter().any(|file| fault.starts_with(file));
        if self.log.faults.iter().any(|fault| !named(fault)) {
            report.advise(format!(
                "get another copy of each segment named above; {until}"
            ));
        }
        let bodies = self.survey.bodies.iter().flat_map(|bodies| &bodies.damaged);
        for bad in bodies {
            let (name, _) = self.segment(bad.position);
            report.advise(format!(
                "get another copy of {name}, which has damaged bodies"
            ));
        }
    }

    /// Damage may go over several segments.
    fn further_copies(&self, skipped: &Skipped, report: &mut Report) {
        let size = self.log.sizes.segment_size;
        let mut first = (skipped.from.0 / size + 1) * size;
        while first < skipped.to.0 && self.log.has(LogPosition(first)) {
            let (name, _) = self.segment(LogPosition(first));
            report.advise(format!("get another copy of {name}"));
            first += size;
        }
    }

    fn ends_inside_a_record(&self, skipped: &Skipped) -> bool {
        let given = self.args.value("--end").is_some();
        let inside = skipped.why == Cause::Answer(Answer::NotReadable);
        given && inside && skipped.to >= self.log.files_end()
    }

    /// The segment file of a position, as it is named and as it is shown.
    fn segment(&self, position: LogPosition) -> (String, String) {
        let place = self.args.place();
        if place.is_file() {
            return (shown_path(place), shown_path(place));
        }
        let size = self.log.sizes.segment_size;
        let name = format!("commitlog/{:020}", position.0 / size * size);
        let path = shown_path(place.join(&name));
        (name, path)
    }

    fn call(&self, command: &str, options: &[&str]) -> String {
        shell::call(self.args, command, options)
    }

    fn with_force(&self, options: &str) -> String {
        match self.in_the_way {
            true => format!("{options} --force"),
            false => String::from(options),
        }
    }

    /// A rebuild up to a position puts its results in place, where none are.
    fn end_at(&self, position: LogPosition, options: &[&str], report: &mut Report) {
        if !self.in_the_way {
            let LogPosition(at) = position;
            let call = self.call("rebuild", options);
            let what = format!("put what is before {at} in place");
            report.advise_command(&what, format!("{call} --end {at}"));
        }
    }

    /// What to do about queues and index.
    pub fn results(&self, standing: &Standing, report: &mut Report) {
        if standing.unreadable {
            report.advise("have what cannot be read made readable, or moved away, and check again");
        }
        if let Some(position) = standing.out_of_step {
            report.advise(format!(
                "at {position}: get another copy of the log, as records before it are missing or were written twice"
            ));
        }
        if self.damaged() && (self.in_the_way || !report.results_sound()) {
            return self.results_of_a_damaged_log(report);
        }
        if report.results_sound() {
            return;
        }
        if standing.impossible {
            self.results_of_a_strange_log(report);
        } else if let Some(position) = standing.out_of_step {
            self.results_out_of_step(position, standing, report);
        } else if standing.unlisted {
            let call = self.call("check", &["--slots", "--items", "--segment-size", "--end"]);
            report.advise_command("compare all queues", call);
        } else if self.in_the_way && report.limited() {
            report.advise("keep queues and index as they are: this tool cannot make all of them, as told above");
        } else if report.limited() {
            self.beyond_a_limit(report);
        } else if self.in_the_way && standing.more_than_the_log {
            self.results_with_more(standing, report);
        } else if !standing.unreadable {
            self.rebuild(report);
        }
    }

    fn results_of_a_damaged_log(&self, report: &mut Report) {
        let end = self.sound_end();
        if self.in_the_way {
            report.advise(format!(
                "rebuild only after that: queues and index made now would end at {}, \
                 those that are there may go on behind it",
                end.0
            ));
        } else if self.survey.made.as_ref().is_some_and(Made::has_entries) {
            self.end_at(end, &["--queues", "--segment-size"], report);
        }
    }

    /// A topic of the log cannot have a queue on a disk.
    fn results_of_a_strange_log(&self, report: &mut Report) {
        let made = self.survey.made.as_ref();
        match made.filter(|made| made.has_entries()) {
            Some(made) if !self.in_the_way => {
                let options = ["--queues", "--segment-size"];
                self.end_at(made.progress.position, &options, report);
            }
            Some(_) => report.advise("get another copy of the log: no broker writes such a topic"),
            None => {
                report.advise("get another copy of the log: nothing can be rebuilt from this one")
            }
        }
    }

    fn results_out_of_step(&self, position: u64, standing: &Standing, report: &mut Report) {
        let in_place = standing.missing_from.is_none_or(|from| from >= position);
        if self.in_the_way && in_place && !standing.wrong {
            report.advise(format!("up to {position} queues and index are in place"));
        } else if self.survey.made.as_ref().is_some_and(Made::has_entries) {
            let options = ["--queues", "--segment-size"];
            self.end_at(LogPosition(position), &options, report);
        }
    }

    /// A rebuild would leave out what is there.
    fn results_with_more(&self, standing: &Standing, report: &mut Report) {
        if standing.newer_than_the_log {
            report.advise(
                "keep queues and index as they are: they name records that this log does not have; \
                 get a copy of the log that has them",
            );
            return;
        }
        report.advise("keep queues and index as they are: the log gives less than they have");
        let place = self.args.place();
        let name = place
            .file_name()
            .map(|name| [name.as_bytes(), b".rebuilt"].concat());
        let into = name.map(|name| place.with_file_name(OsStr::from_bytes(&name)));
        let free = into.filter(|into| into.symlink_metadata().is_err());
        if let Some(into) = free.filter(|_| self.args.value("--end").is_none()) {
            let call = self.call("rebuild", &["--queues", "--segment-size"]);
            let into = shell::quoted(into.as_os_str().as_bytes());
            let what = "make those that the log gives elsewhere";
            report.advise_command(what, format!("{call} --into {into}"));
        }
    }

    /// Nothing is there, and only a part can be made.
    fn beyond_a_limit(&self, report: &mut Report) {
        let delayed = self.survey.before.delayed + self.survey.behind.delayed > 0;
        let made = self.survey.made.as_ref();
        match made.filter(|made| made.has_entries() && made.stop != Answer::Done) {
            Some(made) if !delayed => {
                let options = ["--queues", "--segment-size"];
                self.end_at(made.progress.position, &options, report);
            }
            _ => report.advise("have queues and index made by a broker: this tool cannot make all of them, as told above"),
        }
    }

    fn rebuild(&self, report: &mut Report) {
        let options = ["--queues", "--segment-size"];
        if self.args.value("--end").is_some() {
            return self.end_at(self.sound_end(), &options, report);
        }
        let call = self.call("rebuild", &options);
        let call = format!("{call}{}", self.with_force(""));
        report.advise_command("make queues and index from the log", call);
    }

    /// Whether a rebuild that has begun may put its results in place.
    fn may_replace(&self, standing: &Standing, report: &Report) -> bool {
        let more = standing.more_than_the_log || standing.unlisted;
        let against = self.damaged() || report.limited() || more;
        !self.in_the_way || !(against || standing.unreadable || standing.out_of_step.is_some())
    }

    /// What to do about a rebuild that has begun and comes to its end, or to a stop.
    pub fn begun(&self, made: &Made, standing: &Standing, report: &mut Report) {
        if !self.may_replace(standing, report) {
            self.keep(report);
        } else if made.stop == Answer::Done {
            let call = self.call("rebuild", &["--segment-size", "--end"]);
            let call = format!("{call}{}", self.with_force(""));
            let what = "go on with the rebuild, or begin anew with --restart";
            report.advise_command(what, call);
        } else {
            let remedy = made.plan.remedy(made.stop, &self.with_force("--restart"));
            report.advise(format!("at {}: {remedy}", made.progress.position.0));
            if made.may_end() {
                self.end_at(made.progress.position, &["--segment-size"], report);
            }
        }
    }

    /// What to do about a rebuild that cannot go on.
    pub fn restart(&self, standing: &Standing, report: &mut Report) {
        if !self.may_replace(standing, report) {
            return self.keep(report);
        }
        let call = self.call("rebuild", &["--queues", "--segment-size", "--end"]);
        let call = format!("{call}{}", self.with_force(" --restart"));
        report.advise_command("begin the rebuild anew", call);
    }

    fn keep(&self, report: &mut Report) {
        match self.damaged() {
            true => self.results_of_a_damaged_log(report),
            false => report.advise("do not go on with the rebuild that has begun: queues and index that are there may have more"),
        }
    }
}
