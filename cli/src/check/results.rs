//! The index files and the folders of queues that are there.

use crate::args::Args;
use crate::failure::Failure;
use crate::files::{Refused, Unfit};
use crate::index::{self, item_place, Bytes, Index, MOST_ITEMS, MOST_SLOTS};
use crate::queues::{self, Queue};
use swistopal::check_index;

pub struct Results {
    /// Those whose header is good and that have an item.
    pub indexes: Vec<Index>,
    /// Names of those that have none: new, or begun as the one before it was full.
    pub empty: Vec<String>,
    /// Index files that cannot be compared.
    pub refused: Vec<Refused>,
    /// Index files that are shorter than they were made.
    pub cut: Vec<Cut>,
    pub on_disk: Vec<Queue>,
    /// Why the folder of the queues cannot be read.
    pub unreadable: Option<String>,
}

/// An index file that was cut short, though all of its items may be there.
pub struct Cut {
    pub name: String,
    pub bytes: u64,
    pub whole: u64,
    /// How many items it has room for.
    pub items: u64,
}

impl Results {
    pub fn open(args: &Args) -> Result<Results, Failure> {
        let slots = args.number_within("--slots", 1, MOST_SLOTS)?;
        let mut results = Results {
            indexes: Vec::new(),
            empty: Vec::new(),
            refused: Vec::new(),
            cut: Vec::new(),
            on_disk: Vec::new(),
            unreadable: None,
        };
        match index::named(args.place()) {
            Ok(paths) => {
                for path in paths {
                    results.take(index::open(&path, slots)?);
                }
            }
            Err(refused) => results.refused.push(refused),
        }
        // Their names are times, and a clock may have been put back.
        let first = |index: &Index| Bytes(&index.bytes).first_position();
        results.indexes.sort_by_key(first);
        results.find_cut(args.number_within("--items", 2, MOST_ITEMS)?);
        match queues::on_disk(args.place()) {
            Ok(on_disk) => results.on_disk = on_disk,
            Err(Failure::Fault(sentence)) => results.unreadable = Some(sentence),
            Err(other) => return Err(other),
        }
        Ok(results)
    }

    /// An index of RocketMQ's slots has RocketMQ's items too, unless other ones were asked for; and index files of the same
    /// slots are of the same length.
    fn find_cut(&mut self, asked: Option<u64>) {
        for index in &self.indexes {
            let (slots, items) = (index.sizes.slot_count, index.sizes.item_count);
            let alike = self.indexes.iter().map(|other| other.sizes);
            let alike = alike.filter(|other| other.slot_count == slots);
            let most = alike.map(|other| other.item_count).max();
            let most = most.unwrap_or(items);
            let most = match (slots, asked) {
                (MOST_SLOTS, None) => MOST_ITEMS,
                (_, asked) => asked.unwrap_or(most),
            };
            if items < most {
                self.cut.push(Cut {
                    name: index.name.clone(),
                    bytes: item_place(slots, items),
                    whole: item_place(slots, most),
                    items,
                });
            }
        }
    }

    fn take(&mut self, opened: Result<Index, Refused>) {
        let index = match opened {
            Ok(index) => index,
            Err(refused) => return self.refused.push(refused),
        };
        let refuse = |sentence| Refused::new(Unfit::Content, sentence);
        if let Some(doubt) = &index.doubt {
            self.refused.push(refuse(doubt.clone()));
        } else if index.is_empty() {
            self.empty.push(index.name);
        } else if index.is_above_the_limit() {
            let name = &index.name;
            let sentence = format!(
                "index {name}: it names positions above 2^40, up to which this tool reads a log"
            );
            self.refused.push(Refused::new(Unfit::Limit, sentence));
        } else if let Err(answer) = check_index(&index.bytes, &index.sizes) {
            let (name, number) = (&index.name, answer.number());
            let sentence = format!("{name}: answer {number}: {answer}");
            self.refused.push(refuse(sentence));
        } else {
            self.indexes.push(index);
        }
    }
}
