//! The code of a tag: the hash of a short text by itself.

use crate::data::{mixed, Script};
use crate::effort::Effort;
use crate::report::Row;
use crate::store::{Store, ARCHIVE, FURTHER, PLAIN};
use crate::timing::{interleave, Laps, Side};
use std::hint::black_box;

/// Texts of a batch.
const TEXTS: usize = 400;

/// Texts of one length, one behind the other.
struct Context {
    bytes: Vec<u8>,
    length: usize,
}

impl Context {
    /// Texts of so many bytes, or as few more as a whole character takes.
    fn new(script: Script, bytes: u32) -> Context {
        let width = script.spelled(0, 1).len() as u32;
        let characters = bytes.div_ceil(width);
        let letter =
            |text: usize, at: u32| script.spelled(mixed((text as u64) << 32 | at as u64), 1);
        let text = |text: usize| (0..characters).flat_map(move |at| letter(text, at).into_bytes());
        Context {
            bytes: (0..TEXTS).flat_map(text).collect(),
            length: (characters * width) as usize,
        }
    }

    fn texts(&self) -> impl Iterator<Item = &[u8]> {
        self.bytes.chunks_exact(self.length)
    }
}

fn side(store: &'static Store) -> impl Fn(&mut Context, &mut Laps) {
    move |context, laps| {
        laps.time(|| {
            for text in context.texts() {
                black_box(store.tag_code(text));
            }
        });
    }
}

/// Each side gives what the definition gives.
fn check(context: &Context) {
    for text in context.texts() {
        let units = std::str::from_utf8(text).expect("text").encode_utf16();
        let hash = units.fold(0i32, |hash, unit| {
            hash.wrapping_mul(31)
                .wrapping_add(i32::from(unit as i16) & 0xFFFF)
        });
        for store in [&ARCHIVE, &PLAIN, &FURTHER] {
            assert_eq!(store.tag_code(text), i64::from(hash) as u64, "a tag's code");
        }
    }
}

pub fn run(effort: Effort, put: &mut dyn FnMut(Row)) {
    for script in Script::ALL {
        for bytes in [1, 4, 8, 16, 24, 32, 64] {
            let mut context = Context::new(script, bytes);
            check(&context);
            let sides: [Side<Context>; 3] = [&side(&ARCHIVE), &side(&PLAIN), &side(&FURTHER)];
            let times = interleave(
                effort.batches(8000),
                &mut context,
                &sides[..script.sides(2)],
            );
            let of_text = |time: f64| time / TEXTS as f64;
            put(Row {
                job: format!("tag code of {} bytes{}", context.length, script.note()),
                state: "warm; a tag".to_string(),
                archive: of_text(times[0]),
                rust: of_text(times[1]),
                further: times.get(2).copied().map(of_text),
                limit: None,
                target: Some(script.target()),
            });
        }
    }
}
