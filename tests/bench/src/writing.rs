//! Plans written back, beside readings of the very text that comes out: the caller
//! who has waited for the one is not to wait longer for the other.

use crate::table::{Cell, Table};
use crate::timing::{measure, Settings};
use crate::workloads;
use pirkvezo_differential::engine::{under_test, writer_under_test};
use pirkvezo_differential::engine::{Engine, Reference, Writer, ANSWER, PLAN, SCRIPTS};
use pirkvezo_differential::generate::write::LONGEST;

/// What takes turns: one call, which gives how many bytes it wrote or read.
type Task<'t> = Box<dyn FnMut() -> u64 + 't>;

/// Where each stands in the list of tasks.
const REFERENCE_WRITES: usize = 0;
const LIBRARY_WRITES: usize = 1;
const LIBRARY_READS: usize = 2;

/// A plan and its scripts, and the text that they are written as.
#[derive(Debug, PartialEq, Eq)]
struct Written {
    plan: Vec<u32>,
    scripts: Vec<u32>,
    text: Vec<u8>,
}

/// The ratio is that of the library's writing to its reading, at most 1 where
/// writing takes no longer.
pub fn table(settings: &Settings) -> Table {
    let columns = [
        "bytes",
        "reference writes",
        "library writes",
        "library reads",
        "writing to reading",
    ];
    let mut table = Table::new("writing back: nanoseconds a byte", &columns);
    let (reader, writer) = (under_test(), writer_under_test());
    for text in workloads::texts_to_write() {
        let written = Written::of(&*reader, &*writer, &text.bytes);
        let cells = cells(settings, &*reader, &*writer, &written);
        table.row(text.name, cells);
    }
    table
}

fn cells(
    settings: &Settings,
    reader: &dyn Engine,
    writer: &dyn Writer,
    written: &Written,
) -> Vec<Cell> {
    let mut tasks = [
        writing(&Reference, written),
        writing(writer, written),
        reading(reader, written),
    ];
    let times = measure(settings, &mut tasks, |_| {}, |task| task());
    vec![
        Cell::Units(written.text.len() as u64),
        Cell::Time(times.median(REFERENCE_WRITES)),
        Cell::Time(times.median(LIBRARY_WRITES)),
        Cell::Time(times.median(LIBRARY_READS)),
        Cell::Ratio(times.ratio(LIBRARY_WRITES, LIBRARY_READS)),
    ]
}

/// Writes to a buffer that the text fills to its last byte.
fn writing<'t>(writer: &'t dyn Writer, written: &'t Written) -> Task<'t> {
    let mut out = vec![0; written.text.len()];
    let mut answer = [0; ANSWER];
    Box::new(move || {
        let Written { plan, scripts, .. } = written;
        let number = writer.write_plan(plan, scripts, &mut out, &mut answer);
        assert_eq!(number, 0, "a good plan");
        answer[2]
    })
}

fn reading<'t>(reader: &'t dyn Engine, written: &'t Written) -> Task<'t> {
    let (mut plan, mut scripts) = (vec![0; PLAN], vec![0; SCRIPTS]);
    let mut answer = [0; ANSWER];
    Box::new(move || {
        let number = reader.read_plan(&written.text, &mut scripts, &mut plan, &mut answer);
        assert_eq!(number, 0, "a good text");
        written.text.len() as u64
    })
}

impl Written {
    /// Reads a text and writes it back. A writer that did less than its work would
    /// be a quick one, so nothing is timed before the text is the reference's and
    /// is read as the same plan and scripts.
    fn of(reader: &dyn Engine, writer: &dyn Writer, text: &[u8]) -> Self {
        let (plan, scripts) = read(reader, text);
        let text = write(writer, &plan, &scripts);
        let name = writer.name();
        assert!(
            text == write(&Reference, &plan, &scripts),
            "{name}: the reference's text"
        );
        assert!(
            read(reader, &text) == (plan.clone(), scripts.clone()),
            "{name}: the same plan"
        );
        Written {
            plan,
            scripts,
            text,
        }
    }
}

/// The plan and the scripts of a text.
fn read(reader: &dyn Engine, text: &[u8]) -> (Vec<u32>, Vec<u32>) {
    let (mut plan, mut scripts) = (vec![0; PLAN], vec![0; SCRIPTS]);
    let number = reader.read_plan(text, &mut scripts, &mut plan, &mut [0; ANSWER]);
    assert_eq!(number, 0, "a good text");
    (plan, scripts)
}

/// Their text.
fn write(writer: &dyn Writer, plan: &[u32], scripts: &[u32]) -> Vec<u8> {
    let (mut out, mut answer) = (vec![0; LONGEST], [0; ANSWER]);
    let number = writer.write_plan(plan, scripts, &mut out, &mut answer);
    assert_eq!(number, 0, "a good plan");
    out.truncate(answer[2] as usize);
    out
}

#[cfg(test)]
mod tests {
    use super::{read, Written, LONGEST};
    use crate::workloads;
    use pirkvezo_differential::engine::{Reference, Writer};

    fn written(name: &str) -> Written {
        let mut texts = workloads::texts_to_write().into_iter();
        let text = texts.find(|text| text.name == name);
        Written::of(&Reference, &Reference, &text.expect(name).bytes)
    }

    /// A longer text than is meant would be cut by half, so the names are held to
    /// what is written.
    #[test]
    fn the_longest_texts_are_close_to_the_limit() {
        let texts = workloads::texts_to_write().into_iter();
        for text in texts.filter(|text| text.name.starts_with("32 KB")) {
            let length = written(text.name).text.len();
            println!("{}: {length} bytes", text.name);
            assert!((28_000..=LONGEST).contains(&length), "{}", text.name);
        }
    }

    #[test]
    fn short_lines_and_long_lines() {
        for (kind, wanted) in [("short lines", 15), ("long lines", 21)] {
            let text = written(&format!("32 KB, {kind}")).text;
            let lines = text.split_inclusive(|byte| *byte == b'\n');
            let mut ops = lines.filter(|line| line.starts_with(b"(op") && line.ends_with(b"\n"));
            assert!(ops.all(|line| line.len() == wanted), "{kind}");
        }
    }

    #[test]
    fn a_text_written_back_stays_as_it_is() {
        for text in workloads::texts_to_write() {
            let first = written(text.name);
            assert!(first.text.len() <= text.bytes.len(), "{}", text.name);
            let again = Written::of(&Reference, &Reference, &first.text);
            assert!(first == again, "{}", text.name);
        }
    }

    /// The reference with one fault.
    #[derive(Clone, Copy)]
    enum Faulty {
        LastByteLeft,
        FirstTextKept,
    }

    impl Writer for Faulty {
        fn name(&self) -> &'static str {
            "faulty writer"
        }

        fn write_plan(
            &self,
            plan: &[u32],
            scripts: &[u32],
            out: &mut [u8],
            answer: &mut [u64],
        ) -> u32 {
            match self {
                Faulty::LastByteLeft => {
                    let number = Reference.write_plan(plan, scripts, out, answer);
                    out[answer[2] as usize - 1] = 0;
                    number
                }
                Faulty::FirstTextKept => {
                    let text = &workloads::texts_to_write()[0].bytes;
                    let (plan, scripts) = read(&Reference, text);
                    Reference.write_plan(&plan, &scripts, out, answer)
                }
            }
        }
    }

    #[test]
    fn a_faulty_writer_is_not_timed() {
        for fault in [Faulty::LastByteLeft, Faulty::FirstTextKept] {
            let texts = workloads::texts_to_write();
            let outcome = std::panic::catch_unwind(|| {
                Written::of(&Reference, &fault, &texts[1].bytes);
            });
            assert!(outcome.is_err());
        }
    }
}
