//! Times the library beside the reference and the C peer in one process: runs, runs
//! that keep one domain's log, readings, and single steps. Plans written back are timed
//! beside the library's own readings; the peer writes none.
//!
//! Each figure is the median over several rounds, in which the engines take
//! short turns. The first three go through the plain interface; the fourth is
//! the reference with its own types. A ratio is the median of the rounds' own
//! ratios of the library to the reference, or to the peer, so that a busy
//! machine tells on both sides alike; beside it stand the ratios at which the
//! lowest and the highest tenth of the rounds end. PIRKVEZO_BENCH_ROUNDS sets
//! the rounds.

mod check;
mod fold;
mod kept;
mod peer;
mod stack;
mod subjects;
mod table;
mod timing;
mod workloads;
mod writing;

use pirkvezo_differential::engine::{linked, Engine};
use std::process::ExitCode;
use subjects::{Subject, LIBRARY, PEER, REFERENCE};
use table::{Cell, Table};
use timing::{measure, Settings, Times};
use workloads::Workload;

const USAGE: &str = "usage: bench [--tsv | --fold FILE..]
  without arguments, times everything and prints tables
  --tsv    prints a line for each figure instead
  --fold   folds what several processes printed with --tsv into Markdown";

fn main() -> ExitCode {
    let arguments: Vec<String> = std::env::args().skip(1).collect();
    let arguments: Vec<&str> = arguments.iter().map(String::as_str).collect();
    let outcome = match arguments[..] {
        [] => bench(print_tables),
        ["--tsv"] => bench(print_lines),
        ["--fold", ref files @ ..] if !files.is_empty() => fold::fold_files(files),
        _ => Err(USAGE.into()),
    };
    match outcome {
        Ok(()) => ExitCode::SUCCESS,
        Err(message) => {
            eprintln!("{message}");
            ExitCode::FAILURE
        }
    }
}

fn bench(print: fn(&Settings, &[Table])) -> Result<(), String> {
    let library = linked().ok_or(
        "bench: no library is linked: \
         PIRKVEZO_LIB names the folder of libpirkvezo.a when the bench is built",
    )?;
    let (calls, _) = check::agrees(&peer::Peer, 250)?;
    eprintln!("peer and reference agree in {calls} calls");
    let settings = Settings::from_environment();
    print(&settings, &tables(&settings, library));
    Ok(())
}

fn print_tables(settings: &Settings, tables: &[Table]) {
    println!("{settings}");
    tables.iter().for_each(Table::print);
}

fn print_lines(settings: &Settings, tables: &[Table]) {
    let lines: Vec<String> = tables.iter().flat_map(Table::lines).collect();
    println!("{}", fold::head(settings));
    lines.iter().for_each(|line| println!("{line}"));
    println!("{}", fold::tail(lines.len()));
}

fn tables(settings: &Settings, library: Box<dyn Engine>) -> Vec<Table> {
    let mut subjects = subjects::all(library);
    let subjects = &mut subjects[..];
    let [kept, beside] = kept::tables(settings);
    vec![
        runs(settings, subjects, "run to the end", workloads::runs()),
        kept,
        beside,
        runs(settings, subjects, "growth", workloads::growth()),
        readings(settings, subjects),
        stack::table(settings, subjects),
        writing::table(settings),
        steps(settings, subjects),
    ]
}

/// A table with the times of all and the library's two ratios.
fn times_and_ratios(title: &str, units: &str, subjects: &[Box<dyn Subject>]) -> Table {
    let names: Vec<String> = subjects.iter().map(|subject| subject.name()).collect();
    let mut columns = vec![units];
    columns.extend(names.iter().map(String::as_str));
    columns.extend(["ratio", "to peer"]);
    Table::new(title, &columns)
}

fn cells(units: u64, times: &Times, engines: usize) -> Vec<Cell> {
    let mut cells = vec![Cell::Units(units)];
    cells.extend((0..engines).map(|engine| Cell::Time(times.median(engine))));
    cells.extend([REFERENCE, PEER].map(|other| Cell::Ratio(times.ratio(LIBRARY, other))));
    cells
}

/// Whole runs from a fresh start to the end.
fn runs(
    settings: &Settings,
    subjects: &mut [Box<dyn Subject>],
    title: &str,
    workloads: Vec<Workload>,
) -> Table {
    let title = format!("{title}: nanoseconds a step");
    let mut table = times_and_ratios(&title, "steps", subjects);
    for workload in workloads {
        let steps = load(subjects, &workload);
        let times = measure(
            settings,
            subjects,
            |subject| subject.fresh_start(),
            |subject| subject.run(u64::MAX),
        );
        table.row(&workload.name, cells(steps, &times, subjects.len()));
    }
    table
}

/// Readings of texts of several sizes.
fn readings(settings: &Settings, subjects: &mut [Box<dyn Subject>]) -> Table {
    let mut table = times_and_ratios("reading: nanoseconds a byte", "bytes", subjects);
    for text in workloads::texts() {
        let length = text.bytes.len() as u64;
        let read = |subject: &mut Box<dyn Subject>| {
            assert_eq!(subject.read(&text.bytes), 0, "a good text");
            length
        };
        let times = measure(settings, subjects, |_| {}, read);
        table.row(text.name, cells(length, &times, subjects.len()));
    }
    table
}

/// Whole runs step by step: each step judges again all that it is lent.
fn steps(settings: &Settings, subjects: &mut [Box<dyn Subject>]) -> Table {
    let mut table = times_and_ratios("single steps: nanoseconds a step", "steps", subjects);
    for workload in workloads::steps() {
        load(subjects, &workload);
        let pass_over = |subject: &mut Box<dyn Subject>| {
            subject.fresh_start();
            let passed = subject.run(workload.skip);
            assert_eq!(passed, workload.skip, "a run this long");
        };
        let times = measure(settings, subjects, pass_over, |subject| {
            subject.steps(workload.most)
        });
        table.row(&workload.name, cells(workload.most, &times, subjects.len()));
    }
    table
}

/// Gives every engine the workload; gives the steps of its whole run, on which
/// all must agree.
fn load(subjects: &mut [Box<dyn Subject>], workload: &Workload) -> u64 {
    let steps: Vec<u64> = subjects
        .iter_mut()
        .map(|subject| {
            subject.load(&workload.sketch);
            subject.fresh_start();
            subject.run(u64::MAX)
        })
        .collect();
    let same = steps.iter().all(|count| *count == steps[0]);
    assert!(same, "{}: {steps:?} steps", workload.name);
    steps[0]
}
