//! What one process printed with `--tsv`, and several of these folded into
//! Markdown: the medians of all, and the lowest and highest ratio of one.

use crate::timing::Settings;
use std::fmt::Write;

const HEAD: &str = "pirkvezo bench";
const TAIL: &str = "end";

/// The first line: what was set must be the same in all.
pub fn head(settings: &Settings) -> String {
    format!("{HEAD}\t{settings}")
}

/// The last line, with the number of lines between: output that was cut short
/// shows.
pub fn tail(lines: usize) -> String {
    format!("{TAIL}\t{lines}")
}

pub fn fold_files(names: &[&str]) -> Result<(), String> {
    let files: Vec<(String, String)> = names
        .iter()
        .map(|name| {
            let text = std::fs::read_to_string(name);
            let text = text.map_err(|error| format!("{name}: {error}"))?;
            Ok((name.to_string(), text))
        })
        .collect::<Result<_, String>>()?;
    print!("{}", fold(&files)?);
    Ok(())
}

/// One line: which figure of which row, and its value in one process.
#[derive(Clone, Copy, Debug)]
struct Figure<'t> {
    table: &'t str,
    row: &'t str,
    kind: &'t str,
    column: &'t str,
    value: f64,
}

/// One figure with its values in all processes, from the lowest up.
struct Folded<'t> {
    figure: Figure<'t>,
    values: Vec<f64>,
}

/// Folds texts, each with the name of its file.
fn fold(files: &[(String, String)]) -> Result<String, String> {
    let mut folded: Vec<Folded> = Vec::new();
    let mut first_head = None;
    for (name, text) in files {
        let (head, figures) = parse(name, text)?;
        if *first_head.get_or_insert(head) != head {
            return Err(format!("{name}: it begins otherwise than the first"));
        }
        if folded.is_empty() {
            folded.extend(figures.iter().map(|figure| Folded {
                figure: *figure,
                values: Vec::new(),
            }));
        }
        if figures.len() != folded.len() {
            return Err(format!("{name}: it has not as many figures as the first"));
        }
        for (all, figure) in folded.iter_mut().zip(figures) {
            all.take(name, figure)?;
        }
    }
    for all in &mut folded {
        all.values.sort_by(f64::total_cmp);
    }
    Ok(markdown(&folded))
}

/// Takes a process's output apart: its first line, and its figures.
fn parse<'t>(name: &str, text: &'t str) -> Result<(&'t str, Vec<Figure<'t>>), String> {
    let lines: Vec<&str> = text.lines().collect();
    let [head, lines @ .., last] = &lines[..] else {
        return Err(format!("{name}: it is no output of bench --tsv"));
    };
    if !head.starts_with(HEAD) {
        return Err(format!("{name}: it is no output of bench --tsv"));
    }
    if !text.ends_with('\n') || *last != tail(lines.len()) {
        return Err(format!("{name}: it was cut short"));
    }
    let figures = lines.iter().enumerate().map(|(number, line)| {
        let figure = Figure::parse(line);
        figure.ok_or_else(|| format!("{name}:{}: it is no figure: {line}", number + 2))
    });
    let figures: Vec<Figure> = figures.collect::<Result<_, String>>()?;
    match figures.is_empty() {
        true => Err(format!("{name}: it has no figures")),
        false => Ok((head, figures)),
    }
}

impl<'t> Figure<'t> {
    fn parse(line: &'t str) -> Option<Self> {
        let fields: Vec<&str> = line.split('\t').collect();
        let [table, row, kind @ ("units" | "time" | "ratio"), column, value] = fields[..] else {
            return None;
        };
        let value: f64 = value.parse().ok()?;
        (value.is_finite() && value >= 0.0).then_some(Figure {
            table,
            row,
            kind,
            column,
            value,
        })
    }

    fn key(&self) -> [&'t str; 4] {
        [self.table, self.row, self.kind, self.column]
    }
}

impl<'t> Folded<'t> {
    fn take(&mut self, name: &str, figure: Figure<'t>) -> Result<(), String> {
        let [table, row, _, column] = figure.key();
        if figure.key() != self.figure.key() {
            return Err(format!("{name}: {table}, {row}, {column}: not the first's"));
        }
        if figure.kind == "units" && figure.value != self.figure.value {
            return Err(format!("{name}: {table}, {row}: not as many {column}"));
        }
        self.values.push(figure.value);
        Ok(())
    }

    /// The middle value or, of an even number, halfway between the middle two.
    fn median(&self) -> f64 {
        let half = self.values.len() / 2;
        let upper = self.values[half];
        match self.values.len() % 2 {
            0 => (self.values[half - 1] + upper) / 2.0,
            _ => upper,
        }
    }

    fn cells(&self) -> Vec<String> {
        let median = self.median();
        match self.figure.kind {
            "units" => vec![with_commas(median as u64)],
            "time" if median >= 100.0 => vec![format!("{median:.1}")],
            "time" => vec![format!("{median:.2}")],
            _ => {
                let (low, high) = (self.values[0], self.values[self.values.len() - 1]);
                vec![format!("{median:.2}"), format!("{low:.2} to {high:.2}")]
            }
        }
    }

    fn heads(&self) -> Vec<String> {
        let column = self.figure.column.to_string();
        match self.figure.kind {
            "ratio" => vec![column, "lowest to highest".into()],
            _ => vec![column],
        }
    }
}

/// Rows without spaces beside the bars: the widest then stay within the 100
/// columns that a document has.
fn markdown(folded: &[Folded]) -> String {
    let mut text = String::new();
    let (mut table, mut rest) = ("", folded);
    while let [first, ..] = rest {
        // Each row begins with its units, and has them once.
        let begins = |all: &Folded| all.figure.kind == "units";
        let length = rest.iter().skip(1).position(begins);
        let (row, others) = rest.split_at(length.map_or(rest.len(), |length| length + 1));
        if first.figure.table != table {
            table = first.figure.table;
            begin_table(&mut text, table, row);
        }
        let cells: Vec<String> = row.iter().flat_map(Folded::cells).collect();
        let _ = writeln!(text, "|{}|{}|", first.figure.row, cells.join("|"));
        rest = others;
    }
    text
}

fn begin_table(text: &mut String, title: &str, row: &[Folded]) {
    let heads: Vec<String> = row.iter().flat_map(Folded::heads).collect();
    let gap = if text.is_empty() { "" } else { "\n" };
    let _ = writeln!(text, "{gap}{title}\n\n| |{}|", heads.join("|"));
    let _ = writeln!(text, "|---|{}", "---:|".repeat(heads.len()));
}

fn with_commas(number: u64) -> String {
    let digits = number.to_string();
    let mut text = String::new();
    for (place, digit) in digits.chars().enumerate() {
        if place > 0 && (digits.len() - place) % 3 == 0 {
            text.push(',');
        }
        text.push(digit);
    }
    text
}

#[cfg(test)]
mod tests {
    use super::{fold, fold_files, head, tail};
    use crate::table::{Cell, Table};
    use crate::timing::{Settings, Spread};
    use std::time::Duration;

    const COLUMNS: [&str; 6] = [
        "reference",
        "library",
        "peer",
        "own types",
        "ratio",
        "to peer",
    ];

    /// What a process prints for two tables, with all times and ratios so many
    /// times as long.
    fn printed(rounds: usize, factor: f64) -> String {
        let ratio = |ratio: f64| {
            let median = ratio * factor;
            Cell::Ratio(Spread {
                median,
                low: 0.5 * median,
                high: 2.0 * median,
            })
        };
        let row = |steps, time: f64| {
            let mut cells = vec![Cell::Units(steps)];
            cells.extend([1.0, 1.1, 1.2, 1.3].map(|more| Cell::Time(time * more * factor)));
            cells.extend([ratio(1.0), ratio(1.5)]);
            cells
        };
        let columns = |units| [&[units], &COLUMNS[..]].concat();
        let mut runs = Table::new("runs: nanoseconds a step", &columns("steps"));
        runs.row("300 ticks a window, all ops", row(32_000, 10.0));
        runs.row("one window, no ops", row(1, 99.0));
        let mut reading = Table::new("reading: nanoseconds a byte", &columns("bytes"));
        reading.row("ops with warm caches, 8 domains", row(500, 400.0));
        reading.row("ops with warm caches, 8 domains", row(32, 5.0));
        let settings = Settings {
            rounds,
            turn: Duration::from_millis(1),
        };
        let lines = [runs.lines(), reading.lines()].concat();
        let (head, tail) = (head(&settings), tail(lines.len()));
        format!("{head}\n{}\n{tail}\n", lines.join("\n"))
    }

    fn folded(texts: &[&str]) -> Result<String, String> {
        let files = texts.iter().enumerate();
        let files = files.map(|(at, text)| (format!("file {at}"), text.to_string()));
        fold(&files.collect::<Vec<_>>())
    }

    #[test]
    fn output_that_was_cut_short_is_refused() {
        let whole = printed(41, 1.0);
        for length in 0..whole.len() {
            let outcome = folded(&[&whole, &whole[..length]]);
            let message = outcome.expect_err("a part is not the whole");
            assert!(message.starts_with("file 1: it "), "{message}");
        }
    }

    #[test]
    fn a_line_that_is_gone_is_noticed() {
        let whole = printed(41, 1.0);
        let lines: Vec<&str> = whole.lines().collect();
        for gone in 0..lines.len() {
            let mut lines = lines.clone();
            lines.remove(gone);
            let text = lines.join("\n") + "\n";
            assert!(folded(&[&text]).is_err(), "without line {}", gone + 1);
        }
    }

    #[test]
    fn other_output_is_refused() {
        let whole = printed(41, 1.0);
        let changes = [
            ("41 rounds", "40 rounds", "it begins otherwise"),
            ("pirkvezo bench", "another bench", "no output of bench"),
            ("\ttime\tpeer", "\ttime\tother", "not the first's"),
            ("\t32000\n", "\t32001\n", "not as many steps"),
            ("\ttime\t", "\tdate\t", "it is no figure"),
            ("\t10.000000", "\tNaN", "it is no figure"),
            ("\t10.000000", "\t-1", "it is no figure"),
            ("\t10.000000", "", "it is no figure"),
        ];
        for (old, new, reason) in changes {
            let other = whole.replacen(old, new, 1);
            assert_ne!(other, whole, "{old:?} is there");
            let message = folded(&[&whole, &other]).expect_err(reason);
            assert!(message.contains(reason), "{message}");
        }
        let tables = "pirkvezo bench\tx\nend\t0\n";
        assert!(folded(&[tables]).unwrap_err().contains("no figures"));
    }

    #[test]
    fn a_file_that_is_not_there_is_named() {
        let message = fold_files(&["no/such/file"]).unwrap_err();
        assert!(message.starts_with("no/such/file: "), "{message}");
    }

    #[test]
    fn medians_and_the_ends_of_the_ratios() {
        let [first, second, third] = [1.0, 4.0, 2.0].map(|factor| printed(41, factor));
        let text = folded(&[&first, &second, &third]).unwrap();
        let expected = "\
runs: nanoseconds a step

| |steps|reference|library|peer|own types|ratio|lowest to highest|to peer|lowest to highest|
|---|---:|---:|---:|---:|---:|---:|---:|---:|---:|
|300 ticks a window, all ops|32,000|20.00|22.00|24.00|26.00|2.00|1.00 to 4.00|3.00|1.50 to 6.00|
|one window, no ops|1|198.0|217.8|237.6|257.4|2.00|1.00 to 4.00|3.00|1.50 to 6.00|

reading: nanoseconds a byte

| |bytes|reference|library|peer|own types|ratio|lowest to highest|to peer|lowest to highest|
|---|---:|---:|---:|---:|---:|---:|---:|---:|---:|
|ops with warm caches, 8 domains|500|800.0|880.0|960.0|1040.0|2.00|1.00 to 4.00|3.00|1.50 to 6.00|
|ops with warm caches, 8 domains|32|10.00|11.00|12.00|13.00|2.00|1.00 to 4.00|3.00|1.50 to 6.00|
";
        assert_eq!(text, expected);
        assert!(text.lines().all(|line| line.len() <= 100));
    }

    #[test]
    fn of_an_even_number_the_middle_two_count() {
        let [first, second] = [1.0, 2.0].map(|factor| printed(41, factor));
        let text = folded(&[&second, &first]).unwrap();
        let row = "8 domains|32|7.50|8.25|9.00|9.75|1.50|1.00 to 2.00|2.25|1.50 to 3.00|";
        assert!(text.contains(row), "{text}");
    }
}
