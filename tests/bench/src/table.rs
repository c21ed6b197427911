//! Figures in rows and columns, for readers and for `--fold`.

use crate::timing::Spread;

/// One figure of a row.
#[derive(Clone, Copy, Debug)]
pub enum Cell {
    /// How many units of work the row is of.
    Units(u64),
    /// Nanoseconds a unit.
    Time(f64),
    /// One engine's time over another's.
    Ratio(Spread),
}

pub struct Table {
    title: String,
    columns: Vec<String>,
    rows: Vec<(String, Vec<Cell>)>,
}

impl Table {
    pub fn new(title: &str, columns: &[&str]) -> Self {
        Table {
            title: title.into(),
            columns: columns.iter().map(|column| column.to_string()).collect(),
            rows: Vec::new(),
        }
    }

    pub fn row(&mut self, name: &str, cells: Vec<Cell>) {
        assert_eq!(cells.len(), self.columns.len(), "{name}: a figure a column");
        self.rows.push((name.into(), cells));
    }

    /// Columns side by side. A ratio is followed by its tenths.
    pub fn print(&self) {
        let mut lines = vec![self.head()];
        lines.extend(self.rows.iter().map(|(name, cells)| {
            let mut line = vec![name.clone()];
            line.extend(cells.iter().flat_map(|cell| cell.shown()));
            line
        }));
        let widths: Vec<usize> = (0..lines[0].len())
            .map(|column| lines.iter().map(|line| line[column].len()).max())
            .map(|width| width.unwrap_or(0))
            .collect();
        println!();
        for cells in &lines {
            let mut line = format!("{:1$}", cells[0], widths[0]);
            for (cell, width) in cells.iter().zip(&widths).skip(1) {
                line.push_str(&format!("  {cell:>width$}"));
            }
            println!("{line}");
        }
    }

    fn head(&self) -> Vec<String> {
        let mut head = vec![self.title.clone()];
        let kinds = self.rows.first().map(|(_, cells)| cells.iter());
        for (column, cell) in self.columns.iter().zip(kinds.into_iter().flatten()) {
            head.push(column.clone());
            if let Cell::Ratio(_) = cell {
                head.push("tenths".into());
            }
        }
        head
    }

    /// A line for each figure: table, row, kind, column, value.
    pub fn lines(&self) -> Vec<String> {
        let mut lines = Vec::new();
        for (name, cells) in &self.rows {
            for (column, cell) in self.columns.iter().zip(cells) {
                let (kind, value) = cell.told();
                let title = &self.title;
                lines.push(format!("{title}\t{name}\t{kind}\t{column}\t{value}"));
            }
        }
        lines
    }
}

impl Cell {
    fn shown(&self) -> Vec<String> {
        match self {
            Cell::Units(count) => vec![count.to_string()],
            Cell::Time(time) => vec![format!("{time:.2}")],
            Cell::Ratio(Spread { median, low, high }) => {
                vec![format!("{median:.2}"), format!("{low:.2}..{high:.2}")]
            }
        }
    }

    fn told(&self) -> (&'static str, String) {
        match self {
            Cell::Units(count) => ("units", count.to_string()),
            Cell::Time(time) => ("time", format!("{time:.6}")),
            Cell::Ratio(ratio) => ("ratio", format!("{:.6}", ratio.median)),
        }
    }
}
