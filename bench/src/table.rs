//! Tables of ratios.

pub struct Table {
    columns: Vec<String>,
    rows: Vec<(String, Vec<Option<f64>>)>,
}

impl Table {
    pub fn new(columns: impl IntoIterator<Item = String>) -> Table {
        Table {
            columns: columns.into_iter().collect(),
            rows: Vec::new(),
        }
    }

    pub fn row(&mut self, label: &str, ratios: &[f64]) {
        self.late_row(label, 0, ratios);
    }

    /// A row that has nothing in its first columns.
    pub fn late_row(&mut self, label: &str, missing: usize, ratios: &[f64]) {
        let cells = vec![None; missing].into_iter();
        let cells = cells.chain(ratios.iter().copied().map(Some)).collect();
        self.rows.push((label.to_string(), cells));
    }

    /// The head says what the ratios are of and to, and which are good.
    pub fn print(&self, head: &str) {
        let labels = self.rows.iter().map(|(label, _)| label.len());
        let label_width = labels.max().unwrap_or(0);
        let widths: Vec<usize> = self.columns.iter().map(|c| c.len().max(4) + 2).collect();
        let line = |label: &str, cells: &[String]| {
            let cells = cells.iter().zip(&widths);
            let cells: String = cells
                .map(|(cell, &width)| format!("{cell:>width$}"))
                .collect();
            println!("  {label:label_width$}{cells}");
        };
        println!("\n{head}\n");
        line("", &self.columns);
        for (label, ratios) in &self.rows {
            line(label, &ratios.iter().copied().map(cell).collect::<Vec<_>>());
        }
    }
}

fn cell(ratio: Option<f64>) -> String {
    match ratio {
        None => "-".to_string(),
        Some(ratio) => format!("{ratio:.2}"),
    }
}
