//! The figures as tables, for the screen and for Markdown.

use std::fs;

use crate::cases::{Call, Case, Side};
use crate::measure::Times;

/// One case with its times.
pub struct Line {
    call: Call,
    shape: &'static str,
    size: usize,
    units: usize,
    looked_at: Option<usize>,
    presents_and_entries: Option<[usize; 2]>,
    times: Times,
}

impl Line {
    pub fn new((case, times): (&Case, Times)) -> Line {
        Line {
            call: case.call,
            shape: case.shape,
            size: case.size,
            units: case.units(),
            looked_at: case.looked_at(),
            presents_and_entries: case.presents_and_entries(),
            times,
        }
    }

    fn ratio(&self) -> f64 {
        self.times.ours / self.times.theirs
    }

    /// Only for a call that two-pass makes.
    fn ratio_to_two_pass(&self) -> Option<f64> {
        Some(self.times.ours / self.times.two_pass?)
    }

    fn row(&self) -> Vec<String> {
        let units = self.units as f64;
        let mut row = vec![
            self.shape.to_string(),
            self.size.to_string(),
            format!("{:.0}", self.times.ours),
            format!("{:.0}", self.times.theirs),
            format!("{:.2}", self.ratio()),
        ];
        row.extend(self.times.two_pass.map(|time| format!("{time:.0}")));
        row.extend(self.ratio_to_two_pass().map(|ratio| format!("{ratio:.2}")));
        row.push(format!("{:.1}", self.times.ours / units));
        row.push(format!("{:.1}", self.times.theirs / units));
        row
    }
}

pub struct Table {
    title: String,
    rows: Vec<Vec<String>>,
}

/// A table for each call, then the growth from 256 to 1,024 nodes.
pub fn tables(lines: &[Line]) -> Vec<Table> {
    let mut tables: Vec<Table> = Call::ALL.map(|call| times(lines, call)).into();
    tables.push(growth(lines));
    tables
}

fn times(lines: &[Line], call: Call) -> Table {
    let of_call: Vec<&Line> = lines.iter().filter(|line| line.call == call).collect();
    let mut rows = vec![vec![
        "shape".to_string(),
        call.size().to_string(),
        "ours, ns".to_string(),
        "compare, ns".to_string(),
        "ours/compare".to_string(),
        format!("ours, ns {}", call.each()),
        format!("compare, ns {}", call.each()),
    ]];
    rows.extend(of_call.iter().map(|line| line.row()));
    if let Some(units) = call.units() {
        rows[0].insert(2, units.to_string());
        for (row, line) in rows[1..].iter_mut().zip(&of_call) {
            row.insert(2, line.units.to_string());
        }
    }
    if call == Call::Ask {
        add_analyses(&mut rows, &of_call, lines);
    }
    if call == Call::Trial {
        add_presents_and_entries(&mut rows, &of_call);
    }
    if call.sides().contains(&Side::TwoPass) {
        let two_pass = ["two-pass, ns", "ours/two-pass"].map(String::from);
        rows[0].splice(5..5, two_pass);
    }
    Table {
        title: format!("{} ({})", call.name(), means(&of_call)),
        rows,
    }
}

/// To each question the nodes looked at, and our analysis of the same table, which has the
/// answers to all.
fn add_analyses(rows: &mut [Vec<String>], questions: &[&Line], lines: &[Line]) {
    rows[0].insert(2, "looked at".to_string());
    rows[0].extend(["analyse, ns", "ask/analyse"].map(String::from));
    for (row, question) in rows[1..].iter_mut().zip(questions) {
        let looked_at = question.looked_at.expect("each question looks at nodes");
        let ours = question.times.ours;
        let shape = question.shape.split('-').next();
        let analysis = lines
            .iter()
            .find(|line| {
                line.call == Call::Analyse
                    && line.size == question.size
                    && Some(line.shape) == shape
            })
            .expect("an analysis of each program that is asked");
        row.insert(2, looked_at.to_string());
        row.push(format!("{:.0}", analysis.times.ours));
        row.push(format!("{:.2}", ours / analysis.times.ours));
    }
}

/// To each trial the presents, and the greatest number of entries of a start.
fn add_presents_and_entries(rows: &mut [Vec<String>], trials: &[&Line]) {
    rows[0].splice(2..2, ["presents", "most entries"].map(String::from));
    for (row, trial) in rows[1..].iter_mut().zip(trials) {
        let numbers = trial.presents_and_entries.expect("each trial has these");
        row.splice(2..2, numbers.map(|number| number.to_string()));
    }
}

fn means(of_call: &[&Line]) -> String {
    let to_compare: Vec<f64> = of_call.iter().map(|line| line.ratio()).collect();
    let to_two_pass: Vec<f64> = of_call
        .iter()
        .filter_map(|line| line.ratio_to_two_pass())
        .collect();
    let mut text = format!(
        "geometric mean of the ratios: {:.2}",
        geometric_mean(&to_compare)
    );
    if !to_two_pass.is_empty() {
        text += &format!(", to two-pass: {:.2}", geometric_mean(&to_two_pass));
    }
    text
}

fn geometric_mean(ratios: &[f64]) -> f64 {
    let logarithms: f64 = ratios.iter().map(|ratio| ratio.ln()).sum();
    (logarithms / ratios.len() as f64).exp()
}

fn growth(lines: &[Line]) -> Table {
    let mut rows = vec![["call", "shape", "ours", "compare"]
        .map(String::from)
        .into()];
    for large in lines.iter().filter(|line| line.size == 1024) {
        let small = lines
            .iter()
            .find(|line| line.call == large.call && line.shape == large.shape && line.size == 256)
            .expect("every shape in every size");
        rows.push(vec![
            large.call.name().to_string(),
            large.shape.to_string(),
            format!("{:.2}", large.times.ours / small.times.ours),
            format!("{:.2}", large.times.theirs / small.times.theirs),
        ]);
    }
    Table {
        title: "growth of the cost from 256 to 1,024 nodes (4 is linear)".to_string(),
        rows,
    }
}

impl Table {
    /// Columns aligned to the right.
    pub fn plain(&self) -> String {
        let columns = self.rows[0].len();
        let widths: Vec<usize> = (0..columns)
            .map(|at| self.rows.iter().map(|row| row[at].len()).max().unwrap_or(0))
            .collect();
        let mut text = format!("{}\n", self.title);
        for row in &self.rows {
            for (cell, width) in row.iter().zip(&widths) {
                text += &format!("  {cell:>width$}");
            }
            text.push('\n');
        }
        text
    }

    fn markdown(&self) -> String {
        let mut text = format!("**{}**\n\n", self.title);
        for (at, row) in self.rows.iter().enumerate() {
            text += &format!("| {} |\n", row.join(" | "));
            if at == 0 {
                text += &format!("|{}\n", "---:|".repeat(row.len()));
            }
        }
        text
    }
}

pub fn write_markdown(file: &str, tables: &[Table]) -> Result<(), String> {
    let texts: Vec<String> = tables.iter().map(Table::markdown).collect();
    fs::write(file, texts.join("\n")).map_err(|error| format!("cannot write {file}: {error}"))
}
