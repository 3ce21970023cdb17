//! The table, and what is said below it.

use crate::measure::Times;
use crate::operations::Operation;
use crate::registers::Kind;

pub const GOAL: f64 = 1.2;

/// One row. The growth is that of Rattle's time from n to 2n, and for the largest n that from n/2 to n.
#[derive(Clone, Copy, Debug)]
pub struct Row {
    pub operation: Operation,
    pub kind: Kind,
    pub n: u16,
    pub times: Times,
    pub growth: f64,
}

pub fn heading() -> String {
    format!(
        "{:<11} {:<7} {:>4} {:>14} {:>14} {:>6} {:>7}",
        "operation", "kind", "n", "Rattle ns", "Rust ns", "ratio", "growth"
    )
}

pub fn line(row: &Row) -> String {
    let Row {
        operation,
        kind,
        n,
        times,
        growth,
    } = row;
    format!(
        "{:<11} {:<7} {:>4} {:>14.0} {:>14.0} {:>6.2} {:>7.2}",
        operation.name(),
        kind.name(),
        n,
        times.rattle,
        times.rust,
        times.ratio(),
        growth
    )
}

/// The largest ratio, the geometric mean of all, and how many are within the goal.
pub fn summary(rows: &[Row]) -> String {
    let ratios: Vec<f64> = rows.iter().map(|row| row.times.ratio()).collect();
    let largest = rows
        .iter()
        .max_by(|a, b| a.times.ratio().total_cmp(&b.times.ratio()));
    let mean = (ratios.iter().map(|r| r.ln()).sum::<f64>() / ratios.len() as f64).exp();
    let within = ratios.iter().filter(|r| **r <= GOAL).count();
    let largest = largest.map_or(String::from("none"), |row| {
        let (operation, kind) = (row.operation.name(), row.kind.name());
        format!(
            "{:.2} ({operation}, {kind}, n = {})",
            row.times.ratio(),
            row.n
        )
    });
    format!(
        "largest ratio: {largest}\ngeometric mean of the ratios: {mean:.2}\nrows within {GOAL}: {within} of {}",
        rows.len()
    )
}
