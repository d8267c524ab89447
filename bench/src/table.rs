//! The figures as a table that is Markdown, and can be read as it stands.

use crate::measure::{Spread, Times};

pub struct Row {
    pub group: &'static str,
    pub name: String,
    pub times: Times,
}

const HEAD: [&str; 6] = ["step", "ours, ns", "quartiles", "Rust, ns", "quartiles", "ours / Rust"];

pub fn table(rows: &[Row]) -> String {
    let mut lines = vec![HEAD.map(String::from)];
    for row in rows {
        let Times { ours, rust, ratio } = row.times;
        lines.push([
            format!("{}: {}", row.group, row.name),
            figure(ours.median),
            quartiles(ours),
            figure(rust.median),
            quartiles(rust),
            format!("{:.2}", ratio.median),
        ]);
    }
    let widths: [usize; 6] = std::array::from_fn(|at| lines.iter().map(|line| line[at].len()).max().unwrap());
    let mut text = String::new();
    for (at, line) in lines.iter().enumerate() {
        text += &spread(line, widths);
        if at == 0 {
            text += &rule(widths);
        }
    }
    text
}

fn spread(line: &[String; 6], widths: [usize; 6]) -> String {
    let [step, numbers @ ..] = line;
    let [wide, narrow @ ..] = widths;
    let numbers: String = numbers.iter().zip(narrow).map(|(number, width)| format!(" {number:>width$} |")).collect();
    format!("| {step:<wide$} |{numbers}\n")
}

fn rule(widths: [usize; 6]) -> String {
    let [wide, narrow @ ..] = widths;
    let numbers: String = narrow.map(|width| format!("{}:|", "-".repeat(width + 1))).concat();
    format!("|{}|{numbers}\n", "-".repeat(wide + 2))
}

/// Tenths below a hundred.
pub fn figure(ns: f64) -> String {
    if ns < 99.95 { format!("{ns:.1}") } else { thousands(ns.round() as u64) }
}

pub fn thousands(n: u64) -> String {
    if n < 1_000 { n.to_string() } else { format!("{},{:03}", thousands(n / 1_000), n % 1_000) }
}

fn quartiles(time: Spread) -> String {
    format!("{} to {}", figure(time.low), figure(time.high))
}
