//! Times the proved session and the Rust on the same steps. See docs/BENCH.md.

mod body;
mod cases;
mod check;
mod ffi;
#[path = "../../oracle/src/known.rs"]
#[allow(dead_code)]
mod known;
mod measure;
mod ours;
mod page;
mod plot;
mod rust;
mod script;
mod settings;
mod side;
#[allow(dead_code)]
mod standins;
mod table;
mod text;

#[cfg(not(rust_source))]
compile_error!("the Rust source is not at hand");
#[cfg(rust_source)]
include!(concat!(env!("OUT_DIR"), "/shown.rs"));

use cases::Case;
use measure::Effort;
use script::Script;
use std::path::Path;
use std::process::exit;
use std::time::Duration;
use table::Row;

const FULL: Effort = Effort { rounds: 41, at_least: Duration::from_millis(4) };
const QUICK: Effort = Effort { rounds: 5, at_least: Duration::from_millis(1) };

/// `bench [--quick]` prints the figures, `bench --write DOCS` also writes them down.
fn main() {
    let arguments: Vec<String> = std::env::args().skip(1).collect();
    let arguments: Vec<&str> = arguments.iter().map(String::as_str).collect();
    match arguments[..] {
        [] => drop(run(FULL)),
        ["--quick"] => drop(run(QUICK)),
        ["--write", docs] => {
            let (figures, plot) = run(FULL);
            if let Err(error) = page::write(Path::new(docs), &figures, &plot) {
                fail(&error.to_string());
            }
        }
        _ => fail("usage: bench [--quick | --write DOCS]"),
    }
}

/// The figures as text, and the plot.
fn run(effort: Effort) -> (String, String) {
    let cases = cases::all();
    for case in &cases {
        if let Err(why) = check::check(&case.script) {
            fail(&format!("{}: {}: {why}", case.group, case.name));
        }
    }
    eprintln!("{} steps are answered alike by both sides; now they are timed", cases.len());
    let rows: Vec<Row> = cases
        .iter()
        .map(|case| Row { group: case.group, name: case.name.clone(), times: measure::measure(&case.script, effort) })
        .collect();
    let figures = format!("{}\n{}{}", table::table(&rows), settings::settings(effort), loop_share(&cases, effort));
    print!("{figures}");
    (figures, plot::plot(&rows))
}

/// What the longest and the shortest pass take with nothing to do.
fn loop_share(cases: &[Case], effort: Effort) -> String {
    let share = |script: &Script| {
        let time = measure::measure_nothing(script, effort);
        format!("{} ns in a pass of {}", table::figure(time.median), table::thousands(script.steps() as u64))
    };
    let scripts = || cases.iter().map(|case| &case.script);
    let long = scripts().max_by_key(|script| script.steps()).map(share).unwrap_or_default();
    let short = scripts().min_by_key(|script| script.steps()).map(share).unwrap_or_default();
    format!("- the loop and the reading of the clock, which are part of every figure of both sides: a step {long}, {short}\n")
}

fn fail(why: &str) -> ! {
    eprintln!("bench: {why}");
    exit(1);
}
