//! With what all was built and measured, in a few lines.

use crate::measure::Effort;

pub fn settings(effort: Effort) -> String {
    let Effort { rounds, at_least } = effort;
    let cores = std::thread::available_parallelism().map_or(1, usize::from);
    let flags = match env!("BENCH_FLAGS") {
        "" => "none, so target-cpu is the default".to_string(),
        flags => format!("`{flags}`"),
    };
    let panic = if cfg!(panic = "unwind") { "unwind" } else { "abort" };
    let checks = if cfg!(debug_assertions) { "on" } else { "off" };
    let kit = std::env::var("CHUNGVATOR_KIT").unwrap_or_else(|_| "not said".to_string());
    [
        format!("- the Rust and the loop: {}; profile `{}`; flags: {flags}", env!("BENCH_RUSTC"), env!("BENCH_PROFILE")),
        format!("- as built: panic is {panic}, debug assertions are {checks}, the allocator is the system's"),
        format!("- ours: a static library behind a C boundary, not part of the link-time optimisation; kit: {kit}"),
        "- ours: the out buffer and the answer are lent once and used again; they are not cleared between steps".to_string(),
        format!("- {rounds} rounds, the sides in turn, each at least {} ms a side; one thread; {cores} cores", at_least.as_millis()),
    ]
    .map(|line| line + "\n")
    .concat()
}
