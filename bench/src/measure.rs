//! Times both sides in turn.

use crate::ours::Ours;
use crate::rust::Rust;
use crate::script::{Call, Script};
use crate::side::{Shown, Side};
use std::hint::black_box;
use std::time::{Duration, Instant};

/// How often, and for how long.
#[derive(Clone, Copy)]
pub struct Effort {
    pub rounds: usize,
    pub at_least: Duration,
}

/// The median of all rounds, and the quartiles.
#[derive(Clone, Copy)]
pub struct Spread {
    pub low: f64,
    pub median: f64,
    pub high: f64,
}

/// Nanoseconds a step. The ratio is taken in each round, so that the pace of the machine falls out of it.
#[derive(Clone, Copy)]
pub struct Times {
    pub ours: Spread,
    pub rust: Spread,
    pub ratio: Spread,
}

/// A round times one side and then the other. Who is first changes from round to round.
pub fn measure(script: &Script, effort: Effort) -> Times {
    let mut ours = Timed::new(Ours::new(&script.messages), script);
    let mut rust = Timed::new(Rust::new(&script.messages), script);
    for round in 0..effort.rounds {
        if round % 2 == 0 {
            ours.round(effort);
            rust.round(effort);
        } else {
            rust.round(effort);
            ours.round(effort);
        }
    }
    let ratios = ours.rounds.iter().zip(&rust.rounds).map(|(ours, rust)| ours / rust).collect();
    Times { ours: spread(ours.rounds), rust: spread(rust.rounds), ratio: spread(ratios) }
}

/// What the loop itself takes, with nothing to do in it. It is part of every figure.
pub fn measure_nothing(script: &Script, effort: Effort) -> Spread {
    let mut nothing = Timed::new(Nothing, script);
    for _ in 0..effort.rounds {
        nothing.round(effort);
    }
    spread(nothing.rounds)
}

fn spread(mut rounds: Vec<f64>) -> Spread {
    rounds.sort_by(f64::total_cmp);
    let at = |quarters: usize| rounds[(rounds.len() - 1) * quarters / 4];
    Spread { low: at(1), median: at(2), high: at(3) }
}

struct Timed<'a, S: Side> {
    side: S,
    script: &'a Script,
    saved: S::Session,
    rounds: Vec<f64>,
}

impl<S: Side> Timed<'_, S> {
    fn new(mut side: S, script: &Script) -> Timed<'_, S> {
        let saved = side.saved(script);
        Timed { side, script, saved, rounds: Vec::new() }
    }

    fn round(&mut self, effort: Effort) {
        self.pass(); // warms up
        let (mut taken, mut passes) = (Duration::ZERO, 0);
        while taken < effort.at_least {
            taken += self.pass();
            passes += 1;
        }
        self.rounds.push(taken.as_nanos() as f64 / (passes * self.script.steps()) as f64);
    }

    /// The copies are made before the clock starts, and dropped after it stopped.
    fn pass(&mut self) -> Duration {
        let mut copies = vec![self.saved.clone(); self.script.copies];
        let start = Instant::now();
        for session in &mut copies {
            for call in &self.script.calls {
                self.side.play(black_box(session), black_box(*call));
            }
        }
        start.elapsed()
    }
}

struct Nothing;

impl Side for Nothing {
    type Session = ();

    fn start(&mut self) {}

    fn play(&mut self, session: &mut (), call: Call) {
        black_box((session, call));
    }

    fn show(&mut self, _session: &mut (), _call: Call) -> Shown {
        unreachable!("nothing is not checked")
    }
}
