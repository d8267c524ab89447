//! A clock that is set before each call. In a run it stands still during the call; a test may let
//! it move on at each reading.

use std::cell::Cell;
use std::time::Duration;

thread_local! {
    static NOW: Cell<Duration> = const { Cell::new(Duration::ZERO) };
    static STEP: Cell<Duration> = const { Cell::new(Duration::ZERO) };
}

pub fn set(now: Duration) {
    NOW.set(now);
}

#[cfg(test)]
pub fn set_step(step: Duration) {
    STEP.set(step);
}

fn read() -> Duration {
    let now = NOW.get();
    NOW.set(now.saturating_add(STEP.get()));
    now
}

#[derive(Clone)]
pub struct SystemTime {
    pub since_zero: Duration,
}

impl SystemTime {
    pub fn now() -> SystemTime {
        SystemTime { since_zero: read() }
    }

    /// An error where the clock went back, as the real one gives.
    pub fn elapsed(&self) -> Result<Duration, ()> {
        read().checked_sub(self.since_zero).ok_or(())
    }
}
