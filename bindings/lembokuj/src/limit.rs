//! How long a wait may last.

use std::time::{Duration, Instant};

/// How often a wait asks its caller whether it is to go on.
const ASKED_EVERY: Duration = Duration::from_millis(10);

/// How long a wait may last.
pub(crate) enum Limit<'a> {
    /// Until there is something.
    Forever,
    /// Or until this time.
    Until(Instant),
    /// Or as long as the function says so, which is asked about every 10 ms.
    While(&'a mut dyn FnMut() -> bool),
}

impl Limit<'_> {
    /// A limit at this time from now on. A time beyond all clocks is none.
    pub(crate) fn after(time: Duration) -> Limit<'static> {
        Instant::now().checked_add(time).map_or(Limit::Forever, Limit::Until)
    }

    /// How long to sleep before the next try, None for as long as it takes; or the wait is over.
    pub(crate) fn next_sleep(&mut self) -> Result<Option<Duration>, Over> {
        match self {
            Limit::Forever => Ok(None),
            Limit::Until(end) => match end.saturating_duration_since(Instant::now()) {
                Duration::ZERO => Err(Over),
                left => Ok(Some(left)),
            },
            Limit::While(asks) => asks().then_some(Some(ASKED_EVERY)).ok_or(Over),
        }
    }
}

/// The limit of a wait is reached.
pub(crate) struct Over;
