//! How long a wait may last, as C says it.

use std::ffi::{c_int, c_void};
use std::time::{Duration, Instant};

/// A limit of a wait, as the header has it.
#[repr(C)]
pub struct Limit {
    milliseconds: i64,
    go_on: Option<unsafe extern "C" fn(*mut c_void) -> c_int>,
    with: *mut c_void,
}

/// The kinds of limits.
pub(crate) enum Wait<F> {
    Forever,
    Time(Duration),
    While(F),
}

impl Limit {
    /// What a limit says.
    ///
    /// # Safety
    ///
    /// It is null or points to a limit whose function may be called with its pointer, also while the wait goes on.
    pub(crate) unsafe fn wait(limit: *const Limit) -> Wait<impl FnMut() -> bool> {
        // SAFETY: the caller's duty.
        let Some(limit) = (unsafe { limit.as_ref() }) else {
            return Wait::Forever;
        };
        let time = u64::try_from(limit.milliseconds).ok().map(Duration::from_millis);
        let (Some(go_on), with) = (limit.go_on, limit.with) else {
            return time.map_or(Wait::Forever, Wait::Time);
        };
        let end = time.and_then(|time| Instant::now().checked_add(time));
        Wait::While(move || {
            // SAFETY: the caller's duty.
            end.is_none_or(|end| Instant::now() < end) && unsafe { go_on(with) } != 0
        })
    }
}
