//! The smallest input that still shows a difference: every simpler case is tried until none shows it any more.

use std::panic::{catch_unwind, AssertUnwindSafe};

/// Takes simpler cases as long as they differ; the last one and what differs in it.
pub fn smallest<C: Clone>(
    first: C,
    differs: &dyn Fn(&C) -> Option<String>,
    simpler: &dyn Fn(&C) -> Vec<C>,
) -> (C, String) {
    let mut case = first;
    let mut what = differs(&case).expect("the case differs");
    'again: loop {
        for next in simpler(&case) {
            if let Some(found) = differs(&next) {
                (case, what) = (next, found);
                continue 'again;
            }
        }
        return (case, what);
    }
}

/// A panic differs too.
pub fn caught<T>(run: impl FnOnce() -> Result<T, String>) -> Result<T, String> {
    catch_unwind(AssertUnwindSafe(run)).unwrap_or_else(|panic| {
        let text = panic.downcast_ref::<String>().cloned();
        Err(format!("panic: {}", text.unwrap_or_default()))
    })
}

/// Numbers nearer to zero than this one.
pub fn nearer(n: i32) -> Vec<i32> {
    let mut found = vec![0, n / 2, n - n.signum()];
    found.retain(|m| m.unsigned_abs() < n.unsigned_abs());
    found.dedup();
    found
}
