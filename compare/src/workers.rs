//! The items of a run, shared out over all cores.

use crate::counted::Counted;
use std::sync::atomic::{AtomicBool, AtomicUsize, Ordering};
use std::thread;

/// What one worker met, and the first difference that it found.
type Found<C> = (C, Option<(usize, String)>);

/// Takes items in order until all are done or one differs.
fn worker<T, C: Counted>(
    items: &[T],
    next: &AtomicUsize,
    halt: &AtomicBool,
    run: impl Fn(&T) -> Result<C, String>,
) -> Found<C> {
    let mut seen = C::default();
    while !halt.load(Ordering::SeqCst) {
        let at = next.fetch_add(1, Ordering::SeqCst);
        let Some(item) = items.get(at) else { break };
        match run(item) {
            Ok(more) => seen.add(&more),
            Err(difference) => {
                halt.store(true, Ordering::SeqCst);
                return (seen, Some((at, difference)));
            }
        }
    }
    (seen, None)
}

/// Runs all items on every core; what they met, or the first difference, the same one in every run.
pub fn run_all<T: Sync, C: Counted>(
    items: &[T],
    run: impl Fn(usize, &T) -> Result<C, String> + Sync,
) -> Result<C, String> {
    let (next, halt) = (AtomicUsize::new(0), AtomicBool::new(false));
    let cores = thread::available_parallelism().map_or(1, |cores| cores.get());
    let found: Vec<Found<C>> = thread::scope(|scope| {
        let (next, halt, run) = (&next, &halt, &run);
        let start = |core| scope.spawn(move || worker(items, next, halt, |item| run(core, item)));
        let workers: Vec<_> = (0..cores).map(start).collect();
        workers.into_iter().map(|worker| worker.join().expect("a worker ends")).collect()
    });
    let mut seen = C::default();
    found.iter().for_each(|(more, _)| seen.add(more));
    match found.into_iter().filter_map(|(_, difference)| difference).min() {
        Some((_, difference)) => Err(difference),
        None => Ok(seen),
    }
}
