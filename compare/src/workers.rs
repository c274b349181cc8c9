//! Cases on all processors at once, with the outcome that one after the other
//! would have.

use std::ops::Range;
use std::sync::atomic::{AtomicUsize, Ordering::SeqCst};
use std::sync::Mutex;

/// What each of the cases gives, in their order; or what the first one of them
/// gave that failed.
pub fn all<T, E>(
    cases: Range<usize>,
    case: impl Fn(usize) -> Result<T, E> + Sync,
) -> Result<Vec<T>, E>
where
    T: Send,
    E: Send,
{
    let next = AtomicUsize::new(cases.start);
    let failed = AtomicUsize::new(usize::MAX);
    let done = Mutex::new(Vec::new());
    let work = || loop {
        let index = next.fetch_add(1, SeqCst);
        // Those before a failed one are still to be run: one may fail as well.
        if index >= cases.end || index > failed.load(SeqCst) {
            return;
        }
        let outcome = case(index);
        if outcome.is_err() {
            failed.fetch_min(index, SeqCst);
        }
        done.lock().expect("no case panics").push((index, outcome));
    };
    let processors = std::thread::available_parallelism().map_or(1, |n| n.get());
    std::thread::scope(|scope| (0..processors).for_each(|_| drop(scope.spawn(work))));
    let mut done = done.into_inner().expect("no case panics");
    done.sort_by_key(|(index, _)| *index);
    done.into_iter().map(|(_, outcome)| outcome).collect()
}

#[cfg(test)]
mod tests {
    use super::all;

    #[test]
    fn outcomes_come_in_order() {
        let squares = all(0..1_000, |i| Ok::<usize, usize>(i * i));
        assert_eq!(squares, Ok((0..1_000).map(|i| i * i).collect()));
    }

    #[test]
    fn the_first_that_fails_is_told() {
        let failing = all(0..1_000, |i| if i % 300 == 299 { Err(i) } else { Ok(i) });
        assert_eq!(failing, Err(299));
    }
}
