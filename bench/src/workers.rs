//! Workers that take numbered work in order and stop at a difference.

use std::sync::atomic::{AtomicUsize, Ordering};
use std::thread;

pub const WORKERS: usize = 2;

/// Lets a worker for each state take the numbers below the count. Gives the
/// states back, and the difference of the least number.
pub fn take<State: Send, Difference: Send>(
    count: usize,
    states: Vec<State>,
    work: impl Fn(&mut State, usize) -> Option<Difference> + Sync,
) -> (Vec<State>, Option<(usize, Difference)>) {
    let next = &AtomicUsize::new(0);
    let work = &work;
    let done: Vec<_> = thread::scope(|scope| {
        let run = |mut state| {
            let found = take_some(count, next, |number| work(&mut state, number));
            (state, found)
        };
        let start = |state| scope.spawn(move || run(state));
        let workers: Vec<_> = states.into_iter().map(start).collect();
        let join = |worker: thread::ScopedJoinHandle<_>| worker.join();
        let done = workers.into_iter().map(join);
        done.map(|done| done.expect("a worker does not panic"))
            .collect()
    });
    let (states, found): (Vec<_>, Vec<_>) = done.into_iter().unzip();
    let first = found
        .into_iter()
        .flatten()
        .min_by_key(|(number, _)| *number);
    (states, first)
}

/// One worker's share. At a difference nobody takes any more.
fn take_some<Difference>(
    count: usize,
    next: &AtomicUsize,
    mut work: impl FnMut(usize) -> Option<Difference>,
) -> Option<(usize, Difference)> {
    loop {
        let number = next.fetch_add(1, Ordering::Relaxed);
        if number >= count {
            return None;
        }
        if let Some(difference) = work(number) {
            next.store(count, Ordering::Relaxed);
            return Some((number, difference));
        }
    }
}

#[cfg(test)]
mod tests {
    use super::*;

    #[test]
    fn every_number_is_taken_once() {
        let (states, difference) = take(100, vec![Vec::new(), Vec::new()], |taken, number| {
            taken.push(number);
            None::<()>
        });
        let mut taken = states.concat();
        taken.sort();
        assert_eq!(taken, Vec::from_iter(0..100));
        assert_eq!(difference, None);
    }

    #[test]
    fn work_stops_at_a_difference() {
        let (_, difference) = take(100, vec![()], |_, number| (number >= 7).then_some(number));
        assert_eq!(difference, Some((7, 7)));
    }
}
