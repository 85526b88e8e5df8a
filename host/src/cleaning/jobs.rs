//! Work on as many cores as there are, with answers in the order in which it was given.

use std::collections::BTreeMap;
use std::num::NonZero;
use std::sync::atomic::{AtomicUsize, Ordering};
use std::sync::mpsc::channel;
use std::thread::{available_parallelism, scope};

/// The number of cores that this program may use; 1 if the system does not tell it.
pub fn cores() -> usize {
    available_parallelism().map_or(1, NonZero::get)
}

/// Works on all items, on up to `jobs` of them at a time. `tell` is called with each item's answer, in the order of the
/// items. `done` is called after each item that is finished, in whatever order they are. Both run on this thread. With
/// one job all runs on this thread, and `done` is not called.
///
/// An answer waits until those in front of it are told, so it should be small.
pub fn in_order<T: Sync, A: Send>(
    jobs: usize,
    items: &[T],
    work: impl Fn(&T) -> A + Sync,
    mut done: impl FnMut(),
    mut tell: impl FnMut(A),
) {
    if jobs.min(items.len()) <= 1 {
        return items.iter().for_each(|item| tell(work(item)));
    }
    let next = AtomicUsize::new(0);
    scope(|scope| {
        let (to, answers) = channel();
        for _ in 0..jobs.min(items.len()) {
            let (to, next, work) = (to.clone(), &next, &work);
            scope.spawn(move || {
                while let Some((place, item)) = next_item(next, items) {
                    // this can't fail: who listens waits for all answers
                    let _ = to.send((place, work(item)));
                }
            });
        }
        drop(to);
        let (mut waiting, mut due) = (BTreeMap::new(), 0);
        for (place, answer) in answers {
            waiting.insert(place, answer);
            while let Some(answer) = waiting.remove(&due) {
                tell(answer);
                due += 1;
            }
            done();
        }
    });
}

/// The next item that nobody works on yet, and its place.
fn next_item<'a, T>(next: &AtomicUsize, items: &'a [T]) -> Option<(usize, &'a T)> {
    let place = next.fetch_add(1, Ordering::Relaxed);
    Some((place, items.get(place)?))
}

#[cfg(test)]
mod tests {
    use super::*;
    use std::sync::{Barrier, Mutex};
    use std::thread::{current, sleep};
    use std::time::Duration;

    /// The first item takes longest, so its answer comes last; it is told first.
    #[test]
    fn answers_come_in_order() {
        let items: Vec<u64> = (0..20).collect();
        for jobs in [0, 1, 2, 3, 8, 100] {
            let (mut told, mut finished) = (vec![], 0);
            let work = |item: &u64| {
                sleep(Duration::from_millis(if *item == 0 { 40 } else { 1 }));
                item * item
            };
            in_order(jobs, &items, work, || finished += 1, |answer| told.push(answer));
            assert_eq!(told, items.iter().map(|item| item * item).collect::<Vec<_>>(), "{jobs} jobs");
            assert_eq!(finished, if jobs <= 1 { 0 } else { 20 });
        }
        in_order(4, &[], |item: &u64| *item, || (), |_| panic!("there is no item"));
    }

    /// So many at a time as there are jobs, and no more. (None of the three would get past the barrier alone.)
    #[test]
    fn as_many_at_a_time() {
        let (barrier, now, most) = (Barrier::new(3), AtomicUsize::new(0), AtomicUsize::new(0));
        let work = |_: &usize| {
            most.fetch_max(now.fetch_add(1, Ordering::SeqCst) + 1, Ordering::SeqCst);
            barrier.wait();
            now.fetch_sub(1, Ordering::SeqCst);
        };
        in_order(3, &[0; 9], work, || (), |()| ());
        assert_eq!(most.into_inner(), 3);
    }

    #[test]
    fn one_job_is_this_thread() {
        let (own, seen) = (current().id(), Mutex::new(vec![]));
        in_order(1, &[0; 5], |_| seen.lock().unwrap().push(current().id()), || (), |()| ());
        assert_eq!(seen.into_inner().unwrap(), [own; 5]);
    }
}
