//! Many books at once.

use std::sync::atomic::{AtomicUsize, Ordering};

/// Bytes of stack a worker has: the judges recurse where it is clearer.
const STACK: usize = 256 << 20;

/// The answers to the numbers below `count`, in their order, worked out on
/// every core.
pub fn each<T: Send>(count: usize, work: impl Fn(usize) -> T + Sync) -> Vec<T> {
    let next = AtomicUsize::new(0);
    let take = || {
        let mut answers = Vec::new();
        loop {
            let number = next.fetch_add(1, Ordering::Relaxed);
            if number >= count {
                return answers;
            }
            answers.push((number, work(number)));
        }
    };
    let workers = std::thread::available_parallelism().map_or(1, usize::from);
    let mut answers: Vec<(usize, T)> = std::thread::scope(|scope| {
        let handles: Vec<_> = (0..workers)
            .map(|_| {
                let builder = std::thread::Builder::new().stack_size(STACK);
                builder.spawn_scoped(scope, take).expect("a thread starts")
            })
            .collect();
        let join = |handle: std::thread::ScopedJoinHandle<'_, Vec<(usize, T)>>| {
            handle
                .join()
                .unwrap_or_else(|panic| std::panic::resume_unwind(panic))
        };
        handles.into_iter().flat_map(join).collect()
    });
    answers.sort_by_key(|answer| answer.0);
    answers.into_iter().map(|answer| answer.1).collect()
}
