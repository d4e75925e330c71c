//! Work spread over threads.

use std::thread;

/// What the workers return, who are numbered from 0.
pub fn spread<T: Send>(threads: usize, work: impl Fn(u64) -> T + Sync) -> Vec<T> {
    thread::scope(|scope| {
        let work = &work;
        let workers: Vec<_> =
            (0..threads as u64).map(|number| scope.spawn(move || work(number))).collect();
        workers.into_iter().map(|worker| worker.join().expect("a worker ends")).collect()
    })
}
