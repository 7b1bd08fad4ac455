//! Work shared by a few threads.

use std::thread;

/// How many threads share the work.
pub const WORKERS: u64 = 2;

/// Runs each worker's part, by its number. All parts run to their end, and the
/// first worker's find is the one told.
pub fn shared<T: Send, E: Send>(part: impl Fn(u64) -> Result<T, E> + Sync) -> Result<Vec<T>, E> {
    let part = &part;
    thread::scope(|scope| {
        let workers: Vec<_> = (0..WORKERS)
            .map(|worker| scope.spawn(move || part(worker)))
            .collect();
        let made = |worker: thread::ScopedJoinHandle<_>| worker.join().expect("no worker panics");
        workers.into_iter().map(made).collect()
    })
}

/// Looks at each of so many numbers; each worker has every so many, from its own
/// on, and ends with its first find.
pub fn each<E: Send>(count: u64, find: impl Fn(u64) -> Option<E> + Sync) -> Result<(), E> {
    shared(|worker| {
        let mut numbers = (worker..count).step_by(WORKERS as usize);
        numbers.find_map(&find).map_or(Ok(()), Err)
    })?;
    Ok(())
}
