//! Sharing jobs out among threads.

use std::sync::atomic::{AtomicUsize, Ordering};
use std::thread;

/// The outcome of each job, in the order of the jobs; each worker has tools of its own.
pub fn share_out<Job: Sync, Tool, Outcome: Send>(
    workers: usize,
    jobs: &[Job],
    tool: impl Fn() -> Tool + Sync,
    work: impl Fn(&mut Tool, &Job) -> Outcome + Sync,
) -> Vec<Outcome> {
    let next = AtomicUsize::new(0);
    let one_worker = || {
        let mut tool = tool();
        let mut done = Vec::new();
        loop {
            let place = next.fetch_add(1, Ordering::Relaxed);
            let Some(job) = jobs.get(place) else {
                return done;
            };
            done.push((place, work(&mut tool, job)));
        }
    };
    let mut done: Vec<(usize, Outcome)> = thread::scope(|scope| {
        let workers: Vec<_> = (0..workers).map(|_| scope.spawn(one_worker)).collect();
        let results = workers.into_iter().map(|worker| worker.join());
        results
            .flat_map(|done| done.expect("no worker panics"))
            .collect()
    });
    done.sort_by_key(|(place, _)| *place);
    done.into_iter().map(|(_, outcome)| outcome).collect()
}

#[cfg(test)]
mod tests {
    use super::*;

    #[test]
    fn outcomes_come_in_the_order_of_the_jobs() {
        let jobs: Vec<usize> = (0..1_000).collect();
        let squares = share_out(2, &jobs, || (), |_, job| job * job);
        assert!(squares
            .iter()
            .enumerate()
            .all(|(job, square)| job * job == *square));
    }
}
