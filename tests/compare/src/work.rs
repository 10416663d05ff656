//! Cases shared out over the machine's processors, and counted.
use std::sync::atomic::{AtomicUsize, Ordering};
use std::thread;

/// How many cases were found equal, or what the first difference is.
pub type Counted = Result<u64, String>;

/// Does each piece of work and adds the cases. Of the differences that are met, the one in the lowest piece is told.
pub fn share<W: Sync>(works: &[W], each: impl Fn(&W) -> Counted + Sync) -> Counted {
    let next = AtomicUsize::new(0);
    let failed = AtomicUsize::new(usize::MAX);
    let worker = || {
        let mut cases = 0;
        loop {
            let at = next.fetch_add(1, Ordering::Relaxed);
            if at >= works.len().min(failed.load(Ordering::Relaxed)) {
                return Ok(cases);
            }
            match each(&works[at]) {
                Ok(more) => cases += more,
                Err(difference) => {
                    failed.fetch_min(at, Ordering::Relaxed);
                    return Err((at, difference));
                }
            }
        }
    };
    let workers = thread::available_parallelism().map_or(1, usize::from);
    let done: Vec<Result<u64, (usize, String)>> = thread::scope(|scope| {
        let running: Vec<_> = (0..workers).map(|_| scope.spawn(worker)).collect();
        running.into_iter().map(|one| one.join().expect("a worker ends")).collect()
    });
    let mut cases = 0;
    let mut first: Option<(usize, String)> = None;
    for one in done {
        match one {
            Ok(more) => cases += more,
            Err(difference) => first = Some(first.map_or(difference.clone(), |other| other.min(difference))),
        }
    }
    first.map_or(Ok(cases), |(_, difference)| Err(difference))
}
