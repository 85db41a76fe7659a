//! Work in parts, on all of the machine's processors.

use std::sync::atomic::{AtomicBool, AtomicUsize, Ordering};
use std::sync::Mutex;
use std::thread::{available_parallelism, scope};

/// Does the work for each part, and gives the results in the parts' order; or the first fault. After a
/// fault no further part is begun.
pub fn each<Part: Sync, Done: Send, Fault: Send>(
    parts: &[Part],
    work: impl Fn(&Part) -> Result<Done, Fault> + Sync,
) -> Result<Vec<Done>, Fault> {
    let (next, stop) = (AtomicUsize::new(0), AtomicBool::new(false));
    let results = Mutex::new(Vec::new());
    let worker = || {
        while !stop.load(Ordering::Relaxed) {
            let at = next.fetch_add(1, Ordering::Relaxed);
            let Some(part) = parts.get(at) else {
                return;
            };
            let result = work(part);
            stop.fetch_or(result.is_err(), Ordering::Relaxed);
            results.lock().expect("no worker panics with it").push((at, result));
        }
    };
    scope(|threads| {
        for _ in 0..available_parallelism().map_or(1, usize::from) {
            threads.spawn(worker);
        }
    });
    let mut results = results.into_inner().expect("all workers are done");
    results.sort_by_key(|&(at, _)| at);
    results.into_iter().map(|(_, result)| result).collect()
}

#[cfg(test)]
mod tests {
    use super::*;

    #[test]
    fn results_come_in_order_and_a_fault_stops() {
        let parts: Vec<u32> = (0..100).collect();
        assert_eq!(each(&parts, |&part| Ok::<u32, ()>(part * 2)), Ok(parts.iter().map(|p| p * 2).collect()));
        assert_eq!(each(&parts, |&part| if part == 0 { Err("zero") } else { Ok(()) }), Err("zero"));
        assert_eq!(each(&[0; 0], |_| Ok::<(), ()>(())), Ok(vec![]));
    }
}
