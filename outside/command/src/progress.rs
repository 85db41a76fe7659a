//! The line on a terminal that tells how far it is. Nothing of it is seen in a pipe.

use guide::solve::Progress;
use indicatif::{ProgressBar, ProgressStyle};
use std::io::IsTerminal;
use std::sync::atomic::{AtomicBool, AtomicU64, Ordering};
use std::time::{Duration, Instant};

/// Does some work, and shows a line about it meanwhile where standard error is a terminal.
pub fn shown<Done>(line: impl Fn(Duration) -> String + Sync, work: impl FnOnce() -> Done) -> Done {
    if !std::io::stderr().is_terminal() {
        return work();
    }
    let ended = AtomicBool::new(false);
    std::thread::scope(|threads| {
        threads.spawn(|| watch(&line, &ended));
        let done = work();
        ended.store(true, Ordering::Relaxed);
        done
    })
}

/// How often the line is drawn anew, and how soon an end is seen.
const LINE: Duration = Duration::from_millis(200);
const LOOK: Duration = Duration::from_millis(5);

fn watch(line: &impl Fn(Duration) -> String, ended: &AtomicBool) {
    let (begun, bar) = (Instant::now(), ProgressBar::new_spinner());
    bar.set_style(ProgressStyle::with_template("{spinner} {msg}").expect("a template"));
    let mut drawn = begun;
    while !ended.load(Ordering::Relaxed) {
        std::thread::sleep(LOOK);
        if drawn.elapsed() >= LINE {
            drawn = Instant::now();
            bar.set_message(line(begun.elapsed()));
            bar.tick();
        }
    }
    bar.finish_and_clear();
}

/// The line of a search: runs, moves a second, fewest unsatisfied roots.
pub fn search(progress: &Progress) -> impl Fn(Duration) -> String + Sync + '_ {
    |elapsed| {
        let [runs, moves, fewest] =
            [&progress.runs, &progress.moves, &progress.fewest].map(|count| count.load(Ordering::Relaxed));
        let speed = moves as f64 / elapsed.as_secs_f64();
        let fewest = if fewest == u64::MAX { "-".into() } else { fewest.to_string() };
        format!("{runs} runs, {speed:.0} moves/s, fewest unsatisfied roots {fewest}")
    }
}

/// The line of what is made one by one: how many of them all.
pub fn count<'a>(made: &'a AtomicU64, all: u64, what: &'a str) -> impl Fn(Duration) -> String + Sync + 'a {
    move |_| format!("{} of {all} {what}", made.load(Ordering::Relaxed))
}

#[cfg(test)]
mod tests {
    use super::*;

    #[test]
    fn the_lines_have_what_there_is_to_tell() {
        let progress = Progress::default();
        progress.runs.store(3, Ordering::Relaxed);
        progress.moves.store(1000, Ordering::Relaxed);
        progress.fewest.store(2, Ordering::Relaxed);
        let shown = search(&progress)(Duration::from_millis(500));
        assert_eq!(shown, "3 runs, 2000 moves/s, fewest unsatisfied roots 2");
        progress.fewest.store(u64::MAX, Ordering::Relaxed);
        assert!(search(&progress)(Duration::from_secs(1)).ends_with("roots -"));
        assert_eq!(count(&progress.runs, 9, "starts")(Duration::from_secs(1)), "3 of 9 starts");
    }
}
