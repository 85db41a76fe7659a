//! Reading another solver's model: 1,024 entries against 1,024 names, and time as the text grows, which is to be linear but for
//! the look-up of names.

use generate::Builder;
use model::Pair;
use std::time::{Duration, Instant};
use walumpeh::Judged;

/// The most that 1,024 entries against 1,024 names may take.
const BOUND: Duration = Duration::from_millis(10);

/// A problem of variables alone, a name for each, and an answer with an entry for each in some order.
struct Work {
    problem: Vec<u8>,
    names: String,
    text: String,
}

impl Work {
    /// `order` gives the variable of each entry; after each entry come so many blanks.
    fn new(
        count: usize,
        name: impl Fn(usize) -> String,
        order: impl Fn(usize) -> usize,
        blanks: usize,
    ) -> Work {
        let mut builder = Builder::new();
        for _ in 0..count {
            builder.variable(32, Pair::free(32));
        }
        let names: Vec<String> = (0..count).map(name).collect();
        let entry = |at: usize| {
            let (name, blanks) = (&names[order(at)], " ".repeat(blanks));
            format!("  (define-fun {name} () (_ BitVec 32)\n    #x{:08x})\n{blanks}", at * 77)
        };
        let text = format!("(\n{})\n", (0..count).map(entry).collect::<String>());
        Work { problem: builder.problem.bytes(), names: names.join("\n"), text }
    }

    /// The fastest of some rounds; every answer must be a yes.
    fn fastest(&self, rounds: usize) -> Result<Duration, String> {
        let once = |_| {
            let start = Instant::now();
            let judged = walumpeh::model(&self.problem, self.names.as_bytes(), self.text.as_bytes());
            (judged == Ok(Judged::Yes)).then(|| start.elapsed()).ok_or(format!("{judged:?}"))
        };
        let times = (0..rounds).map(once).collect::<Result<Vec<_>, String>>()?;
        times.into_iter().min().ok_or("no rounds".into())
    }
}

pub fn table(rounds: usize) -> Result<(), String> {
    println!("{:44} {:>9} {:>9} {:>9}", "1,024 entries against 1,024 names", "bytes", "ms", "ns/byte");
    let short = |id: usize| format!("v{id:04}");
    let scoped = |id: usize| format!("top.core.alu.stage.signal_{id:04}_out");
    let works = [
        ("v0000, in order", Work::new(1024, short, |at| at, 0)),
        ("v0000, reversed", Work::new(1024, short, |at| 1023 - at, 0)),
        ("v0000, mixed", Work::new(1024, short, |at| at * 617 % 1024, 0)),
        ("top.core.alu.stage.signal_0000_out, mixed", Work::new(1024, scoped, |at| at * 617 % 1024, 0)),
        (
            "|bus[0000].valid|, mixed",
            Work::new(1024, |id| format!("|bus[{id:04}].valid|"), |at| at * 617 % 1024, 0),
        ),
    ];
    for (what, work) in works {
        let time = row(what, &work, rounds)?;
        if time > BOUND {
            return Err(format!("{what}: more than {BOUND:?}"));
        }
    }
    for count in [16, 128, 1024] {
        row(&format!("{count} variables"), &Work::new(count, short, |at| at, 0), rounds)?;
    }
    for blanks in [100, 1000, 10_000] {
        row(
            &format!("1024 variables, {blanks} blanks after each"),
            &Work::new(1024, short, |at| at, blanks),
            rounds,
        )?;
    }
    Ok(())
}

fn row(what: &str, work: &Work, rounds: usize) -> Result<Duration, String> {
    let (time, bytes) = (work.fastest(rounds)?, work.text.len());
    let (ms, each) = (time.as_secs_f64() * 1e3, time.as_secs_f64() * 1e9 / bytes as f64);
    println!("{what:44} {bytes:>9} {ms:>9.3} {each:>9.2}");
    Ok(time)
}
