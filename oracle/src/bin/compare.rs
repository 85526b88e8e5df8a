//! `compare [GROUP ..] [--calls N] [--seed S] [--tenth] [--fresh] [--all]`: the proved library beside the Rust text.
//!
//! Without a group, all expected groups, on two threads; if this program lacks one of them, it fails. A line a group,
//! after its first differences in full; exit status 1 if there are any. `--calls` is the number of calls of each leaf,
//! or of files, networks, calls or frames; `--tenth` a tenth of what it is otherwise. `--seed` is what the inputs are
//! made from, 1 if none is given; `--fresh` takes another one in each run, and a tenth of the calls. The last line
//! tells the seed, and how to make the same run again. `--all`: all 4,294,967,296 numbers, for the groups `numbers`,
//! `logs` and `pcm`.

use oracle::{wrong_groups, Group, Options, GROUPS};
use std::sync::Mutex;
use std::time::{SystemTime, UNIX_EPOCH};

fn usage() -> ! {
    let names: Vec<_> = GROUPS.iter().map(|g| g.0).collect();
    eprintln!("compare [GROUP ..] [--calls N] [--seed S] [--tenth] [--fresh] [--all]   groups: {}", names.join(" "));
    std::process::exit(2)
}

/// A seed of nine digits that the next run will not have.
fn fresh() -> u64 {
    let now = SystemTime::now().duration_since(UNIX_EPOCH).map_or(0, |since| since.as_nanos() as u64);
    (now ^ u64::from(std::process::id()) << 20) % 1_000_000_000
}

fn arguments() -> (Vec<&'static Group>, Options) {
    let mut groups = vec![];
    let mut options = Options { seed: 1, ..Options::default() };
    let mut words = std::env::args().skip(1);
    while let Some(word) = words.next() {
        let mut number =
            || words.next().and_then(|n| n.replace(['_', ','], "").parse().ok()).unwrap_or_else(|| usage());
        match &word[..] {
            "--calls" => options.calls = Some(number()),
            "--seed" => options.seed = number(),
            "--tenth" => options.tenth = true,
            "--fresh" => (options.seed, options.tenth) = (fresh(), true),
            "--all" => options.all = true,
            name => groups.push(GROUPS.iter().find(|g| g.0 == name).unwrap_or_else(|| usage())),
        }
    }
    if groups.is_empty() {
        if let Some(what) = wrong_groups() {
            eprintln!("compare: {what}");
            std::process::exit(1);
        }
        groups.extend(GROUPS);
    }
    (groups, options)
}

fn main() {
    let (groups, options) = arguments();
    // the long ones stand last, and go first
    let next = Mutex::new((0..groups.len()).rev());
    let done = Mutex::new(vec![]);
    std::thread::scope(|scope| {
        for _ in 0..2 {
            scope.spawn(|| loop {
                let Some(i) = next.lock().unwrap().next() else { break };
                let tally = groups[i].1(&options);
                done.lock().unwrap().push((i, tally));
            });
        }
    });
    let mut done = done.into_inner().unwrap();
    done.sort_by_key(|(i, _)| *i);
    for (_, tally) in &done {
        println!("{}", tally.report());
    }
    let tenth = if options.tenth { " --tenth" } else { "" };
    println!("seed {}; the same inputs again: compare --seed {0}{tenth}", options.seed);
    let failed = done.iter().any(|(_, tally)| tally.differences > 0 || tally.compared == 0);
    std::process::exit(failed as i32)
}
