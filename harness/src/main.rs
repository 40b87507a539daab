//! harness test [ROUNDS] [SEED]    compares the proved library with a plain reading of the rules
//! harness bench                   measures it beside a safe Rust implementation written for speed
use std::env;
use std::process::ExitCode;
use std::time::{SystemTime, UNIX_EPOCH};

mod answers;
mod bench;
mod fast;
mod guest;
mod library;
mod random;
mod rules;
mod tally;
mod test;
#[cfg(all(target_os = "linux", target_arch = "x86_64"))]
mod watch;

const ROUNDS: u64 = 2_000_000;
/// Of so many rounds one is also run with a guest that changes the ring meanwhile.
const WATCHED: u64 = 1000;

fn usage() -> ExitCode {
    eprintln!("usage: harness test [ROUNDS] [SEED]\n       harness bench");
    ExitCode::from(2)
}

fn some_seed() -> u64 {
    SystemTime::now().duration_since(UNIX_EPOCH).map_or(0, |t| t.as_nanos() as u64)
}

fn test(words: &[String]) -> Option<bool> {
    let rounds = words.first().map_or(Some(ROUNDS), |w| w.parse().ok())?;
    let seed = words.get(1).map_or(Some(some_seed()), |w| w.parse().ok())?;
    (words.len() <= 2).then(|| test::run(rounds, seed) && watch(rounds / WATCHED, seed))
}

#[cfg(all(target_os = "linux", target_arch = "x86_64"))]
fn watch(rounds: u64, seed: u64) -> bool {
    watch::run(rounds, seed)
}

#[cfg(not(all(target_os = "linux", target_arch = "x86_64")))]
fn watch(_: u64, _: u64) -> bool {
    println!("no guest runs while it is served: that wants Linux on x86-64");
    true
}

fn main() -> ExitCode {
    let words: Vec<String> = env::args().skip(1).collect();
    match words.first().map(String::as_str) {
        Some("test") => match test(&words[1..]) {
            Some(true) => ExitCode::SUCCESS,
            Some(false) => ExitCode::FAILURE,
            None => usage(),
        },
        Some("bench") if words.len() == 1 => {
            bench::run();
            ExitCode::SUCCESS
        }
        _ => usage(),
    }
}
