//! Compares the library, and the Rust that it is measured against, with the plain reading of the rules.
use crate::answers::{Done, Entry, Part};
use crate::guest::Guest;
use crate::random::Random;
use crate::tally::Tally;
use crate::{fast, library, rules};
use std::fmt::Debug;
use std::time::Instant;

/// Rounds enough that each event has to be met.
const ENOUGH: u64 = 100_000;

/// What differs: who, what, and how.
struct Difference {
    who: &'static str,
    what: &'static str,
    found: String,
    expected: String,
}

/// One call.
#[derive(Clone, Copy, Debug)]
enum Call {
    Serve { times: u64 },
    BeginAnew,
    Piece { at: u64 },
}

/// The copies that the three work on.
#[derive(Default)]
struct Bench {
    before: Guest,
    plain: Guest,
    proved: Guest,
    quick: Guest,
}

fn copy(to: &mut Guest, from: &Guest) {
    to.places = from.places;
    to.begins = from.begins;
    to.memory.clone_from(&from.memory);
    to.state.clone_from(&from.state);
    to.kept.clone_from(&from.kept);
}

fn differ<T: PartialEq + Debug>(who: &'static str, what: &'static str, found: T, expected: T) -> Result<(), Difference> {
    if found == expected {
        return Ok(());
    }
    Err(Difference {
        who,
        what,
        found: format!("{found:?}"),
        expected: format!("{expected:?}"),
    })
}

/// The first byte that differs.
fn differ_at(who: &'static str, what: &'static str, found: &[u8], expected: &[u8]) -> Result<(), Difference> {
    if found == expected {
        return Ok(());
    }
    let at = found.iter().zip(expected).position(|(a, b)| a != b).unwrap_or(0);
    Err(Difference {
        who,
        what,
        found: format!("{} at {at}", found[at]),
        expected: format!("{} at {at}", expected[at]),
    })
}

fn compare(who: &'static str, found: &Guest, expected: &Guest) -> Result<(), Difference> {
    differ_at(who, "memory", &found.memory, &expected.memory)?;
    differ(who, "state", &found.state, &expected.state)?;
    differ_at(who, "contents", &found.kept, &expected.kept)
}

fn serve_by(entry: Entry, guest: &mut Guest, times: u64) -> Done {
    entry(
        guest.places,
        guest.begins,
        &mut guest.memory,
        &mut guest.state,
        &mut guest.kept,
        times,
    )
}

impl Bench {
    /// Makes one call of the library and of the plain reading, and compares all that they leave.
    fn call(&mut self, call: Call, tally: &mut Tally) -> Result<(), Difference> {
        copy(&mut self.before, &self.plain);
        copy(&mut self.proved, &self.plain);
        match call {
            Call::Serve { times } => self.serve(times, tally)?,
            Call::BeginAnew => {
                let expected = rules::begin_anew(&mut self.plain.state);
                differ("library", "answer", library::begin_anew(&mut self.proved.state), expected)?;
            }
            Call::Piece { at } => {
                let g = &self.plain;
                let expected: Part = rules::piece(g.places, g.begins, &g.memory, at);
                differ(
                    "library",
                    "answer",
                    library::piece(g.places, g.begins, &self.proved.memory, at),
                    expected,
                )?;
            }
        }
        compare("library", &self.proved, &self.plain)
    }

    fn serve(&mut self, times: u64, tally: &mut Tally) -> Result<(), Difference> {
        copy(&mut self.quick, &self.plain);
        let g = &mut self.plain;
        let expected = rules::serve(g.places, g.begins, &mut g.memory, &mut g.state, &mut g.kept, times, tally);
        let found = serve_by(library::serve, &mut self.proved, times);
        differ("library", "answer", found, expected)?;
        compare("library", &self.proved, &self.plain)?;
        let found = serve_by(fast::serve, &mut self.quick, times);
        differ("fast", "answer", found, expected)?;
        compare("fast", &self.quick, &self.plain)
    }

    /// One guest and a few calls.
    fn round(&mut self, seed: u64, tally: &mut Tally) -> Result<(), (Call, Difference)> {
        let mut rng = Random::new(seed);
        self.plain.renew(&mut rng);
        for _ in 0..rng.within(1, 6) {
            let call = self.next_call(&mut rng);
            self.call(call, tally).map_err(|d| (call, d))?;
        }
        if rng.one_in(5) {
            self.plain.misfit(&mut rng);
            if rng.one_in(4) && self.plain.state.len() == 2 {
                self.plain.kept.resize(4097, 0);
            }
            let times = if rng.one_in(3) { 1001 } else { 5 };
            for call in [Call::Piece { at: 0 }, Call::Serve { times }, Call::BeginAnew] {
                self.call(call, tally).map_err(|d| (call, d))?;
            }
        }
        Ok(())
    }

    fn next_call(&mut self, rng: &mut Random) -> Call {
        if self.plain.state[1] == 1 && rng.one_in(2) {
            return Call::BeginAnew;
        }
        match rng.below(12) {
            0 => Call::BeginAnew,
            1 => {
                let n = self.plain.places;
                let at = rng.below(n as usize) as u64;
                Call::Piece {
                    at: rng.pick(&[at, at, at, n - 1, n, n + 1, (1 << 61) + at, (1 << 32) + at, u64::MAX]),
                }
            }
            2 => Call::Serve {
                times: rng.pick(&[0, 1, 999, 1000, 1001, u64::MAX]),
            },
            _ => {
                self.plain.offer(rng);
                Call::Serve {
                    times: rng.pick(&[1, 1, 2, 3, 64, 1000]),
                }
            }
        }
    }
}

fn show(seed: u64, before: &Guest, call: Call, d: &Difference) {
    println!(
        "{}: another {} than by the rules: {}, and should be {}",
        d.who, d.what, d.found, d.expected
    );
    println!("seed {seed}: the same again by: harness test 1 {seed}");
    println!("call: {call:?}");
    println!("ring of {} places at {}", before.places, before.begins);
    println!("state {:?}", before.state);
    if before.memory.len() <= 2000 {
        println!("memory, {} bytes: {:?}", before.memory.len(), before.memory);
    } else {
        println!("memory: {} bytes", before.memory.len());
    }
    if before.kept.len() <= 200 {
        println!("contents, {} bytes: {:?}", before.kept.len(), before.kept);
    } else {
        println!("contents: {} bytes", before.kept.len());
    }
}

/// Runs so many rounds; round k of a seed is round 0 of the seed + k. True if nothing differs.
pub fn run(rounds: u64, seed: u64) -> bool {
    println!("{rounds} rounds from seed {seed}");
    let start = Instant::now();
    let mut bench = Bench::default();
    let mut tally = Tally::default();
    for k in 0..rounds {
        let seed = seed.wrapping_add(k);
        if let Err((call, difference)) = bench.round(seed, &mut tally) {
            show(seed, &bench.before, call, &difference);
            return false;
        }
    }
    tally.print();
    let missing = tally.missing();
    if rounds >= ENOUGH && !missing.is_empty() {
        println!("never met: {missing:?}");
        return false;
    }
    println!(
        "{rounds} rounds from seed {seed}: no difference, {:.1} s",
        start.elapsed().as_secs_f64()
    );
    true
}
