//! Nanoseconds per chain of the proved library, beside the safe Rust written for speed.
use crate::answers::{Done, Entry};
use crate::{fast, library};
use std::time::Instant;

const PLACES: usize = 64;
const NEXT: u16 = 1;
const WRITE: u16 = 2;
const AVAILABLE: usize = 8 * PLACES;
const END: usize = 14 * PLACES + 4;
/// Chains in one batch, and batches of each of the two. The fastest batch counts: all others were disturbed.
const CHAINS: usize = 6400;
const BATCHES: usize = 150;

/// A memory with one chain, which is made available again and again.
struct Setup {
    memory: Vec<u8>,
    state: [u32; 2],
    kept: Vec<u8>,
}

/// The lengths of a chain's parts, and its request.
struct Shape {
    name: String,
    readable: Vec<usize>,
    writable: Vec<usize>,
    request: Vec<u8>,
}

/// So many bytes in so many parts, as evenly as they go.
fn share(bytes: usize, parts: usize) -> Vec<usize> {
    (0..parts).map(|j| bytes * (j + 1) / parts - bytes * j / parts).collect()
}

fn read_request() -> Vec<u8> {
    vec![0, 3]
}

fn write_request() -> Vec<u8> {
    let mut request = vec![1, 3];
    request.extend(100..116);
    request
}

impl Shape {
    /// Reads a block: one readable part, and the response shared by all others.
    fn read(descriptors: usize) -> Shape {
        Shape {
            name: format!("read, {descriptors} descriptors"),
            readable: vec![2],
            writable: share(17, descriptors - 1),
            request: read_request(),
        }
    }

    /// Writes a block: the request shared by all parts but one.
    fn write(descriptors: usize) -> Shape {
        Shape {
            name: format!("write, {descriptors} descriptors"),
            readable: share(18, descriptors - 1),
            writable: vec![1],
            request: write_request(),
        }
    }

    fn long_readable(len: usize) -> Shape {
        Shape {
            name: format!("2 descriptors, {len} bytes readable"),
            readable: vec![len],
            writable: vec![17],
            request: vec![7; len],
        }
    }

    fn long_writable(len: usize) -> Shape {
        Shape {
            name: format!("2 descriptors, {len} bytes writable"),
            readable: vec![2],
            writable: vec![len],
            request: read_request(),
        }
    }

    fn put(&self) -> Setup {
        let mut memory = vec![0; 65536];
        let parts = self
            .readable
            .iter()
            .map(|len| (*len, 0))
            .chain(self.writable.iter().map(|len| (*len, WRITE)));
        let count = self.readable.len() + self.writable.len();
        let mut at = END + 12;
        memory[at..at + self.request.len()].copy_from_slice(&self.request);
        for (i, (len, kind)) in parts.enumerate() {
            let flags = if i + 1 < count { kind | NEXT } else { kind };
            for (j, value) in [at as u16, len as u16, flags, i as u16 + 1].into_iter().enumerate() {
                memory[8 * i + 2 * j..8 * i + 2 * j + 2].copy_from_slice(&value.to_le_bytes());
            }
            at += len;
        }
        let kept = (0..4096).map(|i| i as u8).collect();
        Setup {
            memory,
            state: [0, 0],
            kept,
        }
    }
}

impl Setup {
    /// Makes so many more available, and serves them by one call.
    #[inline(always)]
    fn serve(&mut self, entry: Entry, chains: usize, times: u64) {
        let available = (self.state[0] as u16).wrapping_add(chains as u16);
        self.memory[AVAILABLE..AVAILABLE + 2].copy_from_slice(&available.to_le_bytes());
        let done = entry(PLACES as u64, 0, &mut self.memory, &mut self.state, &mut self.kept, times);
        assert!(done == Done::Served(0), "the chain is not served: {done:?}");
    }

    /// Nanoseconds per chain of one batch.
    fn batch(&mut self, entry: Entry, chains: usize, times: u64) -> f64 {
        let start = Instant::now();
        for _ in 0..CHAINS / chains {
            self.serve(entry, chains, times);
        }
        start.elapsed().as_nanos() as f64 / (CHAINS / chains * chains) as f64
    }
}

/// The fastest batch of each, in turns.
fn measure(shape: &Shape, chains: usize, times: u64) -> (f64, f64) {
    let mut setup = shape.put();
    let mut best = (f64::MAX, f64::MAX);
    for _ in 0..BATCHES {
        best.0 = best.0.min(setup.batch(library::serve, chains, times));
        best.1 = best.1.min(setup.batch(fast::serve, chains, times));
    }
    best
}

fn row(shape: &Shape) {
    let (one, one_rust) = measure(shape, 1, 1);
    let (many, many_rust) = measure(shape, PLACES, 1000);
    println!(
        "| {:<36} | {one:>7.1} | {one_rust:>7.1} | {:>5.2} | {many:>7.1} | {many_rust:>7.1} | {:>5.2} |",
        shape.name,
        one / one_rust,
        many / many_rust
    );
}

/// Prints the table.
pub fn run() {
    let counts = [2, 4, 8, 16, 32, 64];
    let shapes = counts
        .map(Shape::read)
        .into_iter()
        .chain(counts.map(Shape::write))
        .chain([2, 64, 1024, 16384, 60000].map(Shape::long_readable))
        .chain([17, 1024, 16384, 60000].map(Shape::long_writable));
    println!("Nanoseconds per chain, on a ring of 64 places: one serving a call, and 1,000 a call with 64 chains that wait.\n");
    println!("| {:<36} | One: proved | Rust | ratio | 1,000: proved | Rust | ratio |", "Chain");
    println!("|---|--:|--:|--:|--:|--:|--:|");
    shapes.for_each(|shape| row(&shape));
}
