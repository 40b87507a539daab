//! A plain reading of docs/RULES.md: sentence by sentence, with no care for speed.
use crate::answers::{Done, Part};
use crate::tally::{Event, Shape, Tally};

const NEXT: usize = 1;
const WRITE: usize = 2;

/// A ring of `n` places that stands in memory from `base` on.
struct Ring {
    n: usize,
    base: usize,
}

impl Ring {
    fn descriptor(&self, i: usize) -> usize {
        self.base + 8 * i
    }

    fn available_count(&self) -> usize {
        self.base + 8 * self.n
    }

    fn head(&self, k: usize) -> usize {
        self.available_count() + 2 + 2 * (k % self.n)
    }

    fn used_count(&self) -> usize {
        self.base + 10 * self.n + 2
    }

    fn used_entry(&self, k: usize) -> usize {
        self.used_count() + 2 + 4 * (k % self.n)
    }

    /// The first address behind it.
    fn end(&self) -> usize {
        self.base + 14 * self.n + 4
    }
}

#[derive(Clone, Copy)]
struct Descriptor {
    address: usize,
    length: usize,
    flags: usize,
    next: usize,
}

impl Descriptor {
    fn has_next(&self) -> bool {
        self.flags & NEXT != 0
    }

    fn is_writable(&self) -> bool {
        self.flags & WRITE != 0
    }

    fn end(&self) -> usize {
        self.address + self.length
    }

    fn lies_in_memory(&self, len: usize) -> bool {
        self.end() <= len
    }

    fn is_clear_of(&self, ring: &Ring) -> bool {
        self.end() <= ring.base || self.address >= ring.end()
    }
}

fn number(memory: &[u8], at: usize) -> usize {
    memory[at] as usize + 256 * memory[at + 1] as usize
}

fn put_number(memory: &mut [u8], at: usize, value: usize) {
    memory[at] = (value % 256) as u8;
    memory[at + 1] = (value / 256 % 256) as u8;
}

fn descriptor(memory: &[u8], ring: &Ring, i: usize) -> Descriptor {
    let at = ring.descriptor(i);
    Descriptor {
        address: number(memory, at),
        length: number(memory, at + 2),
        flags: number(memory, at + 4),
        next: number(memory, at + 6),
    }
}

/// The chain from a head on, or none where it is bad.
fn chain(memory: &[u8], ring: &Ring, head: usize, tally: &mut Tally) -> Option<Vec<Descriptor>> {
    let mut found = Vec::new();
    let mut i = head;
    loop {
        if i >= ring.n {
            tally.note(Event::BadIndex);
            return None;
        }
        if found.len() == ring.n {
            tally.note(Event::ChainTooLong);
            return None;
        }
        let d = descriptor(memory, ring, i);
        found.push(d);
        if !d.has_next() {
            return Some(found);
        }
        i = d.next;
    }
}

fn may_be_served(chain: &[Descriptor], ring: &Ring, len: usize, tally: &mut Tally) -> bool {
    if !chain.iter().all(|d| d.lies_in_memory(len)) {
        tally.note(Event::PartOutside);
        return false;
    }
    if !chain.iter().all(|d| d.is_clear_of(ring)) {
        tally.note(Event::PartInRing);
        return false;
    }
    if chain.windows(2).any(|two| two[0].is_writable() && !two[1].is_writable()) {
        tally.note(Event::ReadableBehindWritable);
        return false;
    }
    true
}

fn request(memory: &[u8], chain: &[Descriptor]) -> Vec<u8> {
    let mut bytes = Vec::new();
    for d in chain.iter().filter(|d| !d.is_writable()) {
        bytes.extend_from_slice(&memory[d.address..d.end()]);
    }
    bytes
}

fn capacity(chain: &[Descriptor]) -> usize {
    chain.iter().filter(|d| d.is_writable()).map(|d| d.length).sum()
}

/// What the device answers, and what it does to the contents.
fn answer(kept: &mut [u8], request: &[u8], tally: &mut Tally) -> Vec<u8> {
    let block = |k: u8| 16 * k as usize;
    match request {
        [0, k] if block(*k) + 16 <= kept.len() => {
            tally.note(Event::BlockRead);
            let mut response = vec![0];
            response.extend_from_slice(&kept[block(*k)..block(*k) + 16]);
            response
        }
        [1, k, bytes @ ..] if bytes.len() == 16 && block(*k) + 16 <= kept.len() => {
            tally.note(Event::BlockWritten);
            kept[block(*k)..block(*k) + 16].copy_from_slice(bytes);
            vec![0]
        }
        _ => {
            tally.note(Event::UnknownRequest);
            vec![255]
        }
    }
}

/// Writes the response into the writable parts in order.
fn write_response(memory: &mut [u8], chain: &[Descriptor], response: &[u8]) {
    let places = chain.iter().filter(|d| d.is_writable()).flat_map(|d| d.address..d.end());
    for (at, b) in places.zip(response) {
        memory[at] = *b;
    }
}

fn waits(memory: &[u8], ring: &Ring, served: usize) -> usize {
    (number(memory, ring.available_count()) + 65536 - served) % 65536
}

/// One serving: true where a chain was served.
fn serve_one(memory: &mut [u8], ring: &Ring, state: &mut [u32], kept: &mut [u8], tally: &mut Tally) -> bool {
    if state[1] == 1 {
        tally.note(Event::WasStopped);
        return false;
    }
    let served = state[0] as usize;
    let waiting = waits(memory, ring, served);
    if waiting == 0 {
        tally.note(Event::NothingWaits);
        return false;
    }
    if waiting > ring.n {
        tally.note(Event::TooManyWait);
        state[1] = 1;
        return false;
    }
    let head = number(memory, ring.head(served));
    let good = chain(memory, ring, head, tally).filter(|c| may_be_served(c, ring, memory.len(), tally));
    let Some(chain) = good else {
        state[1] = 1;
        return false;
    };
    tally.note_served(&sizes(&chain, ring, memory.len()), waiting);
    let mut response = answer(kept, &request(memory, &chain), tally);
    if response.len() > capacity(&chain) {
        tally.note(Event::ResponseCut);
        response.truncate(capacity(&chain));
    }
    write_response(memory, &chain, &response);
    put_number(memory, ring.used_entry(served), head);
    put_number(memory, ring.used_entry(served) + 2, response.len());
    let now = (served + 1) % 65536;
    if now == 0 {
        tally.note(Event::CountGoesRound);
    }
    put_number(memory, ring.used_count(), now);
    state[0] = now as u32;
    true
}

/// What the tally asks about a chain that is served.
fn sizes(chain: &[Descriptor], ring: &Ring, len: usize) -> Shape {
    let writable: Vec<&Descriptor> = chain.iter().filter(|d| d.is_writable() && d.length > 0).collect();
    let overlap = |a: &Descriptor, b: &Descriptor| a.address < b.end() && b.address < a.end();
    Shape {
        places: ring.n,
        descriptors: chain.len(),
        empty_at_end: chain.iter().any(|d| d.length == 0 && d.address == len),
        touches_ring: chain
            .iter()
            .any(|d| d.length > 0 && (d.end() == ring.base || d.address == ring.end())),
        writable_overlap: writable.windows(2).any(|two| overlap(two[0], two[1])),
        writes_request: chain
            .iter()
            .filter(|d| !d.is_writable() && d.length > 0)
            .any(|d| writable.iter().any(|w| overlap(d, w))),
    }
}

fn ring_of(places: u64, begins: u64, len: usize) -> Option<Ring> {
    let size = match places {
        1 | 2 | 4 | 8 | 16 | 32 | 64 => 14 * places + 4,
        _ => return None,
    };
    let in_memory = begins.checked_add(size).is_some_and(|end| end <= len as u64);
    (in_memory && len <= 65536).then_some(Ring {
        n: places as usize,
        base: begins as usize,
    })
}

fn is_state(state: &[u32]) -> bool {
    state.len() == 2 && state[0] < 65536 && state[1] <= 1
}

/// Serves the chains of a ring, at most `times` of them.
pub fn serve(places: u64, begins: u64, memory: &mut [u8], state: &mut [u32], kept: &mut [u8], times: u64, tally: &mut Tally) -> Done {
    let Some(ring) = ring_of(places, begins, memory.len()) else {
        return tally.refused(1);
    };
    if !is_state(state) {
        return tally.refused(2);
    }
    if kept.len() > 4096 {
        return tally.refused(3);
    }
    if times > 1000 {
        return tally.refused(4);
    }
    for _ in 0..times {
        if !serve_one(memory, &ring, state, kept, tally) {
            break;
        }
    }
    if state[1] == 1 {
        return Done::Stopped;
    }
    Done::Served(waits(memory, &ring, state[0] as usize) as u64)
}

/// Resets the device.
pub fn begin_anew(state: &mut [u32]) -> Done {
    if state.len() != 2 {
        return Done::Refused(2);
    }
    state.fill(0);
    Done::Anew
}

/// Where the part lies that descriptor `at` names.
pub fn piece(places: u64, begins: u64, memory: &[u8], at: u64) -> Part {
    let ring = ring_of(places, begins, memory.len())?;
    if at >= places {
        return None;
    }
    let d = descriptor(memory, &ring, at as usize);
    d.lies_in_memory(memory.len()).then_some((d.address as u64, d.length as u64))
}
