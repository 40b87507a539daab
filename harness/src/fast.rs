//! The same entry in safe Rust, written for speed: what the proved library is measured against. One walk over a chain checks it, gathers
//! the request and lists the writable parts; each number of the ring is read once.
use crate::answers::Done;

const NEXT: u64 = 1 << 32;
const WRITE: u64 = 2 << 32;
/// One byte more than the longest request that the device knows.
const ASKED: usize = 19;
/// The longest response.
const ANSWERED: usize = 17;

struct Ring {
    places: usize,
    base: usize,
    available: usize,
    used: usize,
    end: usize,
}

impl Ring {
    fn new(places: u64, begins: u64, len: usize) -> Option<Ring> {
        if !places.is_power_of_two() || places > 64 || begins > 65536 || len > 65536 {
            return None;
        }
        let (n, base) = (places as usize, begins as usize);
        let end = base + 14 * n + 4;
        (end <= len).then_some(Ring {
            places: n,
            base,
            available: base + 8 * n,
            used: base + 10 * n + 2,
            end,
        })
    }
}

/// What a walk finds: the first bytes of the request, and the writable parts as far as a response can reach.
struct Job {
    request: [u8; ASKED],
    asked: usize,
    parts: [(u16, u16); ANSWERED],
    count: usize,
    capacity: usize,
}

fn number(memory: &[u8], at: usize) -> u16 {
    u16::from_le_bytes([memory[at], memory[at + 1]])
}

/// Walks a chain; false where it is bad or may not be served.
#[inline(always)]
fn walk(memory: &[u8], ring: &Ring, head: usize, job: &mut Job) -> bool {
    let table = &memory[ring.base..ring.available];
    let (mut asked, mut count, mut capacity) = (0, 0, 0);
    let mut writable = false;
    let mut i = head;
    for _ in 0..ring.places {
        let Some(bytes) = table.get(8 * i..8 * i + 8) else {
            return false;
        };
        let d = u64::from_le_bytes(bytes.try_into().unwrap());
        let (addr, len) = (d as u16, (d >> 16) as u16);
        let (from, to) = (addr as usize, addr as usize + len as usize);
        if to > memory.len() || (to > ring.base && from < ring.end) {
            return false;
        }
        if d & WRITE != 0 {
            writable = true;
            if len > 0 && capacity < ANSWERED {
                job.parts[count] = (addr, len);
                count += 1;
                capacity += len as usize;
            }
        } else if writable {
            return false;
        } else {
            let n = (len as usize).min(ASKED - asked);
            for (to, b) in job.request[asked..asked + n].iter_mut().zip(&memory[from..from + n]) {
                *to = *b;
            }
            asked += n;
        }
        if d & NEXT == 0 {
            (job.asked, job.count, job.capacity) = (asked, count, capacity);
            return true;
        }
        i = (d >> 48) as usize;
    }
    false
}

/// The response to a request and its length, with what is asked done to the contents.
#[inline(always)]
fn respond(kept: &mut [u8], request: &[u8]) -> ([u8; ANSWERED], usize) {
    let mut response = [0; ANSWERED];
    let at = 16 * request.get(1).copied().unwrap_or(0) as usize;
    if let Some(block) = kept.get_mut(at..at + 16) {
        match (request.len(), request.first()) {
            (2, Some(0)) => {
                response[1..].copy_from_slice(block);
                return (response, ANSWERED);
            }
            (18, Some(1)) => {
                block.copy_from_slice(&request[2..]);
                return (response, 1);
            }
            _ => {}
        }
    }
    response[0] = 255;
    (response, 1)
}

/// Serves one chain; false where it may not be served.
#[inline(always)]
fn serve_one(memory: &mut [u8], ring: &Ring, served: u16, kept: &mut [u8], job: &mut Job) -> bool {
    let place = served as usize & (ring.places - 1);
    let head = number(memory, ring.available + 2 + 2 * place);
    if !walk(memory, ring, head as usize, job) {
        return false;
    }
    let (response, len) = respond(kept, &job.request[..job.asked]);
    let len = len.min(job.capacity);
    let mut done = 0;
    for (addr, room) in &job.parts[..job.count] {
        let n = (*room as usize).min(len - done);
        memory[*addr as usize..*addr as usize + n].copy_from_slice(&response[done..done + n]);
        done += n;
    }
    let entry = ring.used + 2 + 4 * place;
    memory[entry..entry + 4].copy_from_slice(&(u32::from(head) | (len as u32) << 16).to_le_bytes());
    memory[ring.used..ring.used + 2].copy_from_slice(&served.wrapping_add(1).to_le_bytes());
    true
}

/// Serves the chains of a ring, at most `times` of them.
#[inline(never)]
pub fn serve(places: u64, begins: u64, memory: &mut [u8], state: &mut [u32], kept: &mut [u8], times: u64) -> Done {
    let Some(ring) = Ring::new(places, begins, memory.len()) else {
        return Done::Refused(1);
    };
    let [served, stopped] = state else {
        return Done::Refused(2);
    };
    if *served > 65535 || *stopped > 1 {
        return Done::Refused(2);
    }
    if kept.len() > 4096 {
        return Done::Refused(3);
    }
    if times > 1000 {
        return Done::Refused(4);
    }
    if *stopped == 1 {
        return Done::Stopped;
    }
    let mut job = Job {
        request: [0; ASKED],
        asked: 0,
        parts: [(0, 0); ANSWERED],
        count: 0,
        capacity: 0,
    };
    let mut at = *served as u16;
    // Serving never writes the available count, so one look at it does for the whole call.
    let mut waiting = number(memory, ring.available).wrapping_sub(at);
    let mut left = times;
    while left > 0 && waiting > 0 {
        if waiting as usize > ring.places || !serve_one(memory, &ring, at, kept, &mut job) {
            (*served, *stopped) = (at.into(), 1);
            return Done::Stopped;
        }
        at = at.wrapping_add(1);
        waiting -= 1;
        left -= 1;
    }
    *served = at.into();
    Done::Served(waiting.into())
}
