//! Guests: memory with a ring in it, and what they put there, well and badly meant.
use crate::random::Random;

const NEXT: u16 = 1;
const WRITE: u16 = 2;
const SIZES: [usize; 7] = [1, 2, 4, 8, 16, 32, 64];

/// All that one call of the library is lent, and its numbers.
#[derive(Clone, Default)]
pub struct Guest {
    pub places: u64,
    pub begins: u64,
    pub memory: Vec<u8>,
    pub state: Vec<u32>,
    pub kept: Vec<u8>,
}

/// A chain as it is put into the table.
struct Plan {
    readable: Vec<(usize, usize)>,
    writable: Vec<(usize, usize)>,
}

impl Guest {
    /// Another guest with a ring that stands in memory, in place of this one.
    pub fn renew(&mut self, rng: &mut Random) {
        let n = rng.pick(&SIZES);
        let size = 14 * n + 4;
        let before = if rng.one_in(3) { 0 } else { rng.below(60) };
        let behind = if rng.one_in(6) { 0 } else { rng.below(160) };
        let len = if rng.one_in(100) { 65536 } else { before + size + behind };
        let before = if len == 65536 {
            rng.pick(&[0, 1, 100, 30000, 65536 - size - 20, 65536 - size])
        } else {
            before
        };
        self.places = n as u64;
        self.begins = before as u64;
        self.memory.clear();
        self.memory.resize(len, 0);
        self.kept.clear();
        self.kept.resize(kept_len(rng), 0);
        rng.fill(&mut self.kept);
        self.state.clear();
        self.state.extend([served(rng), u32::from(rng.one_in(60))]);
        self.set_number(self.available(), self.state[0] as u16);
        if len < 65536 {
            self.fill_outside(rng);
        }
    }

    fn n(&self) -> usize {
        self.places as usize
    }

    fn base(&self) -> usize {
        self.begins as usize
    }

    fn available(&self) -> usize {
        self.base() + 8 * self.n()
    }

    fn end(&self) -> usize {
        self.base() + 14 * self.n() + 4
    }

    fn set_number(&mut self, at: usize, value: u16) {
        self.memory[at..at + 2].copy_from_slice(&value.to_le_bytes());
    }

    fn fill_outside(&mut self, rng: &mut Random) {
        let (base, end) = (self.base(), self.end());
        rng.fill(&mut self.memory[..base]);
        rng.fill(&mut self.memory[end..]);
    }

    fn set_descriptor(&mut self, i: usize, part: (usize, usize), flags: u16, next: usize) {
        let at = self.base() + 8 * i;
        self.set_number(at, part.0 as u16);
        self.set_number(at + 2, part.1 as u16);
        self.set_number(at + 4, flags);
        self.set_number(at + 6, next as u16);
    }

    /// Puts something into the ring: chains that are mostly good, one of them perhaps spoiled, or any numbers at all.
    pub fn offer(&mut self, rng: &mut Random) {
        if rng.one_in(8) {
            self.scatter(rng);
        } else {
            self.offer_chains(rng);
        }
    }

    /// Numbers all over the table and the heads, most of them small or at a border.
    fn scatter(&mut self, rng: &mut Random) {
        if rng.one_in(3) {
            let (base, end) = (self.base(), self.end());
            rng.fill(&mut self.memory[base..end]);
        } else {
            for at in (self.base()..self.end() - 1).step_by(2) {
                let value = self.some_number(rng);
                self.set_number(at, value);
            }
        }
        let waiting = self.some_waiting(rng);
        self.set_number(self.available(), (self.state[0] as u16).wrapping_add(waiting));
    }

    fn some_number(&self, rng: &mut Random) -> u16 {
        match rng.below(4) {
            0 => rng.below(4) as u16,
            1 => rng.below(self.n() + 1) as u16,
            2 => self.border(rng) as u16,
            _ => rng.below(self.memory.len().min(40) + 1) as u16,
        }
    }

    /// An address at a border of the ring or of memory, or next to one.
    fn border(&self, rng: &mut Random) -> usize {
        let border = rng.pick(&[0, self.base(), self.end(), self.memory.len()]);
        (border + rng.below(3)).saturating_sub(1)
    }

    /// How many chains are to wait: no more than places, mostly.
    fn some_waiting(&self, rng: &mut Random) -> u16 {
        let n = self.n();
        match rng.below(40) {
            0 => n as u16 + 1,
            1 => rng.next() as u16,
            2..=5 => n as u16,
            6..=7 => 0,
            _ => rng.within(1, n.min(3)) as u16,
        }
    }

    fn offer_chains(&mut self, rng: &mut Random) {
        let waiting = self.some_waiting(rng);
        let made = (waiting as usize).min(self.n()).min(4);
        let mut free: Vec<usize> = (0..self.n()).collect();
        shuffle(&mut free, rng);
        let mut heads = Vec::new();
        for left in (1..=made).rev() {
            if free.is_empty() {
                break;
            }
            let most = free.len() - (left - 1).min(free.len() - 1);
            let count = chain_len(rng, most);
            let chain = free.split_off(free.len() - count);
            heads.push(chain[0]);
            self.put_chain(rng, &chain);
        }
        self.put_heads(rng, &heads, waiting);
        if rng.one_in(4) {
            self.spoil(rng, &heads);
        }
    }

    /// The heads that wait, one chain again and again where there are not enough.
    fn put_heads(&mut self, rng: &mut Random, heads: &[usize], waiting: u16) {
        let served = self.state[0] as usize;
        for j in 0..(waiting as usize).min(self.n()) {
            let at = self.available() + 2 + 2 * ((served + j) % self.n());
            let head = if j < heads.len() { heads[j] } else { rng.pick(heads) };
            self.set_number(at, head as u16);
        }
        self.set_number(self.available(), (served as u16).wrapping_add(waiting));
    }

    /// Puts a chain into these descriptors: the readable parts first, but for a few chains that end with one.
    fn put_chain(&mut self, rng: &mut Random, chain: &[usize]) {
        let mut plan = self.plan(rng, chain.len());
        if rng.one_in(12) {
            self.lengthen(rng, &mut plan);
        }
        let readable = plan.readable.len();
        let backwards = rng.one_in(40);
        for (j, i) in chain.iter().enumerate() {
            let mut flags = if rng.one_in(6) { rng.next() as u16 & !(NEXT | WRITE) } else { 0 };
            let part = if j < readable {
                plan.readable[j]
            } else {
                plan.writable[j - readable]
            };
            if j >= readable && !(backwards && j + 1 == chain.len()) {
                flags |= WRITE;
            }
            let next = chain.get(j + 1).copied();
            if next.is_some() {
                flags |= NEXT;
            }
            self.set_descriptor(*i, part, flags, next.unwrap_or(rng.below(3) * 40000));
        }
    }

    /// Where the parts of a chain of so many descriptors lie. The request's bytes are put there.
    fn plan(&mut self, rng: &mut Random, count: usize) -> Plan {
        let readable = match rng.below(8) {
            0 => 0,
            1 => count,
            _ => (count / 2).max(1).min(count),
        };
        let readable = if count > 1 && rng.one_in(3) {
            rng.within(1, count - 1)
        } else {
            readable
        };
        let request = some_request(rng, self.kept.len());
        let mut plan = Plan {
            readable: Vec::new(),
            writable: Vec::new(),
        };
        let mut at = 0;
        for len in cut(rng, request.len(), readable) {
            let addr = self.place(rng, len);
            if let Some(to) = self.memory.get_mut(addr..addr + len) {
                if addr + len <= self.begins as usize || addr >= self.begins as usize + 14 * self.places as usize + 4 {
                    to.copy_from_slice(&request[at..at + len]);
                }
            }
            at += len;
            plan.readable.push((addr, len));
        }
        let capacity = rng.pick(&[0, 1, 2, 16, 17, 17, 17, 18, 30]);
        for len in cut(rng, capacity, count - readable) {
            let addr = match plan.writable.last().or(plan.readable.last()) {
                Some((before, _)) if rng.one_in(5) => self.near(rng, *before, len),
                _ => self.place(rng, len),
            };
            plan.writable.push((addr, len));
        }
        plan
    }

    /// One part goes on up to the ring or to the end of memory.
    fn lengthen(&self, rng: &mut Random, plan: &mut Plan) {
        let parts = if rng.one_in(2) { &mut plan.readable } else { &mut plan.writable };
        if parts.is_empty() {
            return;
        }
        let at = rng.below(parts.len());
        let (addr, len) = &mut parts[at];
        let border = if *addr < self.base() { self.base() } else { self.memory.len() };
        *len = (border - (*addr).min(border)).min(65535);
    }

    /// A place outside the ring for so many bytes, often right at a border; where there is none, any.
    fn place(&self, rng: &mut Random, len: usize) -> usize {
        let (base, end, all) = (self.base(), self.end(), self.memory.len());
        let before = base.checked_sub(len);
        let behind = (all - end).checked_sub(len);
        match (before, behind, rng.below(8)) {
            (Some(_), _, 0) => 0,
            (Some(room), _, 1) => room,
            (_, Some(_), 2) => end,
            (_, Some(room), 3) => end + room,
            (_, Some(room), 4..=5) => end + rng.below(room + 1),
            (Some(room), _, _) => rng.below(room + 1),
            (_, Some(room), _) => end + rng.below(room + 1),
            (None, None, _) => end,
        }
    }

    /// A place for so many bytes that overlaps the one at `addr`, if one fits.
    fn near(&self, rng: &mut Random, addr: usize, len: usize) -> usize {
        let near = addr + rng.below(3);
        let fits = near + len <= self.base() || (near >= self.end() && near + len <= self.memory.len());
        if fits {
            near
        } else {
            addr
        }
    }

    /// Breaks a rule, or just does not, in the chains of these heads.
    fn spoil(&mut self, rng: &mut Random, heads: &[usize]) {
        let n = self.n();
        let i = if heads.is_empty() || rng.one_in(2) {
            rng.below(n)
        } else {
            rng.pick(heads)
        };
        let at = self.base() + 8 * i;
        match rng.below(9) {
            0 => self.link_on(rng),
            1 => {
                let value = rng.pick(&[n as u16, n as u16 + 1, 65535, 256 + i as u16, n as u16 - 1]);
                self.set_number(at + 6, value);
            }
            2 => self.memory[at + 4] ^= WRITE as u8,
            3..=5 => self.move_to_border(rng, at),
            6 => {
                let value = rng.pick(&[n as u16, n as u16 + 1, 65535, 256]);
                let head = self.available() + 2 + 2 * rng.below(n);
                self.set_number(head, value);
            }
            7 => {
                let (addr, len) = (rng.next() as u16, rng.next() as u16);
                self.set_number(at, addr);
                self.set_number(at + 2, len);
            }
            _ => {
                let byte = self.base() + rng.below(14 * n + 4);
                self.memory[byte] = rng.byte();
            }
        }
    }

    /// Each descriptor is followed by another: all n in turn, or round and round.
    fn link_on(&mut self, rng: &mut Random) {
        let n = self.n();
        let start = rng.below(n);
        let ends = rng.one_in(2);
        let part = (self.place(rng, 0), 0);
        for j in 0..n {
            let i = (start + j) % n;
            let flags = if ends && j == n - 1 { 0 } else { NEXT };
            self.set_descriptor(i, part, flags, (i + 1) % n);
        }
        let head = self.available() + 2 + 2 * (self.state[0] as usize % n);
        self.set_number(head, start as u16);
    }

    /// A part that begins or ends at a border, or one byte off.
    fn move_to_border(&mut self, rng: &mut Random, at: usize) {
        let border = self.border(rng);
        let len = rng.pick(&[0, 0, 1, 2, 17]);
        let addr = if rng.one_in(2) { border } else { border.saturating_sub(len) };
        self.set_number(at, addr as u16);
        self.set_number(at + 2, len as u16);
    }

    /// Makes something of what is lent such that it is refused, or such that it just is not.
    pub fn misfit(&mut self, rng: &mut Random) {
        let size = 14 * self.places + 4;
        let len = self.memory.len() as u64;
        match rng.below(7) {
            0 => self.places = rng.pick(&[0, 3, 5, 6, 7, 12, 24, 63, 65, 96, 128, 256, 4096, 65536, 1 << 32, u64::MAX]),
            1 => self.begins = rng.pick(&[len - size + 1, len - size, len, 65536, 65537, 1 << 32, u64::MAX - size, u64::MAX]),
            2 => self.memory.resize(rng.pick(&[65537, 65536, 70000, size as usize - 1, 0]), 0),
            3 => self.state.resize(rng.pick(&[0, 1, 3, 4]), 0),
            4 => self.state[0] = rng.pick(&[65535, 65536, 65537, 131072, u32::MAX]),
            5 => self.state[1] = rng.pick(&[0, 1, 2, 256, 65536, u32::MAX]),
            _ => self.kept.resize(rng.pick(&[4095, 4096, 4097, 5000, 65536]), 7),
        }
    }
}

/// How many chains were served: often just before the count goes round.
fn served(rng: &mut Random) -> u32 {
    match rng.below(4) {
        0 => 0,
        1 => 65535 - rng.below(5) as u32,
        2 => rng.below(200) as u32,
        _ => rng.below(65536) as u32,
    }
}

fn kept_len(rng: &mut Random) -> usize {
    match rng.below(30) {
        0 => 4096,
        1 => 4095,
        2 => 0,
        3..=5 => rng.below(100),
        _ => rng.pick(&[15, 16, 17, 31, 32, 48, 64]),
    }
}

/// How many descriptors a chain has, of so many that there are.
fn chain_len(rng: &mut Random, most: usize) -> usize {
    match rng.below(10) {
        0..=1 => most,
        2 => rng.within(1, most),
        3 => most.saturating_sub(1).max(1),
        _ => rng.within(1, most.min(4)),
    }
}

/// A request, mostly one that the device knows, or nearly so.
fn some_request(rng: &mut Random, kept: usize) -> Vec<u8> {
    let blocks = kept / 16;
    let k = match rng.below(8) {
        0 => blocks,
        1 => blocks.saturating_sub(1),
        2 => 255,
        _ => rng.below(blocks.max(1)),
    };
    let mut request = vec![0; rng.pick(&[0, 1, 2, 2, 2, 2, 2, 3, 17, 18, 18, 18, 18, 18, 19, 20, 30])];
    rng.fill(&mut request);
    let long = request.len() > 2;
    if let [kind, block, ..] = &mut request[..] {
        *kind = if rng.one_in(8) { rng.pick(&[0, 1, 2, 255]) } else { u8::from(long) };
        *block = k.min(255) as u8;
    }
    request
}

/// So many bytes in so many parts, in order.
fn cut(rng: &mut Random, bytes: usize, parts: usize) -> Vec<usize> {
    let mut left = bytes;
    (1..=parts)
        .rev()
        .map(|n| {
            let len = if n == 1 {
                left
            } else {
                rng.below(left.min(bytes / parts * 2 + 2) + 1)
            };
            left -= len;
            len
        })
        .collect()
}

fn shuffle(list: &mut [usize], rng: &mut Random) {
    for i in (1..list.len()).rev() {
        list.swap(i, rng.below(i + 1));
    }
}
