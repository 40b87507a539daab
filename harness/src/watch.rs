//! A guest that runs while it is served: it changes its descriptors and heads as soon as the device touches a part of memory outside the
//! ring. What was read before then is to count, so a length that is read a second time shows. Reads of
//! the ring are counted too, each at its first byte.
//!
//! This looks at the library as it was compiled: the C functions promise nothing of a guest that runs meanwhile. Guest memory is kept
//! unreadable; each access to it faults, is noted and let through by one step of the processor. Linux on x86-64 alone.
use crate::answers::Done;
use crate::guest::Guest;
use crate::library;
use crate::random::Random;
use crate::rules;
use crate::tally::Tally;
use std::ffi::{c_int, c_void};
use std::mem::zeroed;
use std::ptr::{null_mut, write_volatile};
use std::sync::atomic::{AtomicBool, AtomicU32, AtomicUsize, Ordering::Relaxed};

const SIGTRAP: c_int = 5;
const SIGSEGV: c_int = 11;
const SA_SIGINFO: c_int = 4;
const SIG_DFL: usize = 0;
const PROT_NONE: c_int = 0;
const PROT_READ_WRITE: c_int = 3;
const MAP_PRIVATE_ANONYMOUS: c_int = 0x22;
/// Byte offsets in a siginfo_t, and of the flags and the error code in a ucontext_t.
const INFO_ADDRESS: usize = 16;
const CONTEXT_FLAGS: usize = 176;
const CONTEXT_ERROR: usize = 192;
const TRAP_FLAG: u64 = 0x100;
const WAS_WRITE: u64 = 2;
const PAGES: usize = 65536;

#[repr(C)]
struct SigAction {
    handler: usize,
    mask: [u64; 16],
    flags: c_int,
    restorer: usize,
}

extern "C" {
    fn mmap(addr: *mut c_void, len: usize, prot: c_int, flags: c_int, fd: c_int, offset: i64) -> *mut c_void;
    fn mprotect(addr: *mut c_void, len: usize, prot: c_int) -> c_int;
    fn sigaction(signal: c_int, act: *const SigAction, old: *mut SigAction) -> c_int;
}

// What the handlers know: where guest memory stands, where the ring, and how often each byte of it was the first of a read.
static START: AtomicUsize = AtomicUsize::new(0);
static RING: AtomicUsize = AtomicUsize::new(0);
static RING_LEN: AtomicUsize = AtomicUsize::new(0);
static AVAILABLE: AtomicUsize = AtomicUsize::new(0);
static USED: AtomicUsize = AtomicUsize::new(0);
static CHANGED: AtomicBool = AtomicBool::new(false);
static READS: [AtomicU32; 1024] = [const { AtomicU32::new(0) }; 1024];

unsafe fn word(at: *mut c_void, offset: usize) -> *mut u64 {
    at.cast::<u8>().add(offset).cast()
}

/// Flips all bits of the descriptors and the heads; the available count, which the answer is made of, stays.
unsafe fn change_ring() {
    let memory = START.load(Relaxed) as *mut u8;
    let count = AVAILABLE.load(Relaxed);
    for at in (RING.load(Relaxed)..count).chain(count + 2..USED.load(Relaxed)) {
        write_volatile(memory.add(at), !memory.add(at).read_volatile());
    }
}

extern "C" fn on_access(_: c_int, info: *mut c_void, context: *mut c_void) {
    // SAFETY: info and context are what the kernel gives such a handler; the mapping is there as long as the handler is.
    unsafe {
        let offset = (*word(info, INFO_ADDRESS) as usize).wrapping_sub(START.load(Relaxed));
        if offset >= PAGES {
            set_handler(SIGSEGV, SIG_DFL);
            return;
        }
        mprotect(START.load(Relaxed) as *mut c_void, PAGES, PROT_READ_WRITE);
        let is_write = *word(context, CONTEXT_ERROR) & WAS_WRITE != 0;
        let in_ring = offset.wrapping_sub(RING.load(Relaxed));
        if in_ring >= RING_LEN.load(Relaxed) {
            if !CHANGED.swap(true, Relaxed) {
                change_ring();
            }
        } else if !is_write {
            READS[in_ring].fetch_add(1, Relaxed);
        }
        *word(context, CONTEXT_FLAGS) |= TRAP_FLAG;
    }
}

extern "C" fn on_step(_: c_int, _: *mut c_void, context: *mut c_void) {
    // SAFETY: as above.
    unsafe {
        *word(context, CONTEXT_FLAGS) &= !TRAP_FLAG;
        mprotect(START.load(Relaxed) as *mut c_void, PAGES, PROT_NONE);
    }
}

unsafe fn set_handler(signal: c_int, handler: usize) {
    let act = SigAction {
        handler,
        flags: if handler == SIG_DFL { 0 } else { SA_SIGINFO },
        ..zeroed()
    };
    assert_eq!(sigaction(signal, &act, null_mut()), 0);
}

/// Guest memory that is watched while it is served.
struct Watched {
    memory: *mut u8,
}

impl Watched {
    fn new() -> Watched {
        // SAFETY: a new mapping, and handlers that only touch it.
        unsafe {
            let memory = mmap(null_mut(), PAGES, PROT_READ_WRITE, MAP_PRIVATE_ANONYMOUS, -1, 0);
            assert_ne!(memory as isize, -1, "no memory to watch");
            START.store(memory as usize, Relaxed);
            set_handler(SIGSEGV, on_access as *const () as usize);
            set_handler(SIGTRAP, on_step as *const () as usize);
            Watched { memory: memory.cast() }
        }
    }

    /// Serves one chain of the guest, whose memory stands in the mapping meanwhile.
    fn serve(&self, guest: &mut Guest) -> Done {
        let n = guest.places as usize;
        let base = guest.begins as usize;
        RING.store(base, Relaxed);
        AVAILABLE.store(base + 8 * n, Relaxed);
        USED.store(base + 10 * n + 2, Relaxed);
        RING_LEN.store(14 * n + 4, Relaxed);
        CHANGED.store(false, Relaxed);
        READS.iter().for_each(|r| r.store(0, Relaxed));
        // SAFETY: the mapping is as long as any guest memory, and nothing in Rust refers to it during the call.
        unsafe {
            self.memory.copy_from(guest.memory.as_ptr(), guest.memory.len());
            mprotect(self.memory.cast(), PAGES, PROT_NONE);
            let done = library::serve_at(self.memory, guest, 1);
            mprotect(self.memory.cast(), PAGES, PROT_READ_WRITE);
            if CHANGED.load(Relaxed) {
                change_ring();
            }
            guest.memory.as_mut_ptr().copy_from(self.memory, guest.memory.len());
            done
        }
    }
}

impl Drop for Watched {
    fn drop(&mut self) {
        // SAFETY: back to what a process has.
        unsafe {
            set_handler(SIGSEGV, SIG_DFL);
            set_handler(SIGTRAP, SIG_DFL);
        }
    }
}

/// A number of the ring that was read more than once for one chain; the answer takes a second look at the available count.
fn read_twice() -> Option<usize> {
    let count = AVAILABLE.load(Relaxed) - RING.load(Relaxed);
    (0..RING_LEN.load(Relaxed)).find(|at| READS[*at].load(Relaxed) > if *at == count { 2 } else { 1 })
}

fn round(watched: &Watched, rng: &mut Random) -> Result<bool, String> {
    let mut guest = Guest::default();
    guest.renew(rng);
    if guest.memory.len() > 4000 {
        return Ok(false);
    }
    guest.offer(rng);
    let mut plain = guest.clone();
    let g = &mut plain;
    let served = g.state.clone();
    let expected = rules::serve(
        g.places,
        g.begins,
        &mut g.memory,
        &mut g.state,
        &mut g.kept,
        1,
        &mut Tally::default(),
    );
    let found = watched.serve(&mut guest);
    if found != expected || guest.memory != g.memory || guest.state != g.state || guest.kept != g.kept {
        return Err(format!(
            "a guest that runs meanwhile: {found:?}, and should be {expected:?}, or memory, state or contents differ"
        ));
    }
    let was_served = g.state[0] != served[0];
    match read_twice() {
        Some(at) if was_served => Err(format!("the byte {at} of the ring is read twice for one chain")),
        _ => Ok(was_served && CHANGED.load(Relaxed)),
    }
}

/// So many guests that run while they are served. True if nothing differs.
pub fn run(rounds: u64, seed: u64) -> bool {
    let watched = Watched::new();
    let mut raced = 0;
    for k in 0..rounds {
        match round(&watched, &mut Random::new(seed.wrapping_add(k))) {
            Ok(changed) => raced += u64::from(changed),
            Err(what) => {
                println!("{what}\nseed {}", seed.wrapping_add(k));
                return false;
            }
        }
    }
    println!("{rounds} guests that change the ring while they are served, {raced} of them in time: no second look at it shows");
    true
}
