//! The proved library, by its C functions.
use crate::answers::{Done, Part};

#[repr(C)]
struct DovrelziDone {
    kind: u32,
    value: u64,
}

#[repr(C)]
struct DovrelziPart {
    present: u32,
    at: u64,
    len: u64,
}

extern "C" {
    #[allow(clippy::too_many_arguments)]
    fn dovrelzi_serve(
        places: u64,
        begins: u64,
        memory: *mut u8,
        memory_len: usize,
        state: *mut u32,
        state_len: usize,
        kept: *mut u8,
        kept_len: usize,
        times: u64,
    ) -> DovrelziDone;
    fn dovrelzi_begin_anew(state: *mut u32, state_len: usize) -> DovrelziDone;
    fn dovrelzi_piece(places: u64, begins: u64, memory: *const u8, memory_len: usize, at: u64) -> DovrelziPart;
}

fn done_of(done: DovrelziDone) -> Done {
    match (done.kind, done.value) {
        (0, n) => Done::Served(n),
        (1, 0) => Done::Stopped,
        (2, 0) => Done::Anew,
        (3, n) => Done::Refused(n),
        (kind, value) => panic!("the library answers with {kind} and {value}, which is no answer"),
    }
}

/// Serves the chains of a ring, at most `times` of them.
#[inline]
pub fn serve(places: u64, begins: u64, memory: &mut [u8], state: &mut [u32], kept: &mut [u8], times: u64) -> Done {
    // SAFETY: three slices that are lent for the call are valid for their lengths, aligned, and do not overlap.
    done_of(unsafe {
        dovrelzi_serve(
            places,
            begins,
            memory.as_mut_ptr(),
            memory.len(),
            state.as_mut_ptr(),
            state.len(),
            kept.as_mut_ptr(),
            kept.len(),
            times,
        )
    })
}

/// Serves a guest whose memory stands elsewhere, as raw bytes.
///
/// # Safety
/// At `memory` there are as many bytes as the guest's memory has, and nothing in Rust refers to them during the call.
#[cfg(all(target_os = "linux", target_arch = "x86_64"))]
pub unsafe fn serve_at(memory: *mut u8, guest: &mut crate::guest::Guest, times: u64) -> Done {
    done_of(dovrelzi_serve(
        guest.places,
        guest.begins,
        memory,
        guest.memory.len(),
        guest.state.as_mut_ptr(),
        guest.state.len(),
        guest.kept.as_mut_ptr(),
        guest.kept.len(),
        times,
    ))
}

/// Resets the device.
pub fn begin_anew(state: &mut [u32]) -> Done {
    // SAFETY: the slice is lent for the call.
    done_of(unsafe { dovrelzi_begin_anew(state.as_mut_ptr(), state.len()) })
}

/// Where the part lies that descriptor `at` names.
pub fn piece(places: u64, begins: u64, memory: &[u8], at: u64) -> Part {
    // SAFETY: the slice is lent for the call.
    let part = unsafe { dovrelzi_piece(places, begins, memory.as_ptr(), memory.len(), at) };
    match (part.present, part.at, part.len) {
        (1, at, len) => Some((at, len)),
        (0, 0, 0) => None,
        (present, at, len) => panic!("the library answers with {present}, {at} and {len}, which is no part"),
    }
}
