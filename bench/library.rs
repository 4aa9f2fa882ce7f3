//! The library under measure, through its C interface.

use crate::input::Profile;
use crate::rules::{Answer, Refusal};

extern "C" {
    fn fumarehi_judge(
        k: usize,
        s: usize,
        start: usize,
        finals: u32,
        masks: *const u16,
        masks_len: usize,
        moves: *const u32,
        moves_len: usize,
        log: *const u8,
        log_len: usize,
        order: *mut u8,
        order_len: usize,
        work: *mut u32,
        work_len: usize,
        told: *mut u64,
    ) -> u32;
}

pub fn judge(p: &Profile, log: &[u8], order: &mut [u8], work: &mut [u32]) -> Result<Answer, Refusal> {
    let mut told = [0u64; 4];
    // Sound: every pointer and length is that of a live slice, the mutable ones apart, and `told` has four elements.
    let code = unsafe {
        fumarehi_judge(
            p.k,
            p.s,
            p.start,
            p.finals,
            p.masks.as_ptr(),
            p.masks.len(),
            p.moves.as_ptr(),
            p.moves.len(),
            log.as_ptr(),
            log.len(),
            order.as_mut_ptr(),
            order.len(),
            work.as_mut_ptr(),
            work.len(),
            told.as_mut_ptr(),
        )
    };
    let [place, verdict, prefixes, looks] = told;
    match code {
        0 => Ok(Answer { verdict: verdict == 1, prefixes: prefixes as usize, looks }),
        number => Err(Refusal { number, place: place as usize }),
    }
}
