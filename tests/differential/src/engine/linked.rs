//! The linked library behind the plain interfaces.

use super::{Bounder, FrameMaker, LatenessFinder, Writer};

crate::c_engine! {
    /// The library that PIRKVEZO_LIB names.
    pub struct Linked, "library", "pirkvezo_"
}

// The peer makes no frames, tells no bounds, writes no plans and finds no latest ends,
// so these functions are not among those of the macro.
extern "C" {
    fn pirkvezo_frame(
        count: u32,
        weights: *const u32,
        weights_len: usize,
        frame: *mut u32,
        frame_len: usize,
        answer: *mut u64,
        answer_len: usize,
    ) -> u32;

    fn pirkvezo_step_bound(
        plan: *const u32,
        plan_len: usize,
        scripts: *const u32,
        scripts_len: usize,
        answer: *mut u64,
        answer_len: usize,
    ) -> u32;

    fn pirkvezo_write_plan(
        plan: *const u32,
        plan_len: usize,
        scripts: *const u32,
        scripts_len: usize,
        out: *mut u8,
        out_len: usize,
        answer: *mut u64,
        answer_len: usize,
    ) -> u32;

    fn pirkvezo_latest(
        plan: *const u32,
        plan_len: usize,
        domain: u32,
        script: *mut u32,
        script_len: usize,
        answer: *mut u64,
        answer_len: usize,
    ) -> u32;
}

impl FrameMaker for Linked {
    fn name(&self) -> &'static str {
        "library"
    }

    fn frame(&self, count: u32, weights: &[u32], frame: &mut [u32], answer: &mut [u64]) -> u32 {
        // As in the macro: pointers of slices with the slices' lengths.
        unsafe {
            pirkvezo_frame(
                count,
                weights.as_ptr(),
                weights.len(),
                frame.as_mut_ptr(),
                frame.len(),
                answer.as_mut_ptr(),
                answer.len(),
            )
        }
    }
}

impl Bounder for Linked {
    fn name(&self) -> &'static str {
        "library"
    }

    fn step_bound(&self, plan: &[u32], scripts: &[u32], answer: &mut [u64]) -> u32 {
        // As above.
        unsafe {
            pirkvezo_step_bound(
                plan.as_ptr(),
                plan.len(),
                scripts.as_ptr(),
                scripts.len(),
                answer.as_mut_ptr(),
                answer.len(),
            )
        }
    }
}

impl Writer for Linked {
    fn name(&self) -> &'static str {
        "library"
    }

    fn write_plan(&self, plan: &[u32], scripts: &[u32], out: &mut [u8], answer: &mut [u64]) -> u32 {
        // As above.
        unsafe {
            pirkvezo_write_plan(
                plan.as_ptr(),
                plan.len(),
                scripts.as_ptr(),
                scripts.len(),
                out.as_mut_ptr(),
                out.len(),
                answer.as_mut_ptr(),
                answer.len(),
            )
        }
    }
}

impl LatenessFinder for Linked {
    fn name(&self) -> &'static str {
        "library"
    }

    fn latest(&self, plan: &[u32], domain: u32, script: &mut [u32], answer: &mut [u64]) -> u32 {
        // As above.
        unsafe {
            pirkvezo_latest(
                plan.as_ptr(),
                plan.len(),
                domain,
                script.as_mut_ptr(),
                script.len(),
                answer.as_mut_ptr(),
                answer.len(),
            )
        }
    }
}
