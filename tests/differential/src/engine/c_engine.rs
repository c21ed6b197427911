//! Engines behind the C interface.

/// Defines an engine over the six C functions whose names begin with a prefix.
/// The library and the peer have the same six, so this stands here once.
#[macro_export]
macro_rules! c_engine {
    ($(#[$attribute:meta])* pub struct $engine:ident, $name:literal, $prefix:literal) => {
        $(#[$attribute])*
        #[derive(Clone, Copy, Debug, Default)]
        pub struct $engine;

        mod symbols {
            extern "C" {
                #[link_name = concat!($prefix, "read_plan")]
                pub fn read_plan(
                    text: *const u8,
                    text_len: usize,
                    scripts: *mut u32,
                    scripts_len: usize,
                    plan: *mut u32,
                    plan_len: usize,
                    answer: *mut u64,
                    answer_len: usize,
                ) -> u32;

                #[link_name = concat!($prefix, "fresh_start")]
                pub fn fresh_start(
                    plan: *const u32,
                    plan_len: usize,
                    state: *mut u64,
                    state_len: usize,
                    cache: *mut u16,
                    cache_len: usize,
                    boxes: *mut u32,
                    boxes_len: usize,
                    answer: *mut u64,
                    answer_len: usize,
                ) -> u32;

                #[link_name = concat!($prefix, "step")]
                pub fn step(
                    plan: *const u32,
                    plan_len: usize,
                    scripts: *const u32,
                    scripts_len: usize,
                    state: *mut u64,
                    state_len: usize,
                    cache: *mut u16,
                    cache_len: usize,
                    boxes: *mut u32,
                    boxes_len: usize,
                    log: *mut u8,
                    log_len: usize,
                    answer: *mut u64,
                    answer_len: usize,
                ) -> u32;

                #[link_name = concat!($prefix, "run")]
                pub fn run(
                    plan: *const u32,
                    plan_len: usize,
                    scripts: *const u32,
                    scripts_len: usize,
                    state: *mut u64,
                    state_len: usize,
                    cache: *mut u16,
                    cache_len: usize,
                    boxes: *mut u32,
                    boxes_len: usize,
                    log: *mut u8,
                    log_len: usize,
                    limit: u64,
                    answer: *mut u64,
                    answer_len: usize,
                ) -> u32;

                #[link_name = concat!($prefix, "run_kept")]
                pub fn run_kept(
                    plan: *const u32,
                    plan_len: usize,
                    scripts: *const u32,
                    scripts_len: usize,
                    state: *mut u64,
                    state_len: usize,
                    cache: *mut u16,
                    cache_len: usize,
                    boxes: *mut u32,
                    boxes_len: usize,
                    kept: *mut u8,
                    kept_len: usize,
                    domain: u32,
                    part: u64,
                    limit: u64,
                    answer: *mut u64,
                    answer_len: usize,
                ) -> u32;

                #[link_name = concat!($prefix, "log")]
                pub fn log(
                    plan: *const u32,
                    plan_len: usize,
                    state: *const u64,
                    state_len: usize,
                    log: *const u8,
                    log_len: usize,
                    domain: u32,
                    answer: *mut u64,
                    answer_len: usize,
                ) -> u32;
            }
        }

        // Each pointer below is that of a slice, handed over with the slice's length;
        // the program keeps none of them and writes only to those that are not const.
        impl $crate::engine::Engine for $engine {
            fn name(&self) -> &'static str {
                $name
            }

            fn read_plan(
                &self,
                text: &[u8],
                scripts: &mut [u32],
                plan: &mut [u32],
                answer: &mut [u64],
            ) -> u32 {
                unsafe {
                    symbols::read_plan(
                        text.as_ptr(),
                        text.len(),
                        scripts.as_mut_ptr(),
                        scripts.len(),
                        plan.as_mut_ptr(),
                        plan.len(),
                        answer.as_mut_ptr(),
                        answer.len(),
                    )
                }
            }

            fn fresh_start(
                &self,
                plan: &[u32],
                state: &mut [u64],
                cache: &mut [u16],
                boxes: &mut [u32],
                answer: &mut [u64],
            ) -> u32 {
                unsafe {
                    symbols::fresh_start(
                        plan.as_ptr(),
                        plan.len(),
                        state.as_mut_ptr(),
                        state.len(),
                        cache.as_mut_ptr(),
                        cache.len(),
                        boxes.as_mut_ptr(),
                        boxes.len(),
                        answer.as_mut_ptr(),
                        answer.len(),
                    )
                }
            }

            fn step(&self, tables: $crate::engine::Tables, answer: &mut [u64]) -> u32 {
                unsafe {
                    symbols::step(
                        tables.plan.as_ptr(),
                        tables.plan.len(),
                        tables.scripts.as_ptr(),
                        tables.scripts.len(),
                        tables.state.as_mut_ptr(),
                        tables.state.len(),
                        tables.cache.as_mut_ptr(),
                        tables.cache.len(),
                        tables.boxes.as_mut_ptr(),
                        tables.boxes.len(),
                        tables.log.as_mut_ptr(),
                        tables.log.len(),
                        answer.as_mut_ptr(),
                        answer.len(),
                    )
                }
            }

            fn run(&self, tables: $crate::engine::Tables, limit: u64, answer: &mut [u64]) -> u32 {
                unsafe {
                    symbols::run(
                        tables.plan.as_ptr(),
                        tables.plan.len(),
                        tables.scripts.as_ptr(),
                        tables.scripts.len(),
                        tables.state.as_mut_ptr(),
                        tables.state.len(),
                        tables.cache.as_mut_ptr(),
                        tables.cache.len(),
                        tables.boxes.as_mut_ptr(),
                        tables.boxes.len(),
                        tables.log.as_mut_ptr(),
                        tables.log.len(),
                        limit,
                        answer.as_mut_ptr(),
                        answer.len(),
                    )
                }
            }

            fn run_kept(
                &self,
                tables: $crate::engine::Tables,
                kept: $crate::engine::Kept,
                limit: u64,
                answer: &mut [u64],
            ) -> u32 {
                unsafe {
                    symbols::run_kept(
                        tables.plan.as_ptr(),
                        tables.plan.len(),
                        tables.scripts.as_ptr(),
                        tables.scripts.len(),
                        tables.state.as_mut_ptr(),
                        tables.state.len(),
                        tables.cache.as_mut_ptr(),
                        tables.cache.len(),
                        tables.boxes.as_mut_ptr(),
                        tables.boxes.len(),
                        tables.log.as_mut_ptr(),
                        tables.log.len(),
                        kept.domain,
                        kept.part,
                        limit,
                        answer.as_mut_ptr(),
                        answer.len(),
                    )
                }
            }

            fn log(
                &self,
                plan: &[u32],
                state: &[u64],
                log: &[u8],
                domain: u32,
                answer: &mut [u64],
            ) -> u32 {
                unsafe {
                    symbols::log(
                        plan.as_ptr(),
                        plan.len(),
                        state.as_ptr(),
                        state.len(),
                        log.as_ptr(),
                        log.len(),
                        domain,
                        answer.as_mut_ptr(),
                        answer.len(),
                    )
                }
            }
        }
    };
}
