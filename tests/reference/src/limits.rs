//! The limits of the numbers in a plan: document 01, "The plan text", with the least
//! pad of document 02, E9. Those of a frame: document 02, E1. The limit of all colours
//! together: document 02, E2. The windows of a domain whose latest end is told:
//! document 02, E6.

use std::ops::RangeInclusive;

/// Bytes in the longest text.
pub const TEXT_BYTES: usize = 32_768;
/// Digits in the longest number.
pub const DIGITS: usize = 10;
/// The most domains, and the domains that boxes and scripts have room for.
pub const DOMAINS: usize = 8;
/// The most windows of one pass.
pub const WINDOWS: usize = 32;
/// The most ops of one domain.
pub const OPS: usize = 256;
/// All shares together, in thousandths.
pub const WHOLE: u32 = 1_000;
/// The colours that domains share: all but the kernel's.
pub const COLOURS: u32 = 15;
/// The most ticks that a run may take.
pub const TICKS: u64 = 4_294_967_295;
/// How far past its window's end the dearest op can carry the clock.
pub const OVERRUN: u64 = 212;

/// The least is what the longest switch takes past its window's end: `OVERRUN`, 24 for
/// kernel's sets that are full, 40 for sixteen dirty lines of L1, 100 for the touch.
pub const PAD: RangeInclusive<u32> = 376..=1_000_000;
pub const RUN: RangeInclusive<u32> = 1..=1_000;
pub const DOMAIN: RangeInclusive<u32> = 0..=7;
pub const SHARE: RangeInclusive<u32> = 1..=1_000;
pub const LENGTH: RangeInclusive<u32> = 1..=1_000_000;
pub const VALUE: RangeInclusive<u32> = 0..=65_535;
pub const COMPUTE: RangeInclusive<u32> = 1..=200;
/// The windows of a frame.
pub const FRAME: RangeInclusive<u32> = 1..=WINDOWS as u32;
/// What each domain weighs in a frame.
pub const WEIGHT: RangeInclusive<u32> = 0..=1_000;
/// Each window of a domain whose latest end is told.
pub const LATEST: RangeInclusive<u32> = 4_000..=20_000;
