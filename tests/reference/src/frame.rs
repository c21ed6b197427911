//! A frame by weights: document 02, E1.

use crate::limits::{self, DOMAINS, WINDOWS};
use crate::refusal::Refusal;
use std::array;
use std::cmp::Reverse;

/// Whose window stands at each index of a frame; 0 past the frame's count.
pub type Frame = [u32; WINDOWS];

/// Makes a frame in rows of any length: 11 first, and then nothing is written.
/// Beside refusal 15 the frame is all zeros.
pub fn write_frame(count: u32, weights: &[u32], frame: &mut [u32]) -> Result<(), Refusal> {
    let weights = weights.try_into().map_err(|_| Refusal::TableLength)?;
    let frame: &mut Frame = frame.try_into().map_err(|_| Refusal::TableLength)?;
    let made = make_frame(count, weights);
    *frame = made.unwrap_or([0; WINDOWS]);
    made.map(|_| ())
}

/// The frame of so many windows, dealt out by these weights.
pub fn make_frame(count: u32, weights: [u32; DOMAINS]) -> Result<Frame, Refusal> {
    let possible = limits::FRAME.contains(&count)
        && weights.iter().all(|weight| limits::WEIGHT.contains(weight))
        && weights.iter().any(|weight| *weight > 0);
    match possible {
        true => Ok(lay(windows_of_each(count, weights))),
        false => Err(Refusal::Frame),
    }
}

/// How many windows each domain gets: what its quota has of whole ones, and then
/// one more for as many domains as there are windows left over.
fn windows_of_each(count: u32, weights: [u32; DOMAINS]) -> [u32; DOMAINS] {
    let total: u32 = weights.iter().sum();
    let mut windows = weights.map(|weight| count * weight / total);
    let remainders = weights.map(|weight| count * weight % total);
    let left = count - windows.iter().sum::<u32>();
    let mut order: [usize; DOMAINS] = array::from_fn(|domain| domain);
    order.sort_by_key(|domain| (Reverse(remainders[*domain]), *domain));
    for domain in order.into_iter().take(left as usize) {
        windows[domain] += 1;
    }
    windows
}

/// Goes round the domains, and takes a window from each that has one left, until
/// none has. All together have a frame's windows at most.
fn lay(mut left: [u32; DOMAINS]) -> Frame {
    let mut frame = [0; WINDOWS];
    let mut laid = 0;
    while left != [0; DOMAINS] {
        for (domain, own) in left.iter_mut().enumerate() {
            if *own > 0 {
                *own -= 1;
                frame[laid] = domain as u32;
                laid += 1;
            }
        }
    }
    frame
}
