//! What document 02 says of every frame, whoever made it. No frame is computed
//! here: the laws look at one that is there, and multiply where a maker divides.
//! For each count and weights they leave one frame possible, so they find a
//! fault also where two makers share it.

use super::call::FrameCall;
use crate::engine::{ANSWER, WEIGHTS};

/// A law that was broken.
type Broken = &'static str;

/// Judges one call by what was lent before and after it.
pub fn judge(before: &FrameCall, after: &FrameCall, number: u32) -> Result<(), Broken> {
    if !after.is_intact() {
        return Err("something was written past what was lent");
    }
    if after.count != before.count || after.weights != before.weights {
        return Err("the weights were changed");
    }
    if !before.has_right_lengths() {
        return judge_wrong_lengths(before, after, number);
    }
    if (number == 15) != has_no_frame(before.count, &before.weights) {
        return Err("15 is for numbers outside their limits and for no weight, and for them alone");
    }
    if after.answer[..] != [u64::from(number), 0, 0, 0] {
        return Err("an answer is the number that was returned, and zeros");
    }
    match number {
        0 => judge_frame(before.count, &before.weights, &after.frame),
        15 if after.frame.iter().all(|number| *number == 0) => Ok(()),
        15 => Err("a refused frame is all zeros"),
        _ => Err("a frame is refused with 15 or not at all"),
    }
}

fn judge_wrong_lengths(before: &FrameCall, after: &FrameCall, number: u32) -> Result<(), Broken> {
    if number != 11 {
        return Err("a row of another length is 11");
    }
    if after.frame != before.frame {
        return Err("beside 11 the frame is not written");
    }
    match before.answer.len() {
        ANSWER if after.answer[..] == [11, 0, 0, 0] => Ok(()),
        ANSWER => Err("11 is answered as 11, 0, 0, 0"),
        _ if after.answer == before.answer => Ok(()),
        _ => Err("an answer of another length is not written"),
    }
}

fn has_no_frame(count: u32, weights: &[u32]) -> bool {
    let no_weight = weights.iter().all(|weight| *weight == 0);
    count == 0 || count > 32 || weights.iter().any(|weight| *weight > 1_000) || no_weight
}

fn judge_frame(count: u32, weights: &[u32], frame: &[u32]) -> Result<(), Broken> {
    let (laid, rest) = frame.split_at(count as usize);
    if rest.iter().any(|number| *number != 0) {
        return Err("something stands past the count");
    }
    // Each number up to the count is some domain's, so the windows of all domains
    // add up to the count.
    let mut windows = [0; WEIGHTS];
    for domain in laid {
        let own = windows.get_mut(*domain as usize);
        *own.ok_or("a window belongs to no domain")? += 1;
    }
    judge_windows(count, weights, windows)?;
    judge_turns(laid)
}

/// Whether each domain has the windows that are due to it.
fn judge_windows(count: u32, weights: &[u32], windows: [i64; WEIGHTS]) -> Result<(), Broken> {
    let total: i64 = weights.iter().map(|weight| i64::from(*weight)).sum();
    // What a domain's windows leave of its quota, in parts of which a window has
    // as many as the weights add up to. Below 0 where it has more than its quota.
    let left: [i64; WEIGHTS] = std::array::from_fn(|domain| {
        i64::from(count) * i64::from(weights[domain]) - windows[domain] * total
    });
    for domain in 0..WEIGHTS {
        if weights[domain] == 0 && windows[domain] != 0 {
            return Err("a domain of weight 0 has a window");
        }
        if !(-total..total).contains(&left[domain]) {
            return Err("a domain has neither its whole part nor one more");
        }
    }
    let with_one_more = (0..WEIGHTS).filter(|domain| left[*domain] < 0);
    for one in with_one_more {
        for other in (0..WEIGHTS).filter(|domain| left[*domain] >= 0) {
            // The remainder is what was left before the one more.
            let (remainder, others) = (left[one] + total, left[other]);
            if remainder < others || (remainder == others && other < one) {
                return Err("a leftover window went past one who comes first");
            }
        }
    }
    Ok(())
}

/// Whether the windows are laid in turns: a domain's windows are of the first
/// turn, the second and so on; turns follow each other, and within one the
/// numbers rise.
fn judge_turns(laid: &[u32]) -> Result<(), Broken> {
    let mut stood = [0; WEIGHTS];
    let mut last = None;
    for domain in laid {
        let turn = &mut stood[*domain as usize];
        let this = Some((*turn, *domain));
        *turn += 1;
        if this <= last {
            return Err("a window stands out of its turn");
        }
        last = this;
    }
    Ok(())
}
