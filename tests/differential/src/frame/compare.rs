//! Two frame makers that get the same call.

use super::call::FrameCall;
use super::laws;
use crate::compare::Difference;
use crate::engine::FrameMaker;

/// Makes a call with both makers, and judges what each of them left. Gives the
/// number that both returned if they agree in everything.
pub fn compare(makers: [&dyn FrameMaker; 2], before: &FrameCall) -> Result<u32, Difference> {
    let made = makers.map(|maker| before.made_by(maker));
    for (maker, (number, after)) in makers.iter().zip(&made) {
        laws::judge(before, after, *number).map_err(|what| {
            let name = maker.name();
            Difference(format!("{name}: {what}\n{}", scene(before, *number, after)))
        })?;
    }
    let [(first, here), (second, there)] = &made;
    if first == second && here == there {
        return Ok(*first);
    }
    Err(Difference(format!(
        "{} and {} differ\nfirst: {}\nsecond: {}",
        makers[0].name(),
        makers[1].name(),
        scene(before, *first, here),
        scene(before, *second, there),
    )))
}

/// A call and what it left, for the message.
fn scene(before: &FrameCall, number: u32, after: &FrameCall) -> String {
    format!("{before:?} returned {number} and left {after:?}")
}
