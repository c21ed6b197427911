//! The plan written back in a single form: document 02, E4.

use crate::limits::{DOMAINS, OPS, TEXT_BYTES};
use crate::op::Op;
use crate::plan::{Domain, Plan, Recipients, Window};
use crate::refusal::Refusal;
use crate::scripts::Scripts;

/// Writes a plan and its scripts in the single form, from the buffer's start on,
/// and gives the number of bytes written. What stands behind them stays. 11 comes
/// first, then 12, then 17, and a refused call writes nothing.
pub fn write_plan(plan: &Plan, scripts: &[u32], out: &mut [u8]) -> Result<usize, Refusal> {
    let scripts = Scripts::over(scripts).ok_or(Refusal::TableLength)?;
    let text = canonical_text(plan, scripts)?;
    let needed = text.len();
    let written = out.get_mut(..needed).ok_or(Refusal::Room { needed })?;
    written.copy_from_slice(text.as_bytes());
    Ok(needed)
}

/// The single text of a plan and its scripts: 12 where no accepted text gives them.
fn canonical_text(plan: &Plan, scripts: Scripts) -> Result<String, Refusal> {
    plan.schedule()?;
    let ops = given_ops(scripts, plan.domains.len()).ok_or(Refusal::Plan)?;
    let text = lines(plan, &ops).join("\n");
    // Of all texts with these lines none is shorter than this one. If it is too
    // long to be accepted, so are the others.
    match text.len() <= TEXT_BYTES {
        true => Ok(text),
        false => Err(Refusal::Plan),
    }
}

/// The ops of each declared domain; none for a store that the reader never leaves.
fn given_ops(scripts: Scripts, declared: usize) -> Option<Vec<Vec<Op>>> {
    let mut given: Vec<Vec<Op>> = (0..DOMAINS)
        .map(|domain| ops_alone(scripts.of(domain)))
        .collect::<Option<_>>()?;
    // An op line needs its domain declared.
    let undeclared = given.split_off(declared);
    undeclared.iter().all(Vec::is_empty).then_some(given)
}

/// The ops of a script that holds 0 wherever it has no op of its own; none of any
/// other script.
fn ops_alone(script: &[u32; OPS]) -> Option<Vec<Op>> {
    let decoded = script.iter().map(|number| Op::from_stored(*number));
    let ops: Vec<Op> = decoded.map_while(|op| op).collect();
    let rest = &script[ops.len()..];
    rest.iter().all(|number| *number == 0).then_some(ops)
}

/// The pad comes first, the ops last; each domain keeps the order of its own ops.
fn lines(plan: &Plan, ops: &[Vec<Op>]) -> Vec<String> {
    let domains = plan.domains.iter().enumerate();
    let scripts = ops.iter().enumerate();
    let pad = format!("(pad {})", plan.pad);
    let run = format!("(run {})", plan.run);
    let mut lines = vec![pad];
    lines.extend(domains.map(|(number, domain)| domain_line(number, domain)));
    lines.extend(plan.windows.iter().map(window_line));
    lines.push(run);
    lines.extend(scripts.flat_map(|(domain, ops)| ops.iter().map(move |op| op_line(domain, op))));
    lines
}

fn domain_line(number: usize, domain: &Domain) -> String {
    let (share, may) = (domain.share, may_list(domain.may));
    format!("(domain {number}(share {share}){may})")
}

/// The word and the recipients, rising. With no recipient the bracket follows the
/// word.
fn may_list(may: Recipients) -> String {
    let rising = (0..DOMAINS).filter(|domain| may.include(*domain));
    let recipients: String = rising.map(|domain| format!(" {domain}")).collect();
    format!("(may{recipients})")
}

fn window_line(window: &Window) -> String {
    let Window { domain, length } = window;
    format!("(window {domain}(length {length}))")
}

fn op_line(domain: usize, op: &Op) -> String {
    let op = match op {
        Op::Read(line) => format!("read {line}"),
        Op::Write(line) => format!("write {line}"),
        Op::Send { to, word } => format!("send {to} {word}"),
        Op::Receive { from } => format!("receive {from}"),
        Op::Compute(ticks) => format!("compute {ticks}"),
    };
    format!("(op {domain}({op}))")
}
