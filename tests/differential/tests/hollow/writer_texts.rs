//! The text that a writer with a fault makes of a plan and a store, whatever they
//! hold.

use crate::write_faults::WriteFault;
use crate::writers::HollowWriter;
use pirkvezo_differential::engine::PLAN;
use pirkvezo_differential::generate::shares::colours_of;
use pirkvezo_differential::generate::write::LONGEST;

impl HollowWriter {
    pub fn text(&self, plan: &[u32; PLAN], scripts: &[u32]) -> Vec<u8> {
        let mut text = self.lines(plan, scripts).join("\n");
        if self.0 == WriteFault::CutsToTheLimit && text.len() > LONGEST {
            let end = text[..LONGEST].rfind('\n');
            text.truncate(end.unwrap_or(0));
        }
        self.respelled(text).into_bytes()
    }

    fn lines(&self, plan: &[u32; PLAN], scripts: &[u32]) -> Vec<String> {
        let pad = vec![format!("(pad {})", self.digits(plan[0]))];
        let run = match (self.0, plan[1]) {
            (WriteFault::LeavesOutOneRun, 1) => vec![],
            _ => vec![format!("(run {})", self.digits(plan[1]))],
        };
        let (domains, windows) = (self.domain_lines(plan), self.window_lines(plan));
        let ops = self.op_lines(plan, scripts);
        match self.0 {
            WriteFault::WindowsBeforeDomains => [pad, windows, domains, run, ops].concat(),
            WriteFault::RunBeforeWindows => [pad, domains, run, windows, ops].concat(),
            WriteFault::RunBehindPad => [pad, run, domains, windows, ops].concat(),
            WriteFault::RunLast => [pad, domains, windows, ops, run].concat(),
            WriteFault::PadBesideRun => [domains, windows, pad, run, ops].concat(),
            WriteFault::OpsBeforeWindows => [pad, domains, ops, windows, run].concat(),
            _ => [pad, domains, windows, run, ops].concat(),
        }
    }

    fn domain_lines(&self, plan: &[u32; PLAN]) -> Vec<String> {
        let domains = 0..plan[2].min(8) as usize;
        domains
            .map(|domain| {
                let share = self.digits(self.share(plan[4 + domain]));
                let may = self.may(plan[12 + domain]);
                let number = self.digits(domain as u32);
                format!("(domain {number}(share {share}){may})")
            })
            .collect()
    }

    fn share(&self, share: u32) -> u32 {
        match self.0 {
            WriteFault::RoundsShares if share <= 1_000 => {
                let colours = colours_of(share);
                let least = (0..=share).find(|least| colours_of(*least) == colours);
                least.unwrap_or(share)
            }
            WriteFault::WritesColours if share <= 1_000 => colours_of(share),
            _ => share,
        }
    }

    fn may(&self, mask: u32) -> String {
        let mut recipients: Vec<u32> = (0..8).filter(|other| mask >> other & 1 == 1).collect();
        match self.0 {
            WriteFault::RecipientsFall => recipients.reverse(),
            WriteFault::LastRecipientFirst if !recipients.is_empty() => recipients.rotate_right(1),
            WriteFault::ForgetsRecipientSeven => recipients.retain(|other| *other != 7),
            WriteFault::LeavesOutEmptyLists if recipients.is_empty() => return String::new(),
            _ => {}
        }
        let digits = recipients.iter().map(|other| self.digits(*other));
        let spaced: String = digits.map(|digits| format!(" {digits}")).collect();
        format!("(may{spaced})")
    }

    fn window_lines(&self, plan: &[u32; PLAN]) -> Vec<String> {
        let count = plan[3].min(32) as usize;
        let mut windows: Vec<(u32, u32)> = (0..count)
            .map(|place| (plan[20 + place], plan[52 + place]))
            .collect();
        match self.0 {
            WriteFault::SortsWindows => windows.sort_by_key(|window| window.0),
            WriteFault::ForgetsTheLastWindow if count > 1 => windows.truncate(count - 1),
            _ => {}
        }
        let windows = windows.into_iter();
        let lines = windows.map(|(domain, length)| {
            let (domain, length) = (self.digits(domain), self.digits(length));
            format!("(window {domain}(length {length}))")
        });
        lines.collect()
    }

    fn op_lines(&self, plan: &[u32; PLAN], scripts: &[u32]) -> Vec<String> {
        let written = match self.0 {
            WriteFault::WritesUndeclared => 8,
            _ => plan[2].min(8) as usize,
        };
        let parts = scripts.chunks(256).take(written).enumerate();
        let mut ops: Vec<(usize, usize, u32)> = parts
            .flat_map(|(domain, part)| {
                let ops = self.ops(part, plan[2] as usize).into_iter().enumerate();
                ops.map(move |(place, number)| (domain, place, number))
            })
            .collect();
        match self.0 {
            WriteFault::OpsByPlace => ops.sort_by_key(|op| (op.1, op.0)),
            WriteFault::LastDomainFirst => ops.sort_by_key(|op| (8 - op.0, op.1)),
            WriteFault::LastOpFirst => ops.sort_by_key(|op| (op.0, 256 - op.1)),
            WriteFault::OpsByKind => ops.sort_by_key(|op| (op.0, op.2 >> 20)),
            WriteFault::ForgetsTheLastOp => drop(ops.pop()),
            _ => {}
        }
        let lines = ops.into_iter();
        lines
            .map(|(domain, _, op)| self.op_line(domain, op))
            .collect()
    }

    fn op_line(&self, domain: usize, number: u32) -> String {
        let domain = self.digits(domain as u32);
        let other = self.digits(number >> 16 & 15);
        let value = self.digits(number & 0xffff);
        let op = match (number >> 20, self.0) {
            (1, WriteFault::SwapsReadAndWrite) => format!("write {value}"),
            (2, WriteFault::SwapsReadAndWrite) => format!("read {value}"),
            (1, _) => format!("read {value}"),
            (2, _) => format!("write {value}"),
            (3, WriteFault::SwapsSends) => format!("send {value} {other}"),
            (3, _) => format!("send {other} {value}"),
            (4, WriteFault::ReceivesAValue) => format!("receive {value}"),
            (4, _) => format!("receive {other}"),
            _ => format!("compute {value}"),
        };
        format!("(op {domain}({op}))")
    }

    /// The numbers of a part that are written as ops, where so many domains are
    /// declared.
    pub fn ops(&self, part: &[u32], declared: usize) -> Vec<u32> {
        let is_op = |number: &u32| self.is_op(*number, declared);
        let numbers = part.iter().copied();
        match self.0 {
            WriteFault::ClosesGaps => numbers.filter(is_op).collect(),
            WriteFault::ForgetsThe256th => numbers.take(255).take_while(is_op).collect(),
            _ => numbers.take_while(is_op).collect(),
        }
    }

    pub fn is_op(&self, number: u32, declared: usize) -> bool {
        let (other, value) = (number >> 16 & 15, number & 0xffff);
        let known = match self.0 {
            WriteFault::RefusesUndeclaredOthers => (other as usize) < declared,
            _ => other < 8,
        };
        match (number >> 20, self.0) {
            (1 | 2, WriteFault::TakesLinesOfOthers) => true,
            (1 | 2, WriteFault::RefusesBarredLines) => other == 0 && value <= 4_095,
            (1 | 2, _) => other == 0,
            (3, WriteFault::TakesSendsPastTheEighth) => true,
            (3, _) => known,
            (4, WriteFault::TakesReceivesOfAValue) => known,
            (4, _) => known && value == 0,
            (5, WriteFault::TakesNoTicks) => other == 0 && value <= 200,
            (5, WriteFault::TakesAnyTicks) => other == 0 && value > 0,
            (5, _) => other == 0 && (1..=200).contains(&value),
            (6, WriteFault::TakesASixthKind) => true,
            _ => false,
        }
    }

    fn digits(&self, number: u32) -> String {
        let digits = number.to_string();
        match self.0 {
            WriteFault::ZeroHasNoDigits if number == 0 => String::new(),
            WriteFault::TwoDigitsAtLeast => format!("{number:02}"),
            WriteFault::TenDigits => format!("{number:010}"),
            WriteFault::SixDigitsAtMost => digits[digits.len().saturating_sub(6)..].into(),
            WriteFault::FiveDigitsAtMost => digits[digits.len().saturating_sub(5)..].into(),
            WriteFault::LastDigitFirst => digits.chars().rev().collect(),
            _ => digits,
        }
    }

    /// The text with spaces or LFs where none belong, or without some that do.
    fn respelled(&self, text: String) -> String {
        match self.0 {
            WriteFault::SpaceBeforeOpening => {
                let spaced = text.replace('(', " (").replace("\n ", "\n");
                spaced.trim_start().into()
            }
            WriteFault::SpaceBehindOpening => text.replace('(', "( "),
            WriteFault::SpaceBeforeClosing => text.replace(')', " )"),
            WriteFault::SpaceBetweenBrackets => text.replace(")(", ") ("),
            WriteFault::SpaceInEmptyLists => text.replace("(may)", "(may )"),
            WriteFault::TwoSpaces => text.replace(' ', "  "),
            WriteFault::SpaceBeforeLf => text.replace('\n', " \n"),
            WriteFault::NoSpaceInSends => text.replace("send ", "send"),
            WriteFault::LastLf => text + "\n",
            WriteFault::FirstLf => "\n".to_string() + &text,
            WriteFault::EmptyLineBeforeRun => text.replace("\n(run", "\n\n(run"),
            WriteFault::CrLf => text.replace('\n', "\r\n"),
            WriteFault::NoLf => text.replace('\n', " "),
            _ => text,
        }
    }
}
