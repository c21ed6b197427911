//! The reader: document 01, "The plan text", with the shares of document 02, E2.

use crate::colours::{colours_for, deal, total_for};
use crate::limits;
use crate::op::Op;
use crate::plan::{Domain, Plan, Recipients, Window};
use crate::refusal::Refusal;
use crate::schedule::Schedule;
use crate::scripts::STORE;
use crate::token::{Kind, Lines, Number};

/// Reads a text. Gives the returned number, its companion and the plan; the
/// scripts are written only when the text is accepted.
pub fn read_plan(text: &[u8], scripts: &mut [u32]) -> (u32, u64, Plan) {
    let draft = if scripts.len() != STORE {
        Err(Refusal::TableLength)
    } else if text.len() > limits::TEXT_BYTES {
        Err(Refusal::TooLong)
    } else {
        read_draft(text)
    };
    match draft.and_then(|draft| Ok((draft.plan(text.len())?, draft))) {
        Ok((plan, draft)) => {
            draft.store(scripts);
            (0, 0, plan)
        }
        Err(refusal) => (refusal.number(), refusal.companion(), Plan::default()),
    }
}

fn read_draft(text: &[u8]) -> Result<Draft, Refusal> {
    let mut draft = Draft::default();
    let mut lines = Lines::of(text);
    loop {
        if !lines.is_blank() {
            let bracket = lines.open()?;
            let form = read_form(&mut lines, draft.domains.len())?;
            lines.finish()?;
            draft.take_up(form, bracket)?;
        }
        if !lines.next_line() {
            return Ok(draft);
        }
    }
}

/// What one line says.
enum Form {
    Pad(u32),
    Run(u32),
    Domain { share: u32, may: Vec<Number> },
    Window(Window),
    Op { domain: u32, op: Op },
}

/// Reads what stands behind a line's first bracket, up to the bracket that
/// closes it.
fn read_form(line: &mut Lines, declared: usize) -> Result<Form, Refusal> {
    let token = line.due()?;
    let Kind::Word(word) = token.kind else {
        return Err(token.misplaced());
    };
    let form = match word {
        b"pad" => Form::Pad(line.number(limits::PAD)?.value),
        b"run" => Form::Run(line.number(limits::RUN)?.value),
        b"domain" => read_domain(line, declared)?,
        b"window" => {
            let domain = declared_domain(line, declared)?;
            line.open()?;
            line.word("length")?;
            let length = line.number(limits::LENGTH)?.value;
            line.close()?;
            Form::Window(Window { domain, length })
        }
        b"op" => {
            let domain = declared_domain(line, declared)?;
            line.open()?;
            let op = read_op(line)?;
            line.close()?;
            Form::Op { domain, op }
        }
        _ => return Err(token.misplaced()),
    };
    line.close()?;
    Ok(form)
}

fn declared_domain(line: &mut Lines, declared: usize) -> Result<u32, Refusal> {
    let Number { at, value } = line.number(limits::DOMAIN)?;
    if (value as usize) < declared {
        Ok(value)
    } else {
        Err(Refusal::Domain { at })
    }
}

fn read_domain(line: &mut Lines, declared: usize) -> Result<Form, Refusal> {
    let own = line.number(limits::DOMAIN)?;
    if own.value as usize != declared {
        return Err(Refusal::Domain { at: own.at });
    }
    line.open()?;
    line.word("share")?;
    let share = line.number(limits::SHARE)?.value;
    line.close()?;
    line.open()?;
    line.word("may")?;
    let mut may = Vec::new();
    let mut seen = Recipients::default();
    loop {
        let token = line.due()?;
        if token.kind == Kind::Close {
            return Ok(Form::Domain { share, may });
        }
        let recipient = token.number(limits::DOMAIN)?;
        if recipient.value == own.value || !seen.take_up(recipient.value) {
            return Err(Refusal::Recipient { at: recipient.at });
        }
        may.push(recipient);
    }
}

fn read_op(line: &mut Lines) -> Result<Op, Refusal> {
    let token = line.due()?;
    let Kind::Word(word) = token.kind else {
        return Err(token.misplaced());
    };
    let mut short = |limits| line.number(limits).map(|number| number.value as u16);
    Ok(match word {
        b"read" => Op::Read(short(limits::VALUE)?),
        b"write" => Op::Write(short(limits::VALUE)?),
        b"send" => Op::Send {
            to: short(limits::DOMAIN)? as u8,
            word: short(limits::VALUE)?,
        },
        b"receive" => Op::Receive {
            from: short(limits::DOMAIN)? as u8,
        },
        b"compute" => Op::Compute(short(limits::COMPUTE)?),
        _ => return Err(token.misplaced()),
    })
}

/// What the lines so far come to.
#[derive(Default)]
struct Draft {
    pad: Option<u32>,
    run: Option<u32>,
    domains: Vec<Declared>,
    windows: Vec<Window>,
}

struct Declared {
    share: u32,
    may: Vec<Number>,
    script: Vec<Op>,
}

impl Draft {
    /// Takes a whole good line up, whose first bracket stands at this offset.
    fn take_up(&mut self, form: Form, at: usize) -> Result<(), Refusal> {
        match form {
            Form::Pad(ticks) => put_once(&mut self.pad, ticks, at),
            Form::Run(times) => put_once(&mut self.run, times, at),
            Form::Domain { share, may } => {
                self.domains.push(Declared {
                    share,
                    may,
                    script: Vec::new(),
                });
                Ok(())
            }
            Form::Window(window) => push_within(&mut self.windows, limits::WINDOWS, window, at),
            Form::Op { domain, op } => {
                let script = &mut self.domains[domain as usize].script;
                push_within(script, limits::OPS, op, at)
            }
        }
    }

    /// Judges the text as a whole, after its last line.
    fn plan(&self, text_length: usize) -> Result<Plan, Refusal> {
        let (Some(pad), Some(run), false, false) = (
            self.pad,
            self.run,
            self.domains.is_empty(),
            self.windows.is_empty(),
        ) else {
            return Err(Refusal::Once { at: text_length });
        };
        self.judge_recipients()?;
        self.judge_shares()?;
        let plan = Plan {
            pad,
            run,
            domains: self
                .domains
                .iter()
                .zip(deal(self.shares()))
                .map(|(declared, colours)| Domain {
                    share: declared.share,
                    may: declared.recipients(),
                    colours,
                })
                .collect(),
            windows: self.windows.clone(),
        };
        if Schedule::of(&plan).ticks() > limits::TICKS {
            return Err(Refusal::Ticks);
        }
        Ok(plan)
    }

    /// Domain lines stand in the text in the order of their numbers, so the
    /// first recipient found here is the first in the text.
    fn judge_recipients(&self) -> Result<(), Refusal> {
        self.domains
            .iter()
            .flat_map(|domain| &domain.may)
            .find(|recipient| recipient.value as usize >= self.domains.len())
            .map_or(Ok(()), |recipient| {
                Err(Refusal::Domain { at: recipient.at })
            })
    }

    fn shares(&self) -> impl Iterator<Item = u32> + '_ {
        self.domains.iter().map(|domain| domain.share)
    }

    /// All shares together come first, then all their colours, and only then
    /// each share by itself.
    fn judge_shares(&self) -> Result<(), Refusal> {
        let sum = self.shares().sum();
        if sum > limits::WHOLE {
            return Err(Refusal::Shares { sum });
        }
        let total = total_for(self.shares());
        if total > limits::COLOURS {
            return Err(Refusal::Colours { total });
        }
        self.shares()
            .position(|share| colours_for(share) == 0)
            .map_or(Ok(()), |domain| Err(Refusal::NoColour { domain }))
    }

    /// Writes the scripts, and 0 where there is no op.
    fn store(&self, scripts: &mut [u32]) {
        scripts.fill(0);
        for (room, domain) in scripts.chunks_mut(limits::OPS).zip(&self.domains) {
            for (place, op) in room.iter_mut().zip(&domain.script) {
                *place = op.stored();
            }
        }
    }
}

impl Declared {
    fn recipients(&self) -> Recipients {
        let mut recipients = Recipients::default();
        for recipient in &self.may {
            recipients.take_up(recipient.value);
        }
        recipients
    }
}

fn put_once(place: &mut Option<u32>, value: u32, at: usize) -> Result<(), Refusal> {
    match place.replace(value) {
        None => Ok(()),
        Some(_) => Err(Refusal::Once { at }),
    }
}

fn push_within<T>(list: &mut Vec<T>, most: usize, item: T, at: usize) -> Result<(), Refusal> {
    if list.len() == most {
        return Err(Refusal::TooMany { at });
    }
    list.push(item);
    Ok(())
}
