//! A plan and all the tables lent with it, and short ways to make texts.

use crate::cache::Board;
use crate::journal::{log_of, Kept, Part, Record, RECORD};
use crate::machine::{fresh_start, run, run_kept, run_watched, step, Lent, Manner, Progress};
use crate::op::Op;
use crate::{cache, mail, read_plan, scripts, Plan, Refusal, State};

/// The worked run of "Settled numbers".
pub const WORKED: &str = "\
(pad 376)
(domain 0 (share 400) (may 1))
(domain 1 (share 300) (may))
(window 0 (length 400))
(window 1 (length 300))
(run 1)
(op 0 (write 3))
(op 0 (read 3))
(op 0 (send 1 77))
(op 1 (receive 0))
(op 1 (read 100))
";

/// Everything that the entry points are lent.
#[derive(Clone, Debug, PartialEq, Eq)]
pub struct Desk {
    pub plan: Plan,
    pub scripts: Vec<u32>,
    pub state: State,
    pub cache: Vec<u16>,
    pub boxes: Vec<u32>,
    pub log: Vec<u8>,
}

impl Desk {
    /// A fresh start of an accepted text, with a log of 16,384 bytes.
    pub fn of(text: &str) -> Self {
        let mut scripts = vec![7; scripts::STORE];
        let (number, companion, plan) = read_plan(text.as_bytes(), &mut scripts);
        assert_eq!((number, companion), (0, 0), "{text}");
        Desk {
            plan,
            scripts,
            state: State::default(),
            cache: vec![0; cache::TABLE],
            boxes: vec![0; mail::BOXES],
            log: vec![0xa5; 16_384],
        }
    }

    /// One domain with all colours and one long window.
    pub fn alone(ops: &[Op]) -> Self {
        let mut desk =
            Desk::of("(pad 376)\n(run 1)\n(domain 0(share 1000)(may))\n(window 0(length 1000000))");
        desk.put_ops(0, ops);
        desk
    }

    pub fn put_ops(&mut self, domain: usize, ops: &[Op]) {
        for (place, op) in ops.iter().enumerate() {
            self.scripts[256 * domain + place] = op.stored();
        }
    }

    pub fn fresh_start(&mut self) -> Result<(), Refusal> {
        fresh_start(
            &self.plan,
            &mut self.state,
            &mut self.cache,
            &mut self.boxes,
        )
    }

    pub fn step(&mut self) -> Result<Progress, Refusal> {
        let (plan, scripts, state, lent) = self.lend();
        step(plan, scripts, state, lent)
    }

    pub fn run(&mut self, limit: u64) -> Result<Progress, Refusal> {
        let (plan, scripts, state, lent) = self.lend();
        run(plan, scripts, state, lent, limit)
    }

    pub fn run_on(&mut self, board: Board, limit: u64) -> Result<Progress, Refusal> {
        let usual = Manner::USUAL;
        self.run_in(Manner { board, ..usual }, limit)
    }

    pub fn run_in(&mut self, manner: Manner, limit: u64) -> Result<Progress, Refusal> {
        let (plan, scripts, state, lent) = self.lend();
        run_watched(manner, plan, scripts, state, lent, limit, |_, _| ())
    }

    /// A run for which the desk's log is one domain's part.
    pub fn run_kept(&mut self, kept: Kept, limit: u64) -> Result<Progress, Refusal> {
        let (plan, scripts, state, lent) = self.lend();
        run_kept(plan, scripts, state, lent, kept, limit)
    }

    pub fn log_of(&self, domain: u32) -> Result<Part, Refusal> {
        log_of(&self.plan, &self.state, &self.log, domain)
    }

    /// A domain's records so far, as kind, value and clock.
    pub fn seen(&self, domain: u32) -> Vec<(&'static str, u16, u32)> {
        let part = self.log_of(domain).expect("a possible desk");
        let (records, _) = self.log[part.place..][..part.length].as_chunks::<RECORD>();
        records
            .iter()
            .map(|bytes| Record::from_bytes(*bytes).expect("one of nine kinds"))
            .map(|record| (record.kind.word(), record.value, record.clock))
            .collect()
    }

    /// The lines that L1 holds clean, by index; a dirty one would be no line.
    pub fn near(&self) -> Vec<u16> {
        let held = self.cache[..16].iter().filter(|held| **held != 0);
        held.map(|held| held - 1).collect()
    }

    /// One L2 set's lines, the most recently used first.
    pub fn set(&self, number: usize) -> Vec<u16> {
        self.cache[16 + 4 * number..][..4]
            .iter()
            .filter(|held| **held != 0)
            .map(|held| held - 1)
            .collect()
    }

    /// Every way in that takes tables refuses so, and changes nothing.
    pub fn assert_refused(&self, refusal: Refusal) {
        for limit in [0, 1, 2, u64::MAX] {
            let mut desk = self.clone();
            assert_eq!(desk.run(limit), Err(refusal));
            assert_eq!(&desk, self);
        }
        let mut desk = self.clone();
        assert_eq!(desk.step(), Err(refusal));
        assert_eq!(&desk, self);
    }

    /// A limit of 0 is let through and changes nothing.
    pub fn assert_let_through(&self) {
        let mut desk = self.clone();
        assert!(desk.run(0).is_ok_and(|progress| progress.steps == 0));
        assert_eq!(&desk, self);
    }

    fn lend(&mut self) -> (&Plan, &[u32], &mut State, Lent<'_>) {
        let lent = Lent {
            cache: &mut self.cache,
            boxes: &mut self.boxes,
            log: &mut self.log,
        };
        (&self.plan, &self.scripts, &mut self.state, lent)
    }
}

/// What a reading of these bytes returns. A refused one must leave the scripts
/// alone and give the empty plan.
pub fn reading(text: impl AsRef<[u8]>) -> (u32, u64) {
    let mut scripts: Vec<u32> = (0..scripts::STORE as u32).map(|n| n ^ 0xdead).collect();
    let before = scripts.clone();
    let (number, companion, plan) = read_plan(text.as_ref(), &mut scripts);
    if number == 0 {
        assert_eq!(companion, 0);
        assert!(plan.is_possible());
    } else {
        assert_eq!(scripts, before);
        assert_eq!(plan, Plan::default());
    }
    (number, companion)
}

/// The offset of the last place where a text holds these words.
pub fn offset(text: &str, words: &str) -> u64 {
    text.rfind(words).expect("words of the text") as u64
}

/// Asserts that a text made of `before` and `rest` is refused by this number,
/// at the last place of these words in the rest.
pub fn assert_refused_at(before: &str, rest: &str, number: u32, words: &str) {
    let text = format!("{before}{rest}");
    let at = before.len() as u64 + offset(rest, words);
    assert_eq!(reading(&text), (number, at), "{text}");
}

/// A good text that ends with a domain line, so that windows and ops of domain
/// 0 may follow.
pub const OPENING: &str =
    "(pad 376)\n(run 1)\n(domain 0(share 400)(may))\n(window 0(length 400))\n";
