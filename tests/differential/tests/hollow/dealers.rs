//! The reference with a fault in how it deals colours, or in how it judges a plan
//! by them.

use pirkvezo_differential::engine::{Engine, Kept, Reference, Tables, PLAN};
use pirkvezo_differential::generate::shares::{colours_of, masks_of, COLOURS, WHOLE};

#[derive(Clone, Copy, Debug, PartialEq, Eq)]
pub enum DealFault {
    None,
    /// Lets an exact half go down.
    HalvesGoDown,
    /// Drops what is left of a colour.
    RoundsDown,
    /// Gives a colour for any part of one.
    RoundsUp,
    /// Takes shares that give sixteen colours.
    TakesSixteen,
    /// Takes shares that give any number of colours.
    TakesAnyTotal,
    /// Refuses shares that give all fifteen colours.
    RefusesFifteen,
    /// Counts the colours of all shares together, rounded once.
    RoundsTheSum,
    /// Counts the colours before the shares are summed up: 16 before 7.
    ColoursBeforeShares,
    /// Looks for a share without a colour first: 6 before 16.
    ColoursAfterBare,
    /// Counts the colours last: 6 and 9 before 16.
    ColoursLast,
    /// Counts the ticks first: 9 before 16.
    ColoursAfterTicks,
    /// Tells how many colours there are.
    TellsFifteen,
    /// Tells how many colours there are too many.
    TellsExcess,
    /// Tells what the shares sum up to.
    TellsShares,
    /// Stops counting at the first colour too many.
    TellsSixteen,
    /// Takes a plan with any number of colours, masks as they would go on.
    PlansOfAnyTotal,
    /// Takes a plan with any number of colours, masks cut to 16 bits.
    PlansOfShortMasks,
    /// Takes a plan with any number of colours, masks cut before the kernel's.
    PlansOfCutMasks,
    /// Takes a plan with sixteen colours.
    PlansOfSixteen,
    /// Refuses a plan with fifteen colours.
    PlansOfFourteen,
    /// Holds a plan's masks to shares of which an exact half goes down.
    PlansOfHalvesDown,
    /// Holds a plan's masks to shares that are rounded down.
    PlansRoundedDown,
}

impl DealFault {
    /// All that are one.
    pub const HOLLOW: [DealFault; 22] = [
        DealFault::HalvesGoDown,
        DealFault::RoundsDown,
        DealFault::RoundsUp,
        DealFault::TakesSixteen,
        DealFault::TakesAnyTotal,
        DealFault::RefusesFifteen,
        DealFault::RoundsTheSum,
        DealFault::ColoursBeforeShares,
        DealFault::ColoursAfterBare,
        DealFault::ColoursLast,
        DealFault::ColoursAfterTicks,
        DealFault::TellsFifteen,
        DealFault::TellsExcess,
        DealFault::TellsShares,
        DealFault::TellsSixteen,
        DealFault::PlansOfAnyTotal,
        DealFault::PlansOfShortMasks,
        DealFault::PlansOfCutMasks,
        DealFault::PlansOfSixteen,
        DealFault::PlansOfFourteen,
        DealFault::PlansOfHalvesDown,
        DealFault::PlansRoundedDown,
    ];

    /// The rule by which a text's shares are dealt.
    fn reading(self) -> Rule {
        match self {
            DealFault::HalvesGoDown => Rule::rounding(halves_down),
            DealFault::RoundsDown => Rule::rounding(rounded_down),
            DealFault::RoundsUp => Rule::rounding(rounded_up),
            DealFault::TakesSixteen => Rule::up_to(16),
            DealFault::TakesAnyTotal => Rule::up_to(u32::MAX),
            DealFault::RefusesFifteen => Rule::up_to(14),
            _ => RIGHT,
        }
    }

    /// The rule by which a plan is judged.
    fn judging(self) -> Rule {
        match self {
            DealFault::PlansOfAnyTotal => Rule::up_to(u32::MAX),
            DealFault::PlansOfShortMasks => Rule::keeping(0xffff),
            DealFault::PlansOfCutMasks => Rule::keeping(0x7fff),
            DealFault::PlansOfSixteen => Rule::up_to(16),
            DealFault::PlansOfFourteen => Rule::up_to(14),
            DealFault::PlansOfHalvesDown => Rule::rounding(halves_down),
            DealFault::PlansRoundedDown => Rule::rounding(rounded_down),
            _ => RIGHT,
        }
    }

    /// The order of what is judged of shares and ticks.
    fn order(self) -> [u32; 4] {
        match self {
            DealFault::ColoursBeforeShares => [16, 7, 6, 9],
            DealFault::ColoursAfterBare => [7, 6, 16, 9],
            DealFault::ColoursLast => [7, 6, 9, 16],
            DealFault::ColoursAfterTicks => [7, 9, 16, 6],
            _ => [7, 16, 6, 9],
        }
    }
}

/// How shares are dealt: the colours of one, the most of all together, and the
/// colours that a mask can hold.
#[derive(Clone, Copy)]
struct Rule {
    colours: fn(u32) -> u32,
    most: u32,
    kept: u32,
}

const RIGHT: Rule = Rule {
    colours: colours_of,
    most: COLOURS,
    kept: u32::MAX,
};

fn halves_down(share: u32) -> u32 {
    (COLOURS * share + WHOLE / 2 - 1) / WHOLE
}

fn rounded_down(share: u32) -> u32 {
    COLOURS * share / WHOLE
}

fn rounded_up(share: u32) -> u32 {
    (COLOURS * share).div_ceil(WHOLE)
}

impl Rule {
    fn rounding(colours: fn(u32) -> u32) -> Self {
        Rule { colours, ..RIGHT }
    }

    fn up_to(most: u32) -> Self {
        Rule { most, ..RIGHT }
    }

    /// Any total, with masks of these colours alone.
    fn keeping(kept: u32) -> Self {
        Rule {
            kept,
            ..Rule::up_to(u32::MAX)
        }
    }

    fn total(&self, shares: &[u32]) -> u32 {
        shares.iter().map(|share| (self.colours)(*share)).sum()
    }

    fn masks(&self, shares: &[u32]) -> Vec<u32> {
        let masks = masks_of(shares.iter().map(|share| (self.colours)(*share)));
        masks.into_iter().map(|mask| mask & self.kept).collect()
    }

    /// Whether these masks are what these shares give.
    fn takes(&self, shares: &[u32], masks: &[u32]) -> bool {
        shares.iter().sum::<u32>() <= WHOLE
            && self.total(shares) <= self.most
            && shares.iter().all(|share| (self.colours)(*share) > 0)
            && self.masks(shares) == masks
    }
}

#[derive(Clone, Copy, Debug)]
pub struct Dealer(pub DealFault);

impl Engine for Dealer {
    fn name(&self) -> &'static str {
        "hollow dealer"
    }

    fn read_plan(
        &self,
        text: &[u8],
        scripts: &mut [u32],
        plan: &mut [u32],
        answer: &mut [u64],
    ) -> u32 {
        let mut stored = scripts.to_vec();
        match Reference.read_plan(text, &mut stored, plan, answer) {
            // What is refused before the shares are judged.
            number @ (1..=5 | 8 | 10 | 11) => number,
            _ => self.deal(text, scripts, plan, answer),
        }
    }

    fn fresh_start(
        &self,
        plan: &[u32],
        state: &mut [u64],
        cache: &mut [u16],
        boxes: &mut [u32],
        answer: &mut [u64],
    ) -> u32 {
        Reference.fresh_start(&self.judged(plan), state, cache, boxes, answer)
    }

    fn step(&self, tables: Tables, answer: &mut [u64]) -> u32 {
        let plan = self.judged(tables.plan);
        Reference.step(
            Tables {
                plan: &plan,
                ..tables
            },
            answer,
        )
    }

    fn run(&self, tables: Tables, limit: u64, answer: &mut [u64]) -> u32 {
        let plan = self.judged(tables.plan);
        Reference.run(
            Tables {
                plan: &plan,
                ..tables
            },
            limit,
            answer,
        )
    }

    fn run_kept(&self, tables: Tables, kept: Kept, limit: u64, answer: &mut [u64]) -> u32 {
        let plan = self.judged(tables.plan);
        let judged = Tables {
            plan: &plan,
            ..tables
        };
        Reference.run_kept(judged, kept, limit, answer)
    }

    fn log(&self, plan: &[u32], state: &[u64], log: &[u8], domain: u32, answer: &mut [u64]) -> u32 {
        Reference.log(&self.judged(plan), state, log, domain, answer)
    }
}

impl Dealer {
    /// Judges the shares of a text, and its ticks, with the fault. All else in the
    /// text is good.
    fn deal(&self, text: &[u8], scripts: &mut [u32], plan: &mut [u32], answer: &mut [u64]) -> u32 {
        let (shares, harmless) = without_shares(text);
        let mut stored = scripts.to_vec();
        let rest = Reference.read_plan(&harmless, &mut stored, plan, answer);
        assert!(rest == 0 || rest == 9, "{rest} of shares that are harmless");
        let rule = self.0.reading();
        let sum = shares.iter().sum::<u32>();
        let total = match self.0 {
            DealFault::RoundsTheSum => (rule.colours)(sum.min(WHOLE)),
            _ => rule.total(&shares),
        };
        let bare = shares.iter().position(|share| (rule.colours)(*share) == 0);
        let refused = |number: &u32| match number {
            7 => sum > WHOLE,
            16 => total > rule.most,
            6 => bare.is_some(),
            _ => rest == 9,
        };
        let Some(number) = self.0.order().into_iter().find(refused) else {
            let count = shares.len();
            plan[4..4 + count].copy_from_slice(&shares);
            plan[84..84 + count].copy_from_slice(&rule.masks(&shares));
            scripts.copy_from_slice(&stored);
            return 0;
        };
        let companion = match number {
            7 => sum,
            16 => self.told(sum, total),
            6 => bare.unwrap_or(0) as u32,
            _ => 0,
        };
        plan.fill(0);
        answer.copy_from_slice(&[number.into(), companion.into(), 0, 0]);
        number
    }

    /// What is told beside 16.
    fn told(&self, sum: u32, total: u32) -> u32 {
        match self.0 {
            DealFault::TellsFifteen => COLOURS,
            DealFault::TellsExcess => total - COLOURS,
            DealFault::TellsShares => sum,
            DealFault::TellsSixteen => COLOURS + 1,
            _ => total,
        }
    }

    /// A plan that the reference takes or refuses as the fault would have this one.
    fn judged(&self, plan: &[u32]) -> Vec<u32> {
        let mut judged = plan.to_vec();
        let count = plan.get(2).map_or(0, |count| *count as usize);
        if plan.len() != PLAN || !(1..=8).contains(&count) {
            return judged;
        }
        let (shares, masks) = (&plan[4..4 + count], &plan[84..84 + count]);
        if shares.iter().any(|share| !(1..=WHOLE).contains(share)) {
            return judged;
        }
        let taken = self.0.judging().takes(shares, masks);
        if taken == RIGHT.takes(shares, masks) {
            return judged;
        }
        if !taken {
            judged.fill(0);
            return judged;
        }
        for domain in 0..count {
            judged[4 + domain] = 34;
            judged[84 + domain] = 1 << domain;
        }
        judged
    }
}

/// The shares of a text, and the text with a harmless one in place of each.
fn without_shares(text: &[u8]) -> (Vec<u32>, Vec<u8>) {
    let text = String::from_utf8_lossy(text);
    let mut pieces = text.split("share");
    let mut harmless = String::from(pieces.next().unwrap_or_default());
    let mut shares = Vec::new();
    for piece in pieces {
        let (share, rest) = piece.split_once(')').expect("the bracket behind a share");
        shares.push(share.trim().parse().expect("a share"));
        harmless += "share 34)";
        harmless += rest;
    }
    (shares, harmless.into_bytes())
}
