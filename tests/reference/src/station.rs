//! A stream: its plan, its standing entries, and the figures that these give, entry after entry.

use crate::samples::{credit_quotient, level_sample, rounded_up, usable_credit};

/// So many records may stand.
pub const FULL: usize = 128;

/// The plan kinds.
pub const CREDIT: u32 = 1;
pub const LEVEL: u32 = 2;
pub const CONTINUOUS: u32 = 3;

/// Paper 02, card 3: a ceiling is at most this.
pub const LARGEST_CEILING: u32 = 128_000_000;

#[derive(Clone, Copy, Debug, PartialEq, Eq)]
pub struct Plan {
    pub kind: u32,
    pub option: u32,
    pub a: u32,
    pub b: u32,
    /// Paper 02, card 3: Kmax, the most of a credit that counts for a sample; 0 where there is no such limit.
    pub ceiling: u32,
}

/// Paper 02, card 1: the raw recording that a lot, run or block was heard on, and the second of it at which the entry starts.
#[derive(Clone, Copy, Debug, PartialEq, Eq)]
pub struct Recording {
    pub number: u32,
    pub second: u32,
}

#[derive(Clone, Copy, Debug, PartialEq, Eq)]
pub enum Entry {
    Lot {
        label: u32,
        size: u32,
        d: u32,
        all: u32,
        recording: Recording,
    },
    Run {
        h: u32,
        w: u32,
        recording: Recording,
    },
    Block {
        p: u32,
        w: u32,
        recording: Recording,
    },
    Stop {
        why: u32,
        days: u32,
    },
}

/// A stream's plan, none before Open, and its standing entries, oldest first.
#[derive(Clone, Debug, Default, PartialEq, Eq)]
pub struct Station {
    pub plan: Option<Plan>,
    pub entries: Vec<Entry>,
}

#[derive(Clone, Copy, Debug, Default, PartialEq, Eq)]
pub struct Figures {
    pub credit: u32,
    pub level: u32,
    pub row: u32,
    pub tightened: u32,
    pub window: u32,
    pub c: u32,
    pub phase: u32,
    pub u: u32,
    pub accepted: u64,
}

/// What one entry gave when it was entered.
#[derive(Clone, Copy, Debug, Default, PartialEq, Eq)]
pub struct Given {
    pub verdict: u32,
    pub accepted: u32,
    pub hear_back: u32,
}

/// The figures after these entries, each of which was accepted.
pub fn figures(plan: &Plan, entries: &[Entry]) -> Figures {
    let mut figures = Figures::default();
    if plan.kind == LEVEL {
        figures.level = 1;
    }
    for entry in entries {
        enter(plan, &mut figures, entry);
    }
    figures
}

/// The quotient that a credit stream's sample comes from, for a lot of this size.
pub fn quotient(plan: &Plan, figures: &Figures, size: u32) -> [u128; 2] {
    credit_quotient(plan.a, usable_credit(figures.credit, plan.ceiling), size)
}

/// The sample asked for a lot of this size, the stream being neither continuous nor discontinued.
pub fn sample(plan: &Plan, figures: &Figures, size: u32) -> u32 {
    if plan.kind == CREDIT {
        rounded_up(quotient(plan, figures, size))
    } else {
        level_sample(plan.a, figures.level, size)
    }
}

/// The verdict on a lot with d wrong in its sample, by the figures before it.
pub fn verdict(plan: &Plan, figures: &Figures, d: u32) -> u32 {
    if d == 0 {
        1
    } else if plan.kind == CREDIT && (figures.credit == 0 || plan.option == 1) {
        2
    } else {
        3
    }
}

/// One entry after the figures before it. The entry is taken as acceptable.
pub fn enter(plan: &Plan, figures: &mut Figures, entry: &Entry) -> Given {
    let given = match *entry {
        Entry::Lot { size, d, all, .. } => enter_lot(plan, figures, size, d, all),
        Entry::Run { h, w, .. } => enter_run(plan, figures, h, w),
        Entry::Block { p, w, .. } => enter_block(plan, figures, p, w),
        Entry::Stop { why, days } => enter_stop(plan, figures, why, days),
    };
    figures.accepted += u64::from(given.accepted);
    given
}

fn enter_lot(plan: &Plan, figures: &mut Figures, size: u32, d: u32, all: u32) -> Given {
    let verdict = verdict(plan, figures, d);
    let accepted = match verdict {
        1 => size,
        2 => size - all,
        _ => 0,
    };
    if plan.kind == CREDIT {
        figures.credit = if d == 0 { figures.credit + size } else { 0 };
    } else {
        judge_at_level(plan, figures, d > 0);
    }
    Given {
        verdict,
        accepted,
        hear_back: 0,
    }
}

/// Paper 01, Level lots: the window and the rows, then at most one move, by the level that the lot was judged at.
fn judge_at_level(plan: &Plan, figures: &mut Figures, withheld: bool) {
    figures.window = (figures.window * 2 + u32::from(withheld)) % 32;
    figures.row = if withheld { 0 } else { figures.row + 1 };
    match figures.level {
        0 => {
            if withheld {
                arrive(figures, 1);
            }
        }
        1 => {
            if (0..5).filter(|j| (figures.window >> j) % 2 == 1).count() >= 2 {
                arrive(figures, 2);
            } else if plan.option == 1 && figures.row >= 10 {
                arrive(figures, 0);
            }
        }
        2 => {
            figures.tightened += 1;
            if figures.row >= 5 {
                arrive(figures, 1);
            } else if figures.tightened >= 10 {
                arrive(figures, 3);
            }
        }
        _ => panic!("no lot on discontinued"),
    }
}

fn arrive(figures: &mut Figures, level: u32) {
    figures.level = level;
    figures.row = 0;
    figures.tightened = 0;
}

fn enter_run(plan: &Plan, figures: &mut Figures, h: u32, w: u32) -> Given {
    if w == 1 {
        figures.c = 0;
    } else {
        figures.c += h;
        if figures.c == plan.a {
            figures.c = 0;
            figures.phase = 1;
            figures.u = 0;
        }
    }
    Given {
        accepted: h,
        ..Given::default()
    }
}

fn enter_block(plan: &Plan, figures: &mut Figures, p: u32, w: u32) -> Given {
    if w == 0 {
        figures.u = plan.b - p;
        Given {
            accepted: plan.b,
            ..Given::default()
        }
    } else {
        let hear_back = figures.u + p - 1;
        screen_again(figures);
        Given {
            verdict: 0,
            accepted: p - 1,
            hear_back,
        }
    }
}

fn enter_stop(plan: &Plan, figures: &mut Figures, why: u32, days: u32) -> Given {
    let long = days > 3;
    if plan.kind == LEVEL && figures.level == 0 && (why == 2 || long) {
        arrive(figures, 1);
    }
    if plan.kind == CONTINUOUS && (why == 2 || (long && figures.phase == 1)) {
        screen_again(figures);
    }
    Given::default()
}

fn screen_again(figures: &mut Figures) {
    figures.phase = 0;
    figures.c = 0;
    figures.u = 0;
}
