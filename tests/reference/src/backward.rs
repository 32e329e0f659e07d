//! Paper 01's backward rules: figures read off the standing entries without going through them in their order.

use crate::station::{Entry, Plan};

/// "K is the sum of N over the standing lots after the last with d > 0, over all of them without one."
pub fn backward_credit(entries: &[Entry]) -> u32 {
    let mut sum = 0;
    for entry in entries.iter().rev() {
        if let Entry::Lot { size, d, .. } = entry {
            if *d > 0 {
                break;
            }
            sum += size;
        }
    }
    sum
}

/// "bit j of byte 23, j from 0 to 4, is 1 exactly when more than j lots stand and the one j before the newest has d > 0; its other
/// bits are 0."
pub fn backward_window(entries: &[Entry]) -> u32 {
    let mut wrongs = Vec::new();
    for entry in entries {
        if let Entry::Lot { d, .. } = entry {
            wrongs.push(*d);
        }
    }
    let mut byte = 0;
    for j in 0..5 {
        if wrongs.len() > j && wrongs[wrongs.len() - 1 - j] > 0 {
            byte += 1 << j;
        }
    }
    byte
}

/// "Where the sum is i, the phase is 1 and c is 0; else the phase is 0 and c is the sum."
pub fn backward_phase(plan: &Plan, entries: &[Entry]) -> u32 {
    u32::from(right_since_breaker(plan, entries) == plan.a)
}

pub fn backward_c(plan: &Plan, entries: &[Entry]) -> u32 {
    let sum = right_since_breaker(plan, entries);
    if sum == plan.a {
        0
    } else {
        sum
    }
}

/// "In phase 1, u is g − p of the last block after the last breaker, or of the last of all blocks where there is no breaker, and 0
/// where there is no such block; in phase 0, u is 0."
pub fn backward_tail(plan: &Plan, entries: &[Entry]) -> u32 {
    if backward_phase(plan, entries) == 0 {
        return 0;
    }
    for entry in entries[after_breaker(&breakers(plan, entries))..].iter().rev() {
        if let Entry::Block { p, .. } = entry {
            return plan.b - p;
        }
    }
    0
}

/// "add up h of the runs after the last breaker, of all runs without one"
fn right_since_breaker(plan: &Plan, entries: &[Entry]) -> u32 {
    sum_h(&entries[after_breaker(&breakers(plan, entries))..])
}

fn sum_h(entries: &[Entry]) -> u32 {
    let mut sum = 0;
    for entry in entries {
        if let Entry::Run { h, .. } = entry {
            sum += h;
        }
    }
    sum
}

/// The place after the last breaker, 0 without one.
fn after_breaker(breakers: &[bool]) -> usize {
    breakers.iter().rposition(|is| *is).map_or(0, |last| last + 1)
}

/// Which entries are breakers; "met in sampling" is read the same way from the entries before.
fn breakers(plan: &Plan, entries: &[Entry]) -> Vec<bool> {
    let mut breakers = Vec::new();
    for (k, entry) in entries.iter().enumerate() {
        let is = match *entry {
            Entry::Run { w, .. } | Entry::Block { w, .. } => w == 1,
            Entry::Stop { why, days } => {
                let sampling = sum_h(&entries[after_breaker(&breakers)..k]) == plan.a;
                why == 2 || (days > 3 && sampling)
            }
            Entry::Lot { .. } => false,
        };
        breakers.push(is);
    }
    breakers
}
