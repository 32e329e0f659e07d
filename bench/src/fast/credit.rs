//! Credit streams: paper 01, "Credit lots".

use super::area::*;

#[derive(Clone, Copy)]
pub struct Credit {
    pub credit: u32,
    pub accepted: u64,
    pub newest: u64,
}

impl Credit {
    // A sample is over / under, rounded up.
    fn over_under(credit: u32, plan: &Plan, size: u32) -> (u64, u64) {
        (size as u64 * 1_000_000, (credit + size) as u64 * plan.a as u64 + 1_000_000)
    }

    pub fn sample(&self, plan: &Plan, size: u32) -> u32 {
        let (over, under) = Self::over_under(self.credit, plan, size);
        over.div_ceil(under) as u32
    }

    // Whether n is the sample: (n - 1) × under < over ≤ n × under, in place of a division.
    pub fn asks_for(&self, plan: &Plan, size: u32, n: u32) -> bool {
        let (over, under) = Self::over_under(self.credit, plan, size);
        n != 0 && product(n - 1, under) < over as u128 && over as u128 <= product(n, under)
    }

    pub fn verdict(credit: u32, plan: &Plan, wrong: u32) -> u32 {
        if wrong == 0 {
            1
        } else if credit == 0 || plan.option == 1 {
            2
        } else {
            3
        }
    }

    // What is accepted of a lot with something wrong, if it fits: out of the replay's way, which keeps its figures in registers.
    #[inline(never)]
    fn accepted_of_wrong(credit: u32, plan: &Plan, size: u32, wrong: u32, all: u32) -> Option<u32> {
        let (over, under) = Self::over_under(credit, plan, size);
        // wrong ≤ sample
        if wrong == 0 || product(wrong - 1, under) >= over as u128 {
            return None;
        }
        if Self::verdict(credit, plan, wrong) == 3 {
            return (all == wrong).then_some(0);
        }
        // wrong ≤ all ≤ size - sample + wrong
        if all < wrong || all > size || (over as u128) > product(size + wrong - all, under) {
            return None;
        }
        Some(size - all)
    }
}

fn product(n: u32, under: u64) -> u128 {
    n as u128 * under as u128
}

impl Figures for Credit {
    fn is_valid(plan: &Plan) -> bool {
        plan.is_for_lots(500_000)
    }

    fn start(_: &Plan) -> Self {
        Credit {
            credit: 0,
            accepted: 0,
            newest: NO_LABEL,
        }
    }

    #[inline(always)]
    fn enter(&mut self, plan: &Plan, record: &Record) -> bool {
        if get_u32(record, 0) != LOT {
            return is_stop(record);
        }
        let (label, size) = (get_u32(record, 4), get_u32(record, 8));
        if size.wrapping_sub(1) >= MOST_SIZE || label as u64 == self.newest {
            return false;
        }
        self.newest = label as u64;
        // A lot with nothing wrong needs no sample.
        if get_u64(record, 12) != 0 {
            let Some(accepted) = Self::accepted_of_wrong(self.credit, plan, size, get_u32(record, 12), get_u32(record, 16)) else {
                return false;
            };
            self.accepted += accepted as u64;
            self.credit = 0;
            return true;
        }
        self.credit += size;
        self.accepted += size as u64;
        true
    }

    fn words(&self, _: &Plan) -> [u64; 3] {
        [self.credit as u64, 0, self.accepted]
    }
}
