//! Continuous streams: paper 01, "Continuous".

use super::area::*;

#[derive(Clone, Copy)]
pub struct Continuous {
    // To be screened until clearance, i - c; 0 in sampling, so that no run fits there.
    pub left: u32,
    pub tail: u32,
    pub accepted: u64,
}

impl Continuous {
    pub fn phase(&self) -> u32 {
        (self.left == 0) as u32
    }

    pub fn screen(&mut self, plan: &Plan) {
        self.left = plan.a;
        self.tail = 0;
    }
}

impl Figures for Continuous {
    fn is_valid(plan: &Plan) -> bool {
        plan.is_continuous()
    }

    fn start(plan: &Plan) -> Self {
        Continuous {
            left: plan.a,
            tail: 0,
            accepted: 0,
        }
    }

    #[inline(always)]
    fn enter(&mut self, plan: &Plan, record: &Record) -> bool {
        let number = get_u32(record, 4);
        if get_u64(record, 8) | get_u32(record, 16) as u64 != 0 {
            return false;
        }
        match get_u32(record, 0) {
            RUN => {
                if number.wrapping_sub(1) >= self.left {
                    return false;
                }
                self.left -= number;
                self.accepted += number as u64;
            }
            RUN_WRONG => {
                if number >= self.left {
                    return false;
                }
                self.left = plan.a;
                self.accepted += number as u64;
            }
            BLOCK => {
                if self.left != 0 || number.wrapping_sub(1) >= plan.b {
                    return false;
                }
                self.tail = plan.b - number;
                self.accepted += plan.b as u64;
            }
            BLOCK_WRONG => {
                if self.left != 0 || number.wrapping_sub(1) >= plan.b {
                    return false;
                }
                self.accepted += number as u64 - 1;
                self.screen(plan);
            }
            PAUSE => {
                if number > LONGEST_PAUSE {
                    return false;
                }
                if number > SHORT_PAUSE && self.left == 0 {
                    self.screen(plan);
                }
            }
            CHANGE => {
                if number != 0 {
                    return false;
                }
                self.screen(plan);
            }
            _ => return false,
        }
        true
    }

    fn words(&self, plan: &Plan) -> [u64; 3] {
        let screening = if self.left == 0 {
            1 << 32
        } else {
            (plan.a - self.left) as u64
        };
        [0, screening | (self.tail as u64) << 48, self.accepted]
    }
}
