//! Level streams: paper 01, "Level lots".

use super::area::*;

const REDUCED: u32 = 0;
const NORMAL: u32 = 1;
const TIGHTENED: u32 = 2;
const DISCONTINUED: u32 = 3;

#[derive(Clone, Copy)]
pub struct Level {
    pub level: u32,
    pub row: u32,
    pub judged: u32,
    pub window: u32,
    pub accepted: u64,
    pub newest: u64,
}

impl Level {
    pub fn goes_on(&self) -> Result<(), u32> {
        if self.level == DISCONTINUED {
            return Err(8);
        }
        Ok(())
    }

    pub fn arrive(&mut self, level: u32) {
        self.level = level;
        self.row = 0;
        self.judged = 0;
    }
}

impl Figures for Level {
    fn is_valid(plan: &Plan) -> bool {
        plan.is_for_lots(7)
    }

    fn start(_: &Plan) -> Self {
        Level {
            level: NORMAL,
            row: 0,
            judged: 0,
            window: 0,
            accepted: 0,
            newest: NO_LABEL,
        }
    }

    #[inline(always)]
    fn enter(&mut self, plan: &Plan, record: &Record) -> bool {
        if self.level == DISCONTINUED {
            return false;
        }
        if get_u32(record, 0) != LOT {
            if self.level == REDUCED && (get_u32(record, 0) == CHANGE || get_u32(record, 4) > SHORT_PAUSE) {
                self.arrive(NORMAL);
            }
            return is_stop(record);
        }
        let (label, size) = (get_u32(record, 4), get_u32(record, 8));
        if size.wrapping_sub(2) >= MOST_SIZE - 1 || label as u64 == self.newest {
            return false;
        }
        self.newest = label as u64;
        if get_u64(record, 12) == 0 {
            self.accepted += size as u64;
            self.window = self.window << 1 & 31;
            self.row += 1;
            if self.level == NORMAL {
                // No good lot brings two withheld ones into the window.
                if self.row >= 10 && plan.option == 1 {
                    self.arrive(REDUCED);
                }
            } else if self.level == TIGHTENED {
                self.judged += 1;
                if self.row == 5 {
                    self.arrive(NORMAL);
                } else if self.judged == 10 {
                    self.arrive(DISCONTINUED);
                }
            }
            return true;
        }
        let (wrong, all) = (get_u32(record, 12), get_u32(record, 16));
        if wrong != all || wrong > level_sample(plan.a, self.level, size) {
            return false;
        }
        self.window = (self.window << 1 | 1) & 31;
        self.row = 0;
        if self.level == NORMAL {
            if self.window != 1 {
                self.arrive(TIGHTENED);
            }
        } else if self.level == TIGHTENED {
            self.judged += 1;
            if self.judged == 10 {
                self.arrive(DISCONTINUED);
            }
        } else {
            self.arrive(NORMAL);
        }
        true
    }

    fn words(&self, _: &Plan) -> [u64; 3] {
        let state = self.level | self.row << 8 | self.judged << 16 | self.window << 24;
        [(state as u64) << 32, 0, self.accepted]
    }
}

// Document 000, Table 1: the last lot size of each row but the last. From row to row the letter of VL-1 goes on by one, A to E;
// that of each further VL follows one row later.
pub const ROW_ENDS: [u32; 10] = [170, 288, 544, 960, 1_700, 3_072, 5_482, 9_720, 17_408, 30_960];

// Document 000, Table 2: rows A to E, columns T, VL-7 to VL-1, R.
pub const SAMPLE_SIZES: [[u32; 9]; 5] = [
    [3250, 1290, 512, 200, 80, 32, 12, 5, 3],
    [4096, 1625, 645, 256, 100, 40, 16, 6, 3],
    [5160, 2048, 810, 320, 128, 50, 20, 8, 3],
    [6500, 2580, 1024, 400, 160, 64, 25, 10, 4],
    [8192, 3250, 1290, 512, 200, 80, 32, 12, 5],
];

// The sample on a level from reduced to tightened.
#[inline(never)]
pub fn level_sample(vl: u32, level: u32, size: u32) -> u32 {
    let row = ROW_ENDS.iter().filter(|end| size > **end).count();
    let letter = (row + 1).saturating_sub(vl as usize).min(4);
    let column = (9 - vl - level) as usize;
    SAMPLE_SIZES[letter][column.min(8)].min(size)
}
