//! Sample sizes.

/// Document 000, Table 1: the last lot size of each row, and its letters in columns VL-7 to VL-1. Paper 01's row ends differ; the
/// document decides.
const CODE_LETTERS: [(u32, &[u8; 7]); 11] = [
    (170, b"AAAAAAA"),
    (288, b"AAAAAAB"),
    (544, b"AAAAABC"),
    (960, b"AAAABCD"),
    (1_700, b"AAABCDE"),
    (3_072, b"AABCDEE"),
    (5_482, b"ABCDEEE"),
    (9_720, b"BCDEEEE"),
    (17_408, b"CDEEEEE"),
    (30_960, b"DEEEEEE"),
    (u32::MAX, b"EEEEEEE"),
];

/// Document 000, Table 2: columns T, VL-7 to VL-1, R. Here too the document decides over paper 01.
fn table_two(letter: u8) -> [u32; 9] {
    match letter {
        b'A' => [3250, 1290, 512, 200, 80, 32, 12, 5, 3],
        b'B' => [4096, 1625, 645, 256, 100, 40, 16, 6, 3],
        b'C' => [5160, 2048, 810, 320, 128, 50, 20, 8, 3],
        b'D' => [6500, 2580, 1024, 400, 160, 64, 25, 10, 4],
        b'E' => [8192, 3250, 1290, 512, 200, 80, 32, 12, 5],
        _ => panic!("no letter"),
    }
}

fn code_letter(size: u32, vl: u32) -> u8 {
    for (end, letters) in CODE_LETTERS {
        if size <= end {
            return letters[(7 - vl) as usize];
        }
    }
    panic!("the last row has no end")
}

/// The letter is that of the stream's own VL at every level; the level moves the column alone.
pub fn level_sample(vl: u32, level: u32, size: u32) -> u32 {
    let normal = 8 - vl as usize; // VL-7 is column 1, VL-1 column 7
    let column = match level {
        0 => normal + 1,
        1 => normal,
        2 => normal - 1,
        _ => panic!("no sample on discontinued"),
    };
    table_two(code_letter(size, vl))[column].min(size)
}

/// Document 004, clause 10, note 1: the smaller of K and Kmax. Paper 02, card 3: a Kmax of 0 is none, and all of K is usable.
pub fn usable_credit(credit: u32, ceiling: u32) -> u32 {
    if ceiling == 0 {
        credit
    } else {
        credit.min(ceiling)
    }
}

/// Document 004, clause 10, note 1: N / ([min(K, Kmax) + N] a + 1), with a = A millionths, for the usable credit min(K, Kmax): a fraction,
/// of which both parts are taken times a million.
pub fn credit_quotient(a: u32, usable: u32, size: u32) -> [u128; 2] {
    let top = u128::from(size) * 1_000_000;
    let bottom = (u128::from(usable) + u128::from(size)) * u128::from(a) + 1_000_000;
    [top, bottom]
}

/// Clause 10 a): the fraction, rounded up.
pub fn rounded_up([top, bottom]: [u128; 2]) -> u32 {
    let mut n = top / bottom;
    if n * bottom < top {
        n += 1;
    }
    n as u32
}
