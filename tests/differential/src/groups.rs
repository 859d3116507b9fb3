//! The groups of cases, and how many of each are tried.

use crate::blocks::{damaged_block, forbidden_count, other_header, random_bytes, refused_block};
use crate::case::Case;
use crate::lengths::long_length;
use crate::passing::pass_on_case;
use crate::refusals::row_call;
use crate::rows::{
    around, codes_and_damages, codes_and_steps, damaged, decode_case, encode_case, garbage,
    row_of_q_2, stop_case, thin_borders,
};
use crate::writes::{refused_write, write_case};
use reference::block::MOST_ROWS;
use reference::samples::{all_codes, Random};

/// Cases of one kind. A case is made from its index and a generator seeded for it alone.
pub struct Group {
    pub name: &'static str,
    pub count: usize,
    pub make: fn(usize, &mut Random) -> Case,
}

/// The largest blocks come first, so that all threads end together.
const BLOCK_ROWS: [usize; 12] = [1024, 1023, 513, 300, 257, 256, 255, 129, 128, 100, 33, 16];

/// Every group, the quick ones first: most planted mistakes are then found by few cases. The reference
/// takes about 1.5 ms for a row of q = 4, and the counts are such that all groups end within a minute
/// on two processors.
pub fn all_groups() -> Vec<Group> {
    vec![
        Group {
            name: "stop: q = 2, every u, every number of steps",
            count: 120 * codes_and_steps(2).len(),
            make: |index, random| stopped_row(2, index, random),
        },
        Group {
            name: "encode: q = 2 and q = 4, every u",
            count: 6_000,
            make: |index, random| {
                let code = around(&all_codes(around(&[2, 4, 4], index)), index / 3);
                encode_case(&code, random.message(&code), random)
            },
        },
        Group {
            name: "refusals 1 to 7: every call, every set of wrongs",
            count: 512 * 24,
            make: row_call,
        },
        Group {
            name: "lengths of 2^32 and more: every call, every area",
            count: 12 * 12 * 10,
            make: long_length,
        },
        Group {
            name: "pass on: every q, rows of every length around n, after every answer",
            count: 4 * 9 * 40,
            make: pass_on_case,
        },
        Group {
            name: "write: refusals 10 and 7, every set of wrongs",
            count: 4 * 11 * 30,
            make: refused_write,
        },
        Group {
            name: "write: 1 to 64 rows, numbers of rows around every 128th, others",
            count: 64 + 3 * 8 + 40,
            make: |index, random| write_case(rows_to_write(index, random), random),
        },
        Group {
            name: "verify: every other byte in each place of the header",
            count: 8 * 255,
            make: other_header,
        },
        Group {
            name: "verify: counts of rows that are not allowed",
            count: 20,
            make: forbidden_count,
        },
        Group {
            name: "verify: refusals 9, 10, 11, 6, every set of wrongs",
            count: 16 * 100,
            make: refused_block,
        },
        Group {
            name: "verify: random bytes as blocks",
            count: 1_500,
            make: |_, random| random_bytes(random),
        },
        Group {
            name: "verify: blocks of 1 to 15 rows with damage",
            count: 120,
            make: |index, random| damaged_block(1 + index % 15, random),
        },
        Group {
            name: "decode: every row of q = 2, every u",
            count: 6 << 16,
            make: |index, random| {
                let code = around(&all_codes(2), index >> 16);
                decode_case(&code, row_of_q_2(index & 0xffff), random)
            },
        },
        Group {
            name: "decode: rows of q = 4, every u, 0 to reach + 2 places damaged",
            count: 6 * codes_and_damages(4).len(),
            make: |index, random| damaged_row(4, index, random),
        },
        Group {
            name: "decode: rows of q = 4, u from 48 on, the reach and one place more damaged",
            count: 13 * thin_borders().len(),
            make: |index, random| {
                let (code, places) = around(&thin_borders(), index);
                decode_case(&code, damaged(&code, places, random), random)
            },
        },
        Group {
            name: "decode: garbage rows of q = 4, every u",
            count: 50 * all_codes(4).len(),
            make: |index, random| garbage_row(4, index, random),
        },
        Group {
            name: "stop: q = 4, every u, every number of steps",
            count: codes_and_steps(4).len(),
            make: |index, random| stopped_row(4, index, random),
        },
        Group {
            name: "verify: blocks of up to 1,024 rows with damage",
            count: BLOCK_ROWS.len(),
            make: |index, random| damaged_block(BLOCK_ROWS[index], random),
        },
    ]
}

/// The numbers of rows at which a byte of the header changes are among them.
fn rows_to_write(index: usize, random: &mut Random) -> usize {
    match index {
        0..=63 => index + 1,
        64..=87 => (128 * (1 + (index - 64) / 3) + index % 3 - 1).min(MOST_ROWS),
        _ => 1 + random.below(MOST_ROWS),
    }
}

fn damaged_row(q: u64, index: usize, random: &mut Random) -> Case {
    let (code, places) = around(&codes_and_damages(q), index);
    let row = damaged(&code, places, random);
    decode_case(&code, row, random)
}

fn garbage_row(q: u64, index: usize, random: &mut Random) -> Case {
    let code = around(&all_codes(q), index);
    let row = garbage(&code, random);
    decode_case(&code, row, random)
}

/// Half of the rows are a message's with damage, half are garbage.
fn stopped_row(q: u64, index: usize, random: &mut Random) -> Case {
    let (code, steps) = around(&codes_and_steps(q), index);
    let row = if random.below(2) == 0 {
        garbage(&code, random)
    } else {
        let places = random.below(code.reach() + 3);
        damaged(&code, places, random)
    };
    stop_case(&code, steps, row, random)
}
