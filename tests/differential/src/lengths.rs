//! Cases in which one area is told to have 2^32 bytes and more, so that a length that is cut to 32 bits
//! shows: an area that must be exactly so long has the right length in these bits, one that must be at
//! least so long has hardly any.

use crate::blocks::damaged_block;
use crate::case::Case;
use crate::passing::full_rows;
use crate::rows::{around, damaged, decode_case, encode_case, stop_case};
use crate::writes::write_case;
use reference::samples::{all_codes, Random};
use reference::steps::step_count;

const LONG: u64 = 1 << 32;

/// A call that is done, or refused by 8, as long as its lengths are as they are.
fn whole_case(index: usize, random: &mut Random) -> Case {
    let codes = all_codes(around(&[2, 4], index / 6));
    let code = codes[random.below(codes.len())];
    match index % 6 {
        0 => encode_case(&code, random.message(&code), random),
        1 => {
            let steps = random.below(step_count(code.q()) + 1);
            let row = damaged(&code, 1, random);
            stop_case(&code, steps, row, random)
        }
        2 => {
            let row = damaged(&code, 1, random);
            decode_case(&code, row, random)
        }
        3 => damaged_block(1 + random.below(2), random),
        4 => write_case(1 + random.below(3), random),
        _ => full_rows(index, random),
    }
}

/// Each area of each call in turn.
pub fn long_length(index: usize, random: &mut Random) -> Case {
    let mut case = whole_case(index, random);
    let area = index / 12 % case.areas.len();
    let told = match case.call.areas()[area].1 {
        true => LONG + case.areas[area].len() as u64,
        false => LONG + random.below(2) as u64,
    };
    case.told = Some((area, told));
    case
}
