//! Rows that a program encoded by itself, damaged within reach: each is read as the message that it
//! came from. Of q = 2 all rows are tried: none has two messages within reach, and those that are
//! refused have none.

use crate::asker::{Asker, Encoded, Reading};
use crate::damage::{damaged_by, Pattern, PATTERNS};
use crate::nearest::nearest_to;
use crate::rows::{number_of_row, row_of_q_2};
use reference::curve::{differing_places, Code};

pub const EVERY_ROW: &str = "rows of q = 2, all for every u: read as the one message within reach, refused if there is none";
pub const DAMAGED: &str = "rows of q = 4, every u, damaged in up to as many places as the reach, in five ways: read as sent";

/// How many rows of q = 2 there are.
const ROWS: usize = 1 << 16;

/// So many rows are damaged by each pattern in as many places as the reach, where mistakes show.
const AT_THE_REACH: usize = 6;

/// Which of the messages is within reach of a row, and in how many places their rows differ.
type Near = Option<(usize, usize)>;

/// For each row of q = 2 by its number, the message within reach; or the number of a row that has two.
fn within_reach(code: &Code, encoded: &[Encoded]) -> Result<Vec<Near>, usize> {
    let zero = row_of_q_2(0);
    let with_count = |number| (number, differing_places(&row_of_q_2(number), &zero));
    let is_near = |&(_, count): &(usize, usize)| count <= code.reach();
    let changes: Vec<_> = (0..ROWS).map(with_count).filter(is_near).collect();
    let mut found = vec![None; ROWS];
    for (which, sent) in encoded.iter().enumerate() {
        for &(change, count) in &changes {
            // Symbols are added bit by bit, so a number's digits are too.
            let row = number_of_row(&sent.row) ^ change;
            if found[row].replace((which, count)).is_some() {
                return Err(row);
            }
        }
    }
    Ok(found)
}

/// All messages of a code of q = 2 are encoded, and of all rows every stride-th is decoded.
pub fn every_row(code: &Code, stride: usize, asker: &mut Asker) -> Option<()> {
    let message = |number| row_of_q_2(number)[..code.k()].to_vec();
    let messages = (0..1 << (2 * code.k())).map(message).collect();
    let encoded = asker.encode(code, messages)?;
    let found = match within_reach(code, &encoded) {
        Ok(found) => found,
        Err(row) => {
            let row = row_of_q_2(row);
            return asker.wrong(format!("{code:?}: two messages within reach of {row:?}"));
        }
    };
    let readings = (0..ROWS).step_by(stride).map(|row| Reading {
        row: row_of_q_2(row),
        near: found[row].map(|(which, count)| (&encoded[which], count)),
    });
    asker.hold(EVERY_ROW, code, readings)
}

/// Every stride-th number of places below the reach, with the patterns by turns, and the reach with
/// all of them.
fn damages(code: &Code, stride: usize) -> Vec<(Pattern, usize)> {
    let turn = |count: usize| (PATTERNS[(code.u + count) % PATTERNS.len()], count);
    let below = (0..code.reach()).step_by(stride).map(turn);
    let border = PATTERNS.map(|pattern| (pattern, code.reach()));
    below.chain(border.repeat(AT_THE_REACH)).collect()
}

/// Random messages of a code are encoded, damaged, and decoded.
pub fn damaged_rows(code: &Code, stride: usize, asker: &mut Asker) -> Option<()> {
    let damages = damages(code, stride);
    let random = &mut asker.random;
    let sent: Vec<_> = damages.iter().map(|_| random.message(code)).collect();
    let others = sent.iter().map(|message| nearest_to(message, code, random));
    let others = others.collect();
    let (sent, others) = (asker.encode(code, sent)?, asker.encode(code, others)?);
    let mut readings = Vec::new();
    for ((&damage, sent), other) in damages.iter().zip(&sent).zip(&others) {
        let places = differing_places(&sent.row, &other.row);
        if places != code.distance() {
            let message = &sent.message;
            asker.wrong(format!(
                "{code:?}: the row nearest to that of {message:?} differs in {places} places"
            ))?;
        }
        let row = damaged_by(damage, code, &sent.row, &other.row, &mut asker.random);
        let near = Some((sent, damage.1));
        readings.push(Reading { row, near });
    }
    asker.hold(DAMAGED, code, readings.into_iter())
}
