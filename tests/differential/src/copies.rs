//! Blocks that a program wrote, damaged, and verified by it: copied exactly if every row is within
//! reach of the row that its part of the payload becomes. What must come is counted from rows that
//! the program encoded; none is decoded for it.

use crate::asker::{Asker, Done, Encoded};
use crate::blocks::{tape, verify_case};
use crate::damage::{damaged_by, Pattern};
use crate::nearest::nearest_to;
use crate::writes::{block_bytes, write_case};
use reference::block::{pack, unpack, EQUAL, OTHER_MESSAGE, PAYLOAD_BYTES, ROW_BYTES, UNREADABLE};
use reference::curve::differing_places;
use reference::samples::Random;

pub const COPIES: &str = "blocks written, damaged and verified: copied exactly if every row is within reach of its message";

const HEADER_BYTES: usize = 8;

/// What befalls a block. All rows are damaged within reach, but for one that the fate is about.
#[derive(Clone, Copy, Debug, PartialEq, Eq)]
pub enum Fate {
    WithinReach,
    /// The row is damaged in 10 to 12 places.
    Beyond,
    /// The row is damaged in 10 places towards another message, which is then within reach.
    OtherMessage,
    /// The row's part of the payload is another in one byte.
    OtherByte,
}

/// A block of so many rows, and what befalls it.
pub type Block = (usize, Fate);

/// Every stride-th of the blocks, the long one first.
pub fn blocks(stride: usize) -> Vec<Block> {
    let fates = [
        Fate::WithinReach,
        Fate::Beyond,
        Fate::OtherMessage,
        Fate::OtherByte,
    ];
    let short = (0..80).map(|number| (1 + number % 5, fates[number % fates.len()]));
    let all = [(300, Fate::WithinReach)].into_iter().chain(short);
    all.step_by(stride).collect()
}

/// Often as many places as can still be read, often towards another message.
fn damage_within(random: &mut Random) -> (Pattern, usize) {
    let reach = tape().reach();
    let count = match random.below(3) {
        0 => reach,
        _ => random.below(reach + 1),
    };
    let patterns = [Pattern::Scattered, Pattern::Towards];
    (patterns[random.below(2)], count)
}

fn damage_row(packed: &mut [u8], fate: Fate, other: &Encoded, random: &mut Random) {
    let beyond = tape().reach() + 1;
    let damage = match fate {
        Fate::Beyond => (Pattern::Scattered, beyond + random.below(3)),
        Fate::OtherMessage => (Pattern::Towards, beyond),
        Fate::WithinReach | Fate::OtherByte => damage_within(random),
    };
    let row = unpack(packed);
    let damaged = damaged_by(damage, &tape(), &row, &other.row, random);
    packed.copy_from_slice(&pack(&damaged));
}

/// A payload and its block after what befell them, and for each row the messages that may be within
/// reach of it, the payload's first.
struct Spoiled {
    payload: Vec<u8>,
    block: Vec<u8>,
    known: Vec<[Encoded; 3]>,
}

/// The messages of a payload with their rows, as the program encodes them.
fn encoded_payload(payload: &[u8], asker: &mut Asker) -> Option<Vec<Encoded>> {
    let messages = payload.chunks(PAYLOAD_BYTES).map(unpack).collect();
    asker.encode(&tape(), messages)
}

/// For each message one that is as near as any is.
fn nearest_of(sent: &[Encoded], asker: &mut Asker) -> Option<Vec<Encoded>> {
    let random = &mut asker.random;
    let nearest = |sent: &Encoded| nearest_to(&sent.message, &tape(), random);
    let messages = sent.iter().map(nearest).collect();
    asker.encode(&tape(), messages)
}

/// A payload of so many rows with the block that the program writes of it, and its messages.
fn written(rows: usize, asker: &mut Asker) -> Option<(Vec<u8>, Vec<u8>, Vec<Encoded>)> {
    let case = write_case(rows, &mut asker.random);
    let done = asker.ask_one(&case)?;
    let block = done.area(1, block_bytes(rows)).to_vec();
    let payload = case.areas[0].clone();
    let sent = encoded_payload(&payload, asker)?;
    let packed: Vec<u8> = sent.iter().flat_map(|sent| pack(&sent.row)).collect();
    if block[HEADER_BYTES..] != packed {
        asker.wrong(format!("a block of {rows} rows has not the payload's rows"))?;
    }
    Some((payload, block, sent))
}

/// The program writes a block, and its fate befalls it.
fn spoiled(&(rows, fate): &Block, asker: &mut Asker) -> Option<Spoiled> {
    let (mut payload, mut block, sent) = written(rows, asker)?;
    let others = nearest_of(&sent, asker)?;
    let random = &mut asker.random;
    let spoiled = random.below(rows);
    for (r, packed) in block[HEADER_BYTES..].chunks_mut(ROW_BYTES).enumerate() {
        let fate = if r == spoiled {
            fate
        } else {
            Fate::WithinReach
        };
        damage_row(packed, fate, &others[r], random);
    }
    if fate == Fate::OtherByte {
        let byte = PAYLOAD_BYTES * spoiled + random.below(PAYLOAD_BYTES);
        payload[byte] ^= 1 + random.below(255) as u8;
    }
    let claimed = encoded_payload(&payload, asker)?.into_iter();
    let known = claimed.zip(sent).zip(others);
    let known = known.map(|((claimed, sent), other)| [claimed, sent, other]);
    Some(Spoiled {
        payload,
        block,
        known: known.collect(),
    })
}

/// State and count of a row; nothing if none of the known messages is within reach.
type Record = Option<[u8; 2]>;

fn record_of(packed: &[u8], known: &[Encoded; 3]) -> Record {
    let row = unpack(packed);
    let count = |encoded: &Encoded| differing_places(&row, &encoded.row);
    let counts: Vec<usize> = known.iter().map(count).collect();
    let which = counts.iter().position(|&count| count <= tape().reach())?;
    let state = if which == 0 { EQUAL } else { OTHER_MESSAGE };
    Some([state, counts[which] as u8])
}

/// Whether the answer and the records are right. A row that has no known message within reach is not
/// equal; no more is known of it.
fn is_right(verified: &Done, wanted: &[Record]) -> bool {
    let told: Vec<&[u8]> = verified.area(2, 2 * wanted.len()).chunks(2).collect();
    let is_recorded = |r: usize| match wanted[r] {
        Some(record) => told[r] == record,
        None => told[r][0] == OTHER_MESSAGE || told[r] == [UNREADABLE, 0],
    };
    let is_equal = |record: &Record| matches!(record, Some([EQUAL, _]));
    let counts = wanted.iter().flatten().map(|record| u64::from(record[1]));
    let answer = match wanted.iter().position(|record| !is_equal(record)) {
        None => (0, counts.sum()),
        // The answers have the numbers of the states.
        Some(r) => (i64::from(told[r][0]), r as u64),
    };
    (0..wanted.len()).all(is_recorded) && (verified.result(), verified.at()) == answer
}

/// A block is written, damaged and verified.
pub fn copied_block(block: &Block, asker: &mut Asker) -> Option<()> {
    let spoiled = spoiled(block, asker)?;
    let rows = spoiled.block[HEADER_BYTES..].chunks(ROW_BYTES);
    let pairs = rows.zip(&spoiled.known);
    let wanted: Vec<Record> = pairs
        .map(|(packed, known)| record_of(packed, known))
        .collect();
    let (rows, fate) = *block;
    let case = verify_case(spoiled.block, spoiled.payload, rows, &mut asker.random);
    let verified = asker.ask_one(&case)?;
    asker.tried += 1;
    if is_right(&verified, &wanted) {
        return Some(());
    }
    asker.wrong(format!(
        "in a block of {rows} rows, {fate:?}, the records are to be {wanted:?}"
    ))
}
