//! What the reference answers and leaves for a case, as the layer's C interface tells it.

use crate::case::{Call, Case, Outcome};
use reference::block::{verify, write, Record, Verdict};
use reference::calls::{decode, encode, pass_on, stop};

/// The answer of a call that tells only that it is done.
fn done_or_refused(answer: Result<(), u8>) -> i64 {
    match answer {
        Ok(()) => 0,
        Err(refusal) => -i64::from(refusal),
    }
}

/// The answer of a call that tells a number when it is done.
fn number_or_refused(answer: Result<u64, u8>) -> i64 {
    match answer {
        Ok(number) => number as i64,
        Err(refusal) => -i64::from(refusal),
    }
}

/// Runs the reference on a copy of the areas. An area that must be exactly so long and is told to be
/// far longer is one byte too long for the reference, which has no such area: every length but the
/// right one is refused alike. One that must be at least so long is long enough as it is.
pub fn expected(case: &Case) -> Outcome {
    let mut areas = case.areas.clone();
    let longer = case.told.filter(|&(area, _)| case.call.areas()[area].1);
    if let Some((area, _)) = longer {
        areas[area].push(0);
    }
    let mut outcome = run(&case.call, areas);
    if let Some((area, _)) = longer {
        outcome.areas[area].pop();
    }
    outcome
}

fn run(call: &Call, mut areas: Vec<Vec<u8>>) -> Outcome {
    let (result, place) = match (call, &mut areas[..]) {
        (&Call::Encode { q, u }, [message, row]) => {
            (done_or_refused(encode(q, u, message, row)), None)
        }
        (&Call::Stop { q, u, steps }, [row, work, votes]) => {
            (done_or_refused(stop(q, u, steps, row, work, votes)), None)
        }
        (&Call::Decode { q, u }, [row, work, message, corrected]) => {
            let answer = decode(q, u, row, work, message, corrected);
            (number_or_refused(answer), None)
        }
        (&Call::Verify { at }, [block, payload, records, work]) => {
            let (result, at) = verified(block, payload, records, work, at);
            (result, Some((0, at)))
        }
        (Call::Write, [payload, block]) => {
            let answer = write(payload, block).map(|length| length as u64);
            (number_or_refused(answer), None)
        }
        (&Call::PassOn { q, decoded, .. }, [received, corrected]) => {
            let (length, from) = passed_on(q, decoded, received, corrected);
            (length, Some((2, from)))
        }
        (call, areas) => panic!("{:?} does not take {} areas", call, areas.len()),
    };
    Outcome {
        result,
        place,
        areas,
    }
}

/// How long the part is, and the number of the row that it starts with: an empty part starts there too.
fn passed_on(q: u64, decoded: i64, received: &[u8], corrected: &[u8]) -> (i64, u64) {
    let accepted = decoded >= 0;
    let part = pass_on(q, accepted, received, corrected);
    let row = if accepted { corrected } else { received };
    assert!(part.is_empty() || part.as_ptr() == row.as_ptr());
    (part.len() as i64, accepted.into())
}

/// A record is two bytes, state and count; a last odd byte belongs to no record.
fn verified(
    block: &[u8],
    payload: &[u8],
    record_bytes: &mut [u8],
    work: &mut [u8],
    at: u64,
) -> (i64, u64) {
    let mut records: Vec<Record> = record_bytes
        .chunks_exact(2)
        .map(|pair| Record {
            state: pair[0],
            count: pair[1].into(),
        })
        .collect();
    let verdict = verify(block, payload, &mut records, work);
    for (pair, record) in record_bytes.chunks_exact_mut(2).zip(&records) {
        pair[0] = record.state;
        pair[1] = u8::try_from(record.count).expect("a count is at most the reach");
    }
    match verdict {
        Verdict::Copied(total) => (0, total),
        Verdict::Differs(row) => (1, row as u64),
        Verdict::Unreadable(row) => (2, row as u64),
        Verdict::Refused(refusal) => (-i64::from(refusal), at),
    }
}
