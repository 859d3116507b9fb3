//! One call of the layer with all that is lent to it, and the bytes of its request.

use reference::samples::Random;
use std::ops::Range;

/// The call and its numbers.
#[derive(Clone, Debug)]
pub enum Call {
    Encode {
        q: u64,
        u: u64,
    },
    Stop {
        q: u64,
        u: u64,
        steps: u64,
    },
    Decode {
        q: u64,
        u: u64,
    },
    /// `at` is what the place for the total or the row holds before the call.
    Verify {
        at: u64,
    },
    Write,
    /// `from` is what the place for the row that is passed on holds before the call.
    PassOn {
        q: u64,
        decoded: i64,
        from: u64,
    },
}

impl Call {
    /// The harness's number for the call, and the numbers it is told.
    fn numbers(&self) -> (u64, [u64; 3]) {
        match *self {
            Call::Encode { q, u } => (1, [q, u, 0]),
            Call::Stop { q, u, steps } => (2, [q, u, steps]),
            Call::Decode { q, u } => (3, [q, u, 0]),
            Call::Verify { at } => (4, [at, 0, 0]),
            Call::Write => (5, [0, 0, 0]),
            Call::PassOn { q, decoded, from } => (6, [q, decoded as u64, from]),
        }
    }

    /// The areas that the call takes, in their order, and whether each must be exactly so long.
    pub fn areas(&self) -> &'static [(&'static str, bool)] {
        match self {
            Call::Encode { .. } => &[("message", true), ("row", false)],
            Call::Stop { .. } => &[("row", true), ("work", false), ("votes", false)],
            Call::Decode { .. } => &[
                ("row", true),
                ("work", false),
                ("message", false),
                ("corrected", false),
            ],
            Call::Verify { .. } => &[
                ("block", true),
                ("payload", true),
                ("records", false),
                ("work", false),
            ],
            Call::Write => &[("payload", true), ("block", false)],
            Call::PassOn { .. } => &[("received", false), ("corrected", false)],
        }
    }
}

/// A call and what its areas hold before it, in the order in which the call takes them.
#[derive(Clone, Debug)]
pub struct Case {
    pub call: Call,
    pub areas: Vec<Vec<u8>>,
    /// An area that the call is told to be longer than it is, and how long.
    pub told: Option<(usize, u64)>,
}

impl Case {
    pub fn of(call: Call, areas: Vec<Vec<u8>>) -> Case {
        Case {
            call,
            areas,
            told: None,
        }
    }
}

/// What a call answers, and what its areas hold after it.
pub struct Outcome {
    pub result: i64,
    /// Which of the numbers is a place that the call may write to, and what it holds after the call.
    pub place: Option<(usize, u64)>,
    pub areas: Vec<Vec<u8>>,
}

impl Outcome {
    /// Whether nothing at all may be written: every refusal but 8, which clears the work area.
    fn writes_nothing(&self) -> bool {
        self.result < 0 && self.result != -8
    }
}

/// The body of a request as the harness reads it: the call's number, three numbers, where the areas
/// stand during the call, their lengths as told, four areas' places, then guard bytes with the areas
/// among them.
pub struct Body {
    pub bytes: Vec<u8>,
    places: Vec<Range<usize>>,
}

const AREAS: usize = 4;
const NUMBERS: usize = 8;
const PLACING: usize = NUMBERS + 3 * 8;
const TOLD: usize = PLACING + 8;
const AREA_PLACES: usize = TOLD + AREAS * 8;
const HEADER_BYTES: usize = AREA_PLACES + AREAS * 8;

const IN_THE_BODY: u64 = 0;
const READ_ONLY: u64 = 1;
const BEFORE_A_GUARD: u64 = 2;
const BEHIND_A_GUARD: u64 = 3;

/// Where the areas stand: a call that may write nothing meets pages that it cannot write to; an area
/// that is told to be long has what it lacks behind it.
fn placing(case: &Case, outcome: &Outcome, random: &mut Random) -> u64 {
    let choice = random.below(3);
    match (case.told, outcome.writes_nothing()) {
        (Some(_), _) => BEHIND_A_GUARD,
        (None, true) => [READ_ONLY, READ_ONLY, BEFORE_A_GUARD][choice],
        (None, false) => [IN_THE_BODY, BEFORE_A_GUARD, BEHIND_A_GUARD][choice],
    }
}

impl Body {
    /// The areas stand at places that no rule of alignment likes, with random guards around them.
    pub fn of(case: &Case, outcome: &Outcome, random: &mut Random) -> Body {
        let (call, numbers) = case.call.numbers();
        let mut body = Body {
            bytes: vec![0; HEADER_BYTES],
            places: Vec::new(),
        };
        body.put(0, call);
        for (which, number) in numbers.into_iter().enumerate() {
            body.put(NUMBERS + 8 * which, number);
        }
        body.put(PLACING, placing(case, outcome, random));
        if let Some((area, length)) = case.told {
            body.put(TOLD + 8 * area, length);
        }
        for (number, area) in case.areas.iter().enumerate() {
            body.add_guard(random);
            body.add_area(number, area);
        }
        body.add_guard(random);
        body
    }

    fn put(&mut self, at: usize, number: u64) {
        self.bytes[at..at + 8].copy_from_slice(&number.to_le_bytes());
    }

    fn add_guard(&mut self, random: &mut Random) {
        let length = 9 + random.below(24);
        self.bytes.extend(random.bytes(length));
    }

    fn add_area(&mut self, number: usize, area: &[u8]) {
        let start = self.bytes.len();
        self.put(
            AREA_PLACES + 8 * number,
            start as u64 | (area.len() as u64) << 32,
        );
        self.bytes.extend(area);
        self.places.push(start..start + area.len());
    }

    /// The bytes that must come back: only the result, the place that is lent beside the areas and
    /// the areas may change.
    pub fn after(&self, outcome: &Outcome) -> Vec<u8> {
        let mut bytes = self.bytes.clone();
        bytes[..8].copy_from_slice(&outcome.result.to_le_bytes());
        if let Some((which, number)) = outcome.place {
            bytes[NUMBERS + 8 * which..][..8].copy_from_slice(&number.to_le_bytes());
        }
        for (place, area) in self.places.iter().zip(&outcome.areas) {
            bytes[place.clone()].copy_from_slice(area);
        }
        bytes
    }

    /// An area as it came back.
    pub fn area_in<'a>(&self, answer: &'a [u8], area: usize) -> &'a [u8] {
        &answer[self.places[area].clone()]
    }

    /// Where a byte of the body stands, in words.
    pub fn place_in_words(&self, call: &Call, at: usize) -> String {
        match self.places.iter().position(|place| place.contains(&at)) {
            Some(area) => {
                let name = call.areas()[area].0;
                format!("byte {} of {name}", at - self.places[area].start)
            }
            None if at < HEADER_BYTES => format!("byte {at} of the request's numbers"),
            None => "a byte that was not lent".to_string(),
        }
    }
}
