//! Damage of a row in a given number of places, also where it is most likely to mislead.

use reference::curve::{points, Code, Point};
use reference::samples::Random;

/// How damaged places lie.
#[derive(Clone, Copy, Debug, PartialEq, Eq)]
pub enum Pattern {
    Scattered,
    Adjacent,
    /// Point by point along as few abscissas as do.
    AlongX,
    /// Point by point along as few ordinates as do.
    AlongY,
    /// Where another row differs, to the symbols of that row.
    Towards,
}

pub const PATTERNS: [Pattern; 5] = [
    Pattern::Towards,
    Pattern::Scattered,
    Pattern::AlongX,
    Pattern::AlongY,
    Pattern::Adjacent,
];

/// All places, those with one value of a coordinate after each other.
fn along(code: &Code, coordinate: fn(&Point) -> u8, random: &mut Random) -> Vec<usize> {
    let size = code.field.size();
    let (rank, points) = (random.places(size, size), points(code.field));
    let mut places: Vec<usize> = (0..code.n()).collect();
    places.sort_by_key(|&place| rank[usize::from(coordinate(&points[place]))]);
    places
}

/// All places, in the order in which they are damaged.
fn order(pattern: Pattern, code: &Code, random: &mut Random) -> Vec<usize> {
    let n = code.n();
    match pattern {
        Pattern::Adjacent => {
            let start = random.below(n);
            (start..start + n).map(|place| place % n).collect()
        }
        Pattern::AlongX => along(code, |point| point.x, random),
        Pattern::AlongY => along(code, |point| point.y, random),
        Pattern::Scattered | Pattern::Towards => random.places(n, n),
    }
}

/// Another symbol for each place. Half of the time all places are changed by the same symbol.
fn changed(row: &[u8], code: &Code, random: &mut Random) -> Vec<u8> {
    let last = code.field.size() - 1;
    let (alike, first) = (random.below(2) == 0, random.below(last));
    let change = |&symbol: &u8| {
        let change = if alike { first } else { random.below(last) };
        code.field.sum(symbol, 1 + change as u8)
    };
    row.iter().map(change).collect()
}

/// The row with exactly this many places changed; damage may go towards the other row, which differs
/// in at least as many.
pub fn damaged_by(
    (pattern, count): (Pattern, usize),
    code: &Code,
    row: &[u8],
    other: &[u8],
    random: &mut Random,
) -> Vec<u8> {
    let to = match pattern {
        Pattern::Towards => other.to_vec(),
        _ => changed(row, code, random),
    };
    let order = order(pattern, code, random).into_iter();
    let mut damaged = row.to_vec();
    for place in order.filter(|&place| to[place] != row[place]).take(count) {
        damaged[place] = to[place];
    }
    damaged
}
